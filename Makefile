# `make` builds the program without checking its proofs, where no proved one is there; `make proved` checks them all.
PREFIX = /usr/local
DESTDIR =
DIST = incut-$(shell sed -n 's/^pub(crate) const VERSION: &str = "\([0-9.]*\).*/\1/p' crates/inc_args/src/help.rt)-$(shell uname -m)-linux

.PHONY: all proved check install dist
all:
	@./incut --version

proved:
	tools/build-proved

check:
	./test

install:
	tools/install "$(DESTDIR)$(PREFIX)"

dist:
	rm -rf out/dist
	tools/install --static out/dist/$(DIST)
	tar -C out/dist --sort=name --owner=0 --group=0 --numeric-owner -czf out/$(DIST).tar.gz $(DIST)
	rm -rf out/dist
	@echo out/$(DIST).tar.gz
