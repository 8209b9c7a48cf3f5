"""A compiler that has `incut pp --gnu` for its preprocessor and is gcc behind it: bench/builds has packages built with it.

Usage: compiler.py SETUP WORD..

WORD is one of gcc's, SETUP the file that bench/builds writes. Each C source among the words is preprocessed by incut, in the folder of the package, and
gcc compiles the text in its place. Where incut stops, the line of the stop goes to standard error and the status is 1: gcc never preprocesses a source
that is compiled. Words that ask for dependencies, as -MMD and -MF, are without effect then. With -E the text of incut is the answer. A command without a
C source goes to gcc as it is, and so does one that asks for something else of the preprocessor: -M, -MM, -C, -dM and their like.

incut has no -U: gcc's macros and words of -D that it takes away are not handed on. With -include and the words of FOREIGN nothing is compiled.

Each source leaves a line in the log of SETUP, in JSON, and so does each command that goes to gcc.
"""
import hashlib
import json
import os
import re
import resource
import subprocess
import sys
import tempfile

FOLDERS = ("-iquote", "-I", "-isystem", "-idirafter")
VALUES = (*FOLDERS, "-D", "-U")
# a word follows these that is no source
NEXT = ("-L", "-l", "-MF", "-MT", "-MQ", "-Xlinker", "-Xassembler", "-u", "-T", "-z", "-e", "--param", "-aux-info", "-A")
# with these gcc prints what incut does not
OTHER = ("-M", "-MM", "-C", "-CC", "-dM", "-dD", "-dN", "-dI", "-dU")
# the options that change a compiler's macros or directories begin so
MACROS = ("-O", "-std", "-ansi", "-f", "-m", "-pthread", "-undef", "-nostdinc", "-pie", "-no-pie", "-static", "-shared")
# incut has nothing for these
FOREIGN = ("-include", "-imacros", "-iprefix", "-iwithprefix", "-isysroot", "--sysroot", "-Xpreprocessor", "-traditional", "@")
MARKER = re.compile(rb'^# \d+ "[^"\n]*"')
TEXT = (".c", ".h", ".inc", ".def", ".in", ".inl", ".tbl")


class Fault(Exception):
    """Why a source is not compiled."""


class Command:
    """The words of a command line: where its C sources stand, and what a preprocessor has to know of the others."""

    def __init__(self, words):
        self.words, self.sources, self.languages, self.flags, self.definitions = words, [], [], [], []
        self.folders = {name: [] for name in FOLDERS}
        self.language, self.output, self.places = "none", None, iter(range(len(words)))
        for place in self.places:
            self.read(place, words[place])

    def following(self):
        """The place of the next word, which belongs to the one before."""
        return next(self.places, len(self.words) - 1)

    def read(self, place, word):
        name = next((it for it in VALUES if word.startswith(it)), None)
        if name:
            self.take(name, word[len(name):] or self.words[self.following()])
        elif word.startswith("-x"):
            place = place if word[2:] else self.following()
            self.language = self.words[place].removeprefix("-x")
            self.languages.append(place)
        elif word == "-o":
            self.output = self.words[self.following()]
        elif word in NEXT:
            self.following()
        elif word.startswith(("-", "@")) and word != "-":
            self.flags.append(word)
        elif self.language == "c" or self.language == "none" and word.endswith(".c"):
            self.sources.append(place)

    def take(self, name, value):
        if name in FOLDERS:
            self.folders[name].append(value)
        else:
            self.definitions.append((name, value))

    def kind(self):
        """What gcc is run for, or `unit`. Of what stands on standard input gcc takes care."""
        if not self.sources:
            return "no source"
        if any(it in OTHER for it in self.flags):
            return "preprocessing"
        return "standard input" if any(self.words[k] == "-" for k in self.sources) else "unit"

    def with_texts(self, texts):
        """The words with texts in place of the sources."""
        places = dict(zip(self.sources, texts))
        places |= {k: self.words[k].replace("c", "cpp-output") for k in self.languages if self.words[k] in ("c", "-xc")}
        return [places.get(k, word) for k, word in enumerate(self.words)]

    def words_and_gone(self):
        """The definitions that are left in the end, and the names that have none."""
        left, gone = {}, set()
        for kind, value in self.definitions:
            name = value.partition("=")[0].partition("(")[0]
            left.pop(name, None)
            (gone.add if kind == "-U" else gone.discard)(name)
            if kind == "-D":
                left[name] = value
        return list(left.values()), gone


class Setup:
    """What bench/builds says of a build: incut and options of it, the folder of the package, gcc's directories, a list of their files, and where to
    write."""

    def __init__(self, path):
        with open(path, encoding="utf-8") as text:
            self.__dict__.update(json.load(text))

    def path(self, written):
        """A path as incut has it: from the folder of the package on, or absolute where it is outside of that."""
        path = os.path.abspath(written)
        return os.path.relpath(path, self.top) if path == self.top or path.startswith(self.top + "/") else path

    def include_path(self, command):
        """The words of the include path whose directories are there."""
        return [word for name in FOLDERS for it in command.folders[name] if os.path.isdir(it) for word in (name, self.path(it))]

    def compiler(self, command, gone):
        """A file with the macros and the directories that gcc has from the start with the flags of a command. It is made once for the same flags."""
        flags = [it for it in command.flags if it.startswith(MACROS)]
        path = os.path.join(self.room, "compiler-" + hashlib.sha256("\0".join([*flags, "", *sorted(gone)]).encode()).hexdigest()[:20])
        if not os.path.exists(path):
            done, used = run_of([self.describe, "gcc", *flags, "--", *self.asking])
            self.log(kind="macros", own=used)
            if done.returncode:
                raise Fault(f"gcc does not print its macros with {' '.join(flags)}")
            with tempfile.NamedTemporaryFile("wb", dir=self.room, delete=False) as out:
                lines = done.stdout.splitlines(keepends=True)
                out.writelines(it for it in lines if os.fsdecode(it.split(maxsplit=2)[1].partition(b"(")[0]) not in gone)
            os.rename(out.name, path)
        return path

    def files(self, source, folders):
        """The list of files: gcc's and the system's, and those that are there now of the package and of other folders of the include path."""
        with open(self.system, "rb") as text:
            listed = text.read()
        others = [it for it in folders if os.path.isabs(it) and not any(f"{it}/".startswith(f"{own}/") for own in self.dirs)]
        found = {os.fsencode(self.path(it)) for folder in (self.top, *others) for it in files_below(folder)} | {os.fsencode(source)}
        return listed + b"".join(it + b"\0" for it in sorted(found))

    def log(self, **entry):
        line = json.dumps(entry) + "\n"
        file = os.open(self.log_file, os.O_WRONLY | os.O_APPEND | os.O_CREAT, 0o644)
        os.write(file, line.encode())
        os.close(file)


def files_below(folder, above=()):
    """The sources and headers below a folder, links followed, but not to a folder that they are below. A build may take folders away meanwhile."""
    real = os.path.realpath(folder)
    try:
        found = [] if real in above else list(os.scandir(folder))
    except FileNotFoundError:
        return
    for it in found:
        if it.is_dir():
            yield from files_below(it.path, (*above, real))
        elif it.name.endswith(TEXT) and it.is_file():
            yield it.path


def seconds(of):
    used = resource.getrusage(of)
    return used.ru_utime + used.ru_stime


def run_of(words, **more):
    """A finished command, and the processor's seconds of it."""
    before = seconds(resource.RUSAGE_CHILDREN)
    done = subprocess.run(words, capture_output=True, check=False, **more)
    return done, seconds(resource.RUSAGE_CHILDREN) - before


def squeezed(text):
    """A text without white space and line markers."""
    return b"".join(it for it in text.splitlines() if not MARKER.match(it)).translate(None, b" \t\v\f\r")


def by_gcc(setup, command, folders, source):
    """What gcc's own preprocessor makes of a source in the same folder and with the same paths, on incut's date, and the seconds of it."""
    # -g3 would have the macros printed as well
    flags = [it for it in command.flags if not it.startswith(("-M", "-g")) and it not in ("-c", "-S", "-E", "-P")]
    words = ["gcc", "-E", "-P", "-w", *flags, *(name + value for name, value in command.definitions), *folders, "-x", "c", source]
    return run_of(words, cwd=setup.top, env={**os.environ, "SOURCE_DATE_EPOCH": "0"})


def compared(ours, done, used):
    """What the log has of gcc's own preprocessor: its time, and where its text differs, white space apart. It makes none of options that it does not know."""
    ours, theirs = squeezed(ours), squeezed(done.stdout)
    if ours == theirs or done.stderr.startswith(b"gcc: error: "):
        return {"gcc": used}
    place = next((k for k, pair in enumerate(zip(ours, theirs)) if pair[0] != pair[1]), min(len(ours), len(theirs)))
    return {"gcc": used, "differ": [it[max(0, place - 60) : place + 60].decode(errors="replace") for it in (ours, theirs)]}


def preprocessed(setup, command, written):
    """The text that incut makes of a source."""
    source, (definitions, gone) = setup.path(written), command.words_and_gone()
    folders = setup.include_path(command)
    words = [*setup.words, "--files", "-", "-0", "--compiler", setup.compiler(command, gone), *(word for it in definitions for word in ("-D", it)), *folders]
    done, used = run_of([setup.program, "pp", "--gnu", "--follow", *words, "--", source], cwd=setup.top, input=setup.files(source, folders[1::2]))
    entry = {"kind": "unit", "source": source, "seconds": used}
    theirs, used = by_gcc(setup, command, folders, source) if setup.compares or done.returncode else (None, 0)
    if done.returncode:
        said = done.stdout.rstrip(b"\n").rpartition(b"\n")[2] if done.returncode in (1, 4) else done.stderr
        fault = said.decode(errors="replace").strip()
        setup.log(**entry, stop=fault, is_refused=theirs.returncode != 0)
        raise Fault(f"{written}: {fault}")
    setup.log(**entry, **(compared(done.stdout, theirs, used) if setup.compares else {}))
    return done.stdout


def write_texts(setup, command, room):
    """Writes the text of each source below a room, and returns their paths. Their names are those of the sources, of which gcc makes the names of objects."""
    foreign = next((it for it in command.flags if it.startswith(FOREIGN)), None)
    if foreign:
        raise Fault(f"there is no option of incut for {foreign}")
    paths = []
    for number, place in enumerate(command.sources):
        written = command.words[place]
        os.mkdir(os.path.join(room, str(number)))
        paths.append(os.path.join(room, str(number), os.path.splitext(os.path.basename(written))[0] + ".i"))
        text = preprocessed(setup, command, written)
        with open(paths[-1], "wb") as out:
            out.write(text)
    return paths


def put(command, texts):
    """Writes texts to where -E has them."""
    with open(command.output, "wb") if command.output else open(1, "wb", closefd=False) as out:
        for path in texts:
            with open(path, "rb") as text:
                out.write(text.read())
    return 0


def answered(setup, command):
    """The status of a command with C sources."""
    with tempfile.TemporaryDirectory(dir=setup.room) as room:
        try:
            texts = write_texts(setup, command, room)
        except Fault as fault:
            print(f"incut: {fault}", file=sys.stderr)
            return 1
        if "-E" in command.flags:
            return put(command, texts)
        # the lines of a text are long, so that gcc is not to show them
        return subprocess.run(["gcc", *command.with_texts(texts), "-fno-diagnostics-show-caret"], check=False).returncode


def main():
    setup, command = Setup(sys.argv[1]), Command(sys.argv[2:])
    if command.kind() == "unit":
        status = answered(setup, command)
        setup.log(kind="answered", own=seconds(resource.RUSAGE_SELF))
        return status
    setup.log(kind=command.kind(), words=command.words, own=seconds(resource.RUSAGE_SELF))
    return os.execvp("gcc", ["gcc", *command.words])


if __name__ == "__main__":
    sys.exit(main())
