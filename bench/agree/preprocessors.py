"""Runs incut, gcc and clang on one source, with the same definitions and the same include path."""
import os
import re
import subprocess

from pptokens import tokens_of

SECONDS = 120
BUILT_IN = (
    "__has_include __has_include_next __has_attribute __has_cpp_attribute __has_c_attribute __has_declspec_attribute __has_builtin __has_feature "
    "__has_extension __has_warning __is_identifier __is_target_arch __is_target_vendor __is_target_os __is_target_environment __building_module "
    "__COUNTER__ __INCLUDE_LEVEL__ __BASE_FILE__ __FILE_NAME__ __TIMESTAMP__ __STDC_UTF_16__ __STDC_UTF_32__"
).split()
PREDEFINED = "__LINE__ __FILE__ __DATE__ __TIME__ __STDC__ __STDC_HOSTED__ __STDC_VERSION__".split()
CLOCK = ["-Wno-builtin-macro-redefined", '-D__DATE__="Jan  1 1970"', '-D__TIME__="00:00:00"']
MISSING = re.compile(rb"fatal error: (?:'([^']+)' file not found|([^:\n]+): No such file or directory)")
REFUSAL = re.compile(rb"^([^\n:]+):(?:(\d+):)?(?:\d+:)? (?:fatal )?error: ([^\n]+)", re.MULTILINE)
STOP = re.compile(rb"(?:^|\n)stop (\d+\.\d+) (\d+) ([^\n]+)\n\Z")


class Broken(Exception):
    """A run that neither answers nor refuses."""


class Answer:
    """Tokens, and why there are no more: for a compiler its errors by path, line and text, for incut a stop by cause, line and path."""

    def __init__(self, tokens, refusals=(), stop=None):
        self.tokens, self.refusals, self.stop = tokens, list(refusals), stop


def compilers_macros(path):
    """Writes the macros of gcc to a file, without those that each preprocessor has of its own."""
    done = subprocess.run(["gcc", "-std=c17", "-dM", "-E", "-x", "c", os.devnull], stdout=subprocess.PIPE, check=True)
    lines = [it for it in done.stdout.decode().splitlines() if it.split(" ")[1] not in PREDEFINED]
    with open(path, "w", encoding="ascii") as out:
        out.writelines(it + "\n" for it in lines)
    return path


class Setup:
    """What all preprocessors are told. Stand-ins for missing headers lie deep below `room`, as their names may begin with `..`."""

    def __init__(self, command, room, dirs, words, is_bare):
        self.command, self.dirs, self.words = command, dirs, words
        self.defines = None if is_bare else compilers_macros(os.path.join(room, "defines"))
        self.list = os.path.join(room, "list")
        self.room = os.path.join(room, "stand-ins", "")
        self.stand_ins = os.path.join(self.room, *"12345678")
        os.makedirs(self.stand_ins, exist_ok=True)

    def options(self, before):
        return [word for it in self.dirs for word in (before, it)] + [word for it in self.words for word in ("-D", it)]


def run(words):
    try:
        return subprocess.run(words, stdin=subprocess.DEVNULL, stdout=subprocess.PIPE, stderr=subprocess.PIPE, timeout=SECONDS, check=False)
    except subprocess.TimeoutExpired as fault:
        raise Broken(f"{words[0]}: no end after {SECONDS} seconds") from fault


def preprocess(setup, source):
    """The answer of incut."""
    defines = ["--defines", setup.defines] if setup.defines else []
    done = run([*setup.command, "-0", "--files", setup.list, "--missing-empty", *defines, *setup.options("-I"), source])
    if done.returncode not in (0, 1):
        raise Broken(f"incut: status {done.returncode}: {(done.stdout[:200] + done.stderr[:200]).decode(errors='replace').strip()}")
    stop = STOP.search(done.stdout) if done.returncode == 1 else None
    if done.returncode == 1 and stop is None:
        raise Broken("incut: status 1 and no stop")
    text = done.stdout[: stop.start()] if stop else done.stdout
    return Answer(tokens_of(text), stop=(stop[1].decode(), int(stop[2]), os.fsdecode(stop[3])) if stop else None)


def stand_in(setup, said):
    """Makes an empty file for the header that a compiler misses; false where it misses none, or has it already."""
    missing = MISSING.search(said)
    if missing is None:
        return False
    path = os.path.normpath(os.path.join(setup.stand_ins, os.fsdecode(missing[1] or missing[2])))
    if os.path.exists(path) or not path.startswith(setup.room):
        return False
    os.makedirs(os.path.dirname(path), exist_ok=True)
    with open(path, "wb"):
        return True


def compile_only(setup, compiler, source, *options):
    """The answer of a compiler, which gets a stand-in for each header that it misses."""
    defines = ["-imacros", setup.defines] if setup.defines else []
    words = [compiler, "-E", "-P", "-std=c17", "-undef", "-nostdinc", *(f"-U{it}" for it in BUILT_IN), *CLOCK, *defines, *options]
    words += [*setup.options("-I"), "-I", setup.stand_ins, source]
    done = run(words)
    while done.returncode and stand_in(setup, done.stderr):
        done = run(words)
    refusals = [(os.fsdecode(it[1]), int(it[2] or 0), it[3].decode(errors="replace")) for it in REFUSAL.finditer(done.stderr)]
    if done.returncode and not refusals:
        raise Broken(f"{compiler}: status {done.returncode}: {done.stderr[-600:].decode(errors='replace').strip()}")
    return Answer(tokens_of(done.stdout), refusals)
