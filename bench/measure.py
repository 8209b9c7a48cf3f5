"""Runs commands in turns on one core, several rounds, and prints medians with ratios: of the clock, or of the processor's time."""
import argparse
import os
import shutil
import statistics
import subprocess
import sys
import tempfile
import time


TOP = os.path.dirname(os.path.dirname(os.path.abspath(__file__)))
TIME = shutil.which("time")


def parser_of(doc):
    """A parser of the words of the command line, by the text at the head of a program, that knows those which say what is measured."""
    parser = argparse.ArgumentParser(usage=doc.split("\n\n")[1].removeprefix("Usage: "), allow_abbrev=False)
    parser.add_argument("--quick", action="store_true", help="measure the program that `incut` builds from bodies alone")
    parser.add_argument("--program", metavar="FILE", help="measure FILE [default: the proved program of these sources, which has to be there]")
    return parser


def program_of(given):
    """The program that is measured: the one that is named, or with --quick the one that `incut` builds from bodies alone, or else the proved one.

    Without these words there is nothing to measure where no proved program of these sources is there.
    """
    if given.program:
        return os.path.abspath(given.program)
    place, make = ("out/incut", "make_quick") if given.quick else ("crates/incut/out/incut", 'is_fresh "$proved"')
    if subprocess.run(["bash", "-c", f'. "$0" && {make}', f"{TOP}/tools/program"], check=False).returncode:
        sys.exit(f"{sys.argv[0]}: there is no {'quick program' if given.quick else 'proved program of these sources: run `make proved`, or give --quick'}")
    return os.path.join(TOP, place)


def program_and_words(doc):
    """The program that is measured, and the other words of the command line."""
    given, words = parser_of(doc).parse_known_args()
    return program_of(given), words


def spawn(words, stdin_path):
    """Runs a command whose output is thrown away. Returns seconds of the clock and what the system says that it used."""
    with open(stdin_path or os.devnull, "rb") as stdin, open(os.devnull, "wb") as out:
        begun = time.perf_counter()
        child = subprocess.Popen(words, stdin=stdin, stdout=out, stderr=subprocess.PIPE)
        said = child.stderr.read()
        _, status, usage = os.wait4(child.pid, 0)
        seconds = time.perf_counter() - begun
    child.returncode = os.waitstatus_to_exitcode(status)
    if child.returncode != 0:
        lines = said.decode(errors="replace").splitlines()
        raise RuntimeError(f"status {child.returncode}: {lines[0] if lines else 'it said nothing'}")
    return seconds, usage


def times_of(command, stdin_path):
    """Seconds of the clock and of the processor of one run. Nothing stands between: a starter would add its own time, more than that of a small run."""
    seconds, usage = spawn(command, stdin_path)
    return seconds, usage.ru_utime + usage.ru_stime


def peak_of(command, stdin_path):
    """Peak memory in bytes, of a run of its own.

    The system counts the memory of whoever starts a process as its own, so `time`, which is small, starts it where there is one.
    """
    if not TIME:
        return spawn(command, stdin_path)[1].ru_maxrss * 1024
    with tempfile.NamedTemporaryFile() as peak:
        spawn([TIME, "-q", "-f", "%M", "-o", peak.name, *command], stdin_path)
        return int(peak.read()) * 1024


def rounds_of(commands, rounds):
    """The clock's and the processor's seconds of each run of commands by name, words and standard input, which take turns."""
    runs = {name: [] for name, _, _ in commands}
    for _ in range(rounds):
        for name, command, stdin_path in commands:
            runs[name].append(times_of(command, stdin_path))
    return runs


def medians(runs):
    """Medians of the clock's and the processor's seconds of the runs of each command."""
    return {name: tuple(statistics.median(it[k] for it in them) for k in (0, 1)) for name, them in runs.items()}


def runs_of(commands, rounds, processor):
    """The seconds of each run of each command by its name, those of the clock or of the processor, its peak memory in bytes, and why those that do not
    run don't. They take turns, so that what else the machine does meets all alike."""
    runs, peaks, faults = {name: [] for name, _, _ in commands}, {}, {}
    for name, command, stdin_path in commands:
        try:
            peaks[name] = peak_of(command, stdin_path)
        except RuntimeError as fault:
            faults[name] = str(fault)
    for _ in range(rounds):
        for name, command, stdin_path in commands:
            if name not in faults:
                runs[name].append(times_of(command, stdin_path)[processor])
    return runs, peaks, faults


def compare(commands, size, rounds, processor=False):
    """Prints a table of commands by name, words and standard input. The first is ours, and each ratio is to its time, of the clock or of the processor.

    Returns seconds and peak bytes of each command that runs, by its name.
    """
    os.sched_setaffinity(0, {min(os.sched_getaffinity(0))})
    print(f"{size / 1e6:.1f} MB, medians of {rounds} runs on one core{', processor time' if processor else ''}")
    print(f"{'command':<32}{'seconds':>9}{'MB/s':>9}{'times ours':>12}{'peak MB':>9}{'peak/input':>12}")
    ours = None
    rows = {}
    all_runs, peaks, faults = runs_of(commands, rounds, processor)
    for name, runs in all_runs.items():
        if name in faults:
            print(f"{name:<32} does not run on this input: {faults[name]}")
            continue
        seconds, peak = statistics.median(runs), peaks[name]
        ours = ours or seconds
        rows[name] = (seconds, peak)
        print(f"{name:<32}{seconds:>9.3f}{size / 1e6 / seconds:>9.0f}{seconds / ours:>12.2f}{peak / 1e6:>9.1f}{peak / size:>12.1f}")
    return rows


def compare_sums(commands, size, rounds):
    """Prints a table of names and the processor time of several commands each, as many for each name: the first of each take turns, then the
    second, so that all meet the same speed of the machine. Returns seconds and the peak bytes of the largest command, by name."""
    os.sched_setaffinity(0, {min(os.sched_getaffinity(0))})
    print(f"{size / 1e6:.1f} MB, medians of {rounds} runs on one core, processor time of all together")
    print(f"{'command':<32}{'seconds':>9}{'MB/s':>9}{'times ours':>12}{'peak MB':>9}")
    runs = {name: [0.0] * rounds for name, _ in commands}
    for turn in range(rounds):
        for alike in zip(*(parts for _, parts in commands)):
            for (name, _), part in zip(commands, alike):
                runs[name][turn] += times_of(part, None)[1]
    rows = {}
    for name, parts in commands:
        seconds, peak = statistics.median(runs[name]), max(peak_of(part, None) for part in parts)
        rows[name] = (seconds, peak)
        ours = next(iter(rows.values()))[0]
        print(f"{name:<32}{seconds:>9.3f}{size / 1e6 / seconds:>9.0f}{seconds / ours:>12.2f}{peak / 1e6:>9.1f}")
    return rows
