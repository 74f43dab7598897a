"""Times a program on inputs of growing sizes."""
import ctypes
import os
import re
import statistics
import subprocess
import sys
import tempfile
import time

TOP = os.path.dirname(os.path.dirname(os.path.abspath(__file__)))
PR_SET_CHILD_SUBREAPER = 36


def program(name):
    """The first word of this one, or else the built program of this name."""
    return sys.argv[1] if len(sys.argv) > 1 else os.path.join(TOP, "crates", name, "out", name)


def run(command, words, path, wanted=0):
    """Seconds and peak kilobytes of one run with these words on this input, which ends with the wanted status.

    A shell starts the program and ends, so that the peak isn't that of this interpreter before it became the program;
    the program then becomes a child of this process, which is its subreaper.
    """
    ctypes.CDLL(None).prctl(PR_SET_CHILD_SUBREAPER, 1, 0, 0, 0)
    begin = time.perf_counter()
    subprocess.run(["sh", "-c", 'input=$1; shift; "$0" "$@" <"$input" >/dev/null &', command, path, *words], check=True)
    _, status, usage = os.wait4(-1, 0)
    seconds = time.perf_counter() - begin
    if os.waitstatus_to_exitcode(status) != wanted:
        sys.exit(f"status {status} of {command} {' '.join(words)} on {path}")
    return seconds, usage.ru_maxrss


def instructions(command, words, path=os.devnull):
    """The instructions of one run with these words on this input, counted by valgrind."""
    with open(path) as file:
        lines = subprocess.run(["valgrind", "--tool=callgrind", "--callgrind-out-file=/dev/null", command, *words],
                               stdin=file, stdout=subprocess.DEVNULL, stderr=subprocess.PIPE, check=False, text=True).stderr
    return int(re.search(r"Collected *: *(\d+)", lines).group(1))


def table(what, sizes, text=lambda size: "", words=lambda size: ["run"], name="whips"):
    """Prints, for the input and the words of each size, the median seconds of nine runs, the peak memory, and the growth.
    Returns the seconds."""
    print(f"{what:>8} {'seconds':>9} {'kilobytes':>10} {'time':>6} {'memory':>7}")
    before = None
    medians = []
    for size in sizes:
        with tempfile.NamedTemporaryFile("w", suffix=".json") as file:
            file.write(text(size))
            file.flush()
            runs = [run(program(name), words(size), file.name) for _ in range(9)]
        seconds = statistics.median(r[0] for r in runs)
        memory = max(r[1] for r in runs)
        growth = "" if before is None else f"{seconds / before[0]:6.2f} {memory / before[1]:7.2f}"
        print(f"{size:8} {seconds:9.4f} {memory:10} {growth}")
        before = (seconds, memory)
        medians.append(seconds)
    return medians
