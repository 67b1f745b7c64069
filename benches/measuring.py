"""Functions with which the scripts of this folder measure a program, and print tables of figures."""
import os
import re
import shutil
import subprocess
import sys
from pathlib import Path

SCRIPT = Path(sys.argv[0]).name


def processor_times(words, printed=os.devnull):
    """Runs a program and returns its user and its system time in milliseconds. Its output goes to the file `printed`."""
    output = [(os.POSIX_SPAWN_OPEN, 1, printed, os.O_WRONLY | os.O_CREAT | os.O_TRUNC, 0o666)]
    child = os.posix_spawn(words[0], [str(word) for word in words], os.environ, file_actions=output)
    _, status, used = os.wait4(child, 0)
    if status != 0:
        sys.exit(f"{SCRIPT}: a run failed: {' '.join(map(str, words))}")
    return 1000 * used.ru_utime, 1000 * used.ru_stime


def times(commands, runs):
    """Returns the least processor time of each command in milliseconds. The commands take turns."""
    rounds = [[sum(processor_times(words)) for words in commands] for _ in range(runs)]
    return [min(column) for column in zip(*rounds)]


def instructions(words):
    """Returns the number of instructions of a run, without those of the system, or None if valgrind is missing."""
    if shutil.which("valgrind") is None:
        return None
    call = ["valgrind", "--tool=callgrind", f"--callgrind-out-file={os.devnull}", *words]
    result = subprocess.run(call, stdout=subprocess.DEVNULL, stderr=subprocess.PIPE, text=True, check=True)
    return int(re.search(r"Collected : (\d+)", result.stderr)[1])


def memory(words):
    """Returns the peak of the resident memory of a run in KB, or None if /usr/bin/time is missing."""
    if not os.access("/usr/bin/time", os.X_OK):
        return None
    call = ["/usr/bin/time", "-f", "%M", *words]
    result = subprocess.run(call, stdout=subprocess.DEVNULL, stderr=subprocess.PIPE, text=True, check=True)
    return int(result.stderr.split()[-1])


def number(figure, decimals=0):
    """Formats a figure, or `-` for None."""
    return "-" if figure is None else f"{figure:,.{decimals}f}"


def over(figure, by, decimals=0):
    """Formats a figure divided by another one."""
    return "-" if figure is None or not by else number(figure / by, decimals)


def millions(figure):
    return over(figure, 1_000_000, 2)


def table(title, heads, rows):
    """Prints a table, each row as soon as it is computed."""
    print(f"\n{title}\n", flush=True)
    print("| " + " | ".join(heads) + " |\n|" + "---|" * len(heads))
    for row in rows:
        print("| " + " | ".join(map(str, row)) + " |", flush=True)
