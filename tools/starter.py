#!/usr/bin/env python3
"""Runs programs one after the other, and prints the time and the memory that each took. benches/mutate starts it with `-I -S`:
the kernel counts the memory of the forked process as memory of the run, so this process must be small.

Each line of standard input is a run: its words, separated by tabs. The first word is the time limit in seconds of elapsed time.
The answer is a line: the status (negative if a signal ended the run), the processor time in seconds, and the peak memory in KB.
The output of the run is in the files `out` and `err` of the current folder.
"""
import os
import signal
import sys

WRITING = os.O_WRONLY | os.O_CREAT | os.O_TRUNC


def run(seconds, words):
    """Runs a program; returns its status, its processor time in seconds, and its peak memory in KB."""
    opened = ((0, os.devnull, os.O_RDONLY), (1, "out", WRITING), (2, "err", WRITING))
    actions = [(os.POSIX_SPAWN_OPEN, number, path, how, 0o600) for number, path, how in opened]
    process = os.posix_spawn(words[0], words, os.environ, file_actions=actions)
    signal.signal(signal.SIGALRM, lambda number, _: os.kill(process, signal.SIGKILL))
    signal.setitimer(signal.ITIMER_REAL, seconds)
    _, status, used = os.wait4(process, 0)
    signal.setitimer(signal.ITIMER_REAL, 0)
    return os.waitstatus_to_exitcode(status), used.ru_utime + used.ru_stime, used.ru_maxrss


for line in sys.stdin:
    limit, *words = line.rstrip("\n").split("\t")
    print(*run(float(limit), words), flush=True)
