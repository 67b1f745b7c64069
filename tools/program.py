"""The program that was proved and built in this checkout, for the scripts that run it. It is never the one in dist/."""
import os
import subprocess
from pathlib import Path

TOP = Path(__file__).resolve().parent.parent


def program_of(given):
    """Returns the path of the program that a script runs: the given one, or the proved one, which is built first if needed."""
    if given is not None:
        return Path(given).resolve()
    subprocess.run([TOP / "aggen", "--build"], stdout=subprocess.DEVNULL, check=True)
    return TOP / "out" / "program" / "aggen"


def run_unread(*words):
    """Runs a command whose output goes to a pipe that nobody reads, and returns its status and its messages."""
    reading, writing = os.pipe()
    os.close(reading)
    with open(writing, "wb") as pipe:
        ran = subprocess.run(words, stdin=subprocess.DEVNULL, stdout=pipe, stderr=subprocess.PIPE)
    return ran.returncode, ran.stderr.decode("utf-8")
