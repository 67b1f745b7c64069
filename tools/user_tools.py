"""What tools/page and tools/picture share: they find the program, run it, and print what they have made.

./install installs both, as aggen-page and aggen-picture, and their modules, such as this file, in share/aggen/tools.
"""
import os
import shutil
import subprocess
import sys


class Refused(Exception):
    """A message, and the exit status."""


def program_for(folder):
    """Returns the program that a tool runs: $AGGEN_PROGRAM, the `aggen` in the tool's folder (of an installation), the one in the
    folder above (of a checkout), or the one in the path."""
    near = (str(it / "aggen") for it in (folder, folder.parent) if (it / "aggen").is_file())
    return os.environ.get("AGGEN_PROGRAM") or next(near, None) or shutil.which("aggen") or "aggen"


def run_program(program, *words):
    """Runs a command of the program, and returns its status and its output. Fails if there is no such program."""
    try:
        return subprocess.run([program, *words], stdin=subprocess.DEVNULL, capture_output=True)
    except OSError as fault:
        raise Refused(f"{program} can't be run ({fault.strerror}), install aggen, or name the program by --program", 2) from None


def print_text(text):
    """Prints a text, and returns the exit status. A failure has the message and the status that the program has, also if whoever
    reads the output has stopped to."""
    try:
        with open(1, "wb", closefd=False) as out:
            out.write(text.encode("utf-8"))
    except OSError:
        print("O2 the output could not be written completely", file=sys.stderr)
        return 8
    return 0
