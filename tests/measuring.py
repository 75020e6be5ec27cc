"""The most memory that a program takes, and how many instructions, for the scripts that measure."""
import re
import shutil
import subprocess
import tempfile

TIME = shutil.which("time")
VALGRIND = shutil.which("valgrind")


def peak_memory(command, text):
    """The most memory of the command with this text as its input, as the program `time` tells it; `-` where there is none.

    What a script is told of a child of its own is no less than what the script itself takes.
    """
    if TIME is None:
        return "-"
    with tempfile.TemporaryFile() as given, tempfile.NamedTemporaryFile() as told:
        given.write(text)
        given.seek(0)
        subprocess.run([TIME, "-f", "%M", "-o", told.name, *command], stdin=given, stdout=subprocess.DEVNULL, check=False)
        # (the last line, behind one that tells of a status other than 0)
        return f"{int(told.read().split()[-1]) / 1024:.0f} MB"


def instructions(command, text):
    """How many instructions the command takes with this text as its input, in millions, as callgrind counts them; `-` where there is no
    valgrind. The count is the same each time."""
    if VALGRIND is None:
        return "-"
    with tempfile.TemporaryFile() as given, tempfile.NamedTemporaryFile() as counts:
        given.write(text)
        given.seek(0)
        counting = [VALGRIND, "--tool=callgrind", f"--callgrind-out-file={counts.name}", *command]
        subprocess.run(counting, stdin=given, stdout=subprocess.DEVNULL, stderr=subprocess.DEVNULL, check=True)
        counted = re.search(rb"^(?:summary|totals): (\d+)", counts.read(), re.M)
        return f"{int(counted.group(1)) / 1e6:,.1f} M" if counted else "-"
