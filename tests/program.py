"""Runs the program on a workload text, and the reference model in its place."""
import subprocess

import model  # noqa: F401
import oracle
from raid_report import print_report
from raid_world import World, run_fixed


def run(command, text):
    """The status of the command with this text as its input, and what it wrote."""
    done = subprocess.run(command, input=text, capture_output=True, check=False)
    return done.returncode, done.stdout


def expected(text):
    """The status and the output of the model, which takes the letters in the fixed order."""
    w = oracle.read_workload(text)
    if isinstance(w, str):
        return 3, w.encode()
    world = World(w)
    run_fixed(world)
    return 0, print_report(w, world.report())
