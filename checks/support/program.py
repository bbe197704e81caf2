"""The built program, and how it is run."""
import os
import subprocess
import sys

TOP = os.path.dirname(os.path.dirname(os.path.dirname(os.path.realpath(__file__))))
# GATEWARD names another program than the built one.
PROGRAM = os.path.realpath(os.environ.get("GATEWARD") or os.path.join(TOP, "crates", "gateward", "out", "gateward"))


def build():
    """Has the program built, where it isn't and no other one is named."""
    if "GATEWARD" in os.environ:
        return
    built = subprocess.run([os.path.join(TOP, "bin", "gateward"), "status"], stdin=subprocess.DEVNULL, stdout=subprocess.DEVNULL)
    if built.returncode != 0:
        sys.exit("gateward does not run")


def environment(command):
    """The environment of a command: for the program, with what bin/gateward sets for its memory."""
    if command[0] != PROGRAM:
        return None
    name = "serving=" if command[1] == "serve" else "memory="
    with open(os.path.join(TOP, "bin", "gateward")) as file:
        memory = [text.rstrip()[len(name):] for text in file if text.startswith(name)]
    return {**os.environ, "GLIBC_TUNABLES": memory[0]}
