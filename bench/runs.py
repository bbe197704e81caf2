"""What a run of a command over an input takes."""
import os
import subprocess
import sys
import tempfile
import time

from support.program import environment


def run(command, path):
    """Seconds, and peak memory in bytes, of one run. `time` starts it, so that its memory isn't this script's."""
    with open(path, "rb") as source, open(os.devnull, "wb") as sink:
        begin = time.perf_counter()
        process = subprocess.run(["/usr/bin/time", "-f", "%M"] + command, stdin=source, stdout=sink, stderr=subprocess.PIPE,
                                 env=environment(command))
        seconds = time.perf_counter() - begin
    if process.returncode != 0:
        sys.exit("%s ended with %d: %s" % (command[0], process.returncode, process.stderr.decode()))
    return seconds, int(process.stderr.split()[-1]) * 1024


def runs(commands, text, count):
    """So many runs of each command over the text: of each its fastest time in seconds, and its peak memory in bytes."""
    with tempfile.NamedTemporaryFile("w", delete=False) as file:
        file.write(text)
    measured = [[run(command, file.name) for _ in range(count)] for command in commands]
    os.unlink(file.name)
    return [(min(seconds for seconds, _ in of), max(memory for _, memory in of)) for of in measured]
