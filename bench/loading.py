"""Programs that the measuring scripts run beside `serve`: those of this folder's C files, and `wrk`."""
import os
import shutil
import subprocess
import sys
import tempfile

from support.talking import Load

BENCH = os.path.dirname(os.path.abspath(__file__))

# Debian's servers stand there, which isn't on each path.
os.environ["PATH"] += ":/usr/sbin"

# What wrk prints at its end: requests, microseconds that it took, microseconds within which half of the requests were answered, 99 of 100, and all,
# and the requests that were answered late, otherwise than 2xx or 3xx, or not at all.
SUMMARY = """done = function(summary, latency, requests)
  local errors = summary.errors
  print(string.format("summary %d %d %d %d %d %d %d %d", summary.requests, summary.duration, latency:percentile(50), latency:percentile(99),
    latency.max, errors.timeout, errors.status, errors.connect + errors.read + errors.write))
end
"""


def need(*programs):
    missing = [name for name in programs if not shutil.which(name)]
    if missing:
        sys.exit("wants %s on the path" % " and ".join(missing))


def compiled(name, folder):
    """The program of a C file of this folder."""
    program = os.path.join(folder, name)
    subprocess.run(["cc", "-O2", "-pthread", "-o", program, os.path.join(BENCH, name + ".c")], check=True)
    return program


def wrk(port, host, connections, seconds):
    """A run of wrk with one thread and so many connections, which are kept open."""
    with tempfile.NamedTemporaryFile("w", suffix=".lua") as script:
        script.write(SUMMARY)
        script.flush()
        done = subprocess.run(["wrk", "-t", "1", "-c", str(connections), "-d", "%ds" % seconds, "-s", script.name, "-H", "Host: " + host,
                               "http://127.0.0.1:%d/cart" % port], stdout=subprocess.PIPE, text=True, check=True)
    return Load(*[int(word) for text in done.stdout.splitlines() if text.startswith("summary ") for word in text.split()[1:]])
