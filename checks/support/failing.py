"""Runs programs of which one call of the C library fails, and counts the calls that they make, by checks/failing_calls.c."""
import contextlib
import os
import re
import shutil
import struct
import subprocess
import tempfile
from dataclasses import dataclass

SOURCE = os.path.join(os.path.dirname(os.path.dirname(os.path.realpath(__file__))), "failing_calls.c")
TOLD = struct.Struct("9i4x")


def functions():
    """The functions whose calls are counted, in the order of their counts."""
    with open(SOURCE) as file:
        return re.findall(r"each\((\w+)\)", file.read().replace("FUNCTIONS(each)", ""))


FUNCTIONS = functions()
COUNTS = struct.Struct("%dq" % (2 + len(FUNCTIONS)))


@dataclass(frozen=True)
class Failure:
    """The call that is to fail: of which function, which one from 1 on, and how: the number of an error, `one`, `half` or `none`."""
    function: str
    number: int
    way: object


@dataclass
class Told:
    """What is known of the call that failed, as struct told of the C file has it."""
    has_failed: int
    descriptor: int
    own_port: int
    peer_port: int
    is_ending: int
    has_bytes: int
    detail: int
    thread: int
    is_ready: int


@dataclass
class Record:
    """A file in which a run's counts stand."""
    path: str

    def counts(self):
        """How many calls of each function the run made; under `open`, how many descriptors were made and not closed; and under `waiting`, how many
        accepts there were at a socket whose calls wait."""
        with open(self.path, "rb") as file:
            file.seek(TOLD.size)
            return dict(zip(["open", "waiting"] + FUNCTIONS, COUNTS.unpack(file.read(COUNTS.size))))

    def told(self):
        with open(self.path, "rb") as file:
            return Told(*TOLD.unpack(file.read(TOLD.size)))


class Library:
    """The compiled C file, in a folder of its own."""

    def __init__(self, folder):
        if not shutil.which("cc"):
            raise RuntimeError("a C compiler, cc, is missing")
        self.folder, self.path = folder, os.path.join(folder, "failing_calls.so")
        subprocess.run(["cc", "-O2", "-shared", "-fPIC", "-o", self.path, SOURCE], check=True)

    @contextlib.contextmanager
    def run_of(self, failure=None, piece=0):
        """The environment of one run, in which this call fails and each call moves at most so many bytes, and the record of the run."""
        with tempfile.NamedTemporaryFile(dir=self.folder) as file:
            file.write(bytes(TOLD.size + COUNTS.size))
            file.flush()
            named = {"LD_PRELOAD": self.path, "FAILING_RECORD": file.name, "FAILING_PIECE": str(piece)}
            if failure:
                named.update(FAILING_CALL=failure.function, FAILING_NUMBER=str(failure.number), FAILING_WAY=str(failure.way))
            yield named, Record(file.name)


@contextlib.contextmanager
def library():
    """The library, until the end."""
    with tempfile.TemporaryDirectory() as folder:
        yield Library(folder)
