"""What the commands that read standard input to its end do where that comes in pieces or fails, and where their text can't be written."""
import os
import socket
import subprocess
import tempfile
import threading
import time
import unittest

from support.inputs import head, routes
from support.program import PROGRAM, environment
from support.talking import Talk

SOON = 20
DOOR = "default/g:80=127.0.0.1:18080"
SCRIPT = "".join("event %s\n" % text for text in head().splitlines()) + (
    'publish\nopen c 0 0\nsend c "GET / HTTP/1.1\\r\\nHost: x\\r\\n\\r\\n"\nend c\n')
# Words that read events or a script, and a small input.
READING = [(["status", DOOR], head()), (["explain", "--request", '"GET / HTTP/1.1\\r\\nHost: x\\r\\n\\r\\n"', DOOR], head()),
           (["replay", DOOR], SCRIPT), (["replay", "--polled", DOOR], SCRIPT)]
WRITING = READING + [(["generate", "--seed", "1", "--routes", "3", "--requests", "5"], ""),
                     (["generate", "--seed", "1", "--routes", "3", "--requests", "5", "--run"], "")]


def begin(words, **more):
    return subprocess.Popen([PROGRAM, *words], env=environment([PROGRAM, *words]), stderr=subprocess.PIPE, **more)


def text_of(words, given):
    """What a run that ends well prints."""
    done = subprocess.run([PROGRAM, *words], input=given.encode(), stdout=subprocess.PIPE, env=environment([PROGRAM, *words]), timeout=SOON)
    assert done.returncode == 0, (words, done)
    return done.stdout


class Pipe(unittest.TestCase):
    def test_an_input_that_comes_byte_by_byte(self):
        for words, given in READING:
            with self.subTest(words=words), begin(words, stdin=subprocess.PIPE, stdout=subprocess.PIPE, bufsize=0) as process:
                for byte in given.encode():
                    process.stdin.write(bytes([byte]))
                said, error = process.communicate(timeout=SOON)
                self.assertEqual((process.returncode, said, error), (0, text_of(words, given), b""))

    def test_an_input_that_can_not_be_read(self):
        """A folder can be opened, and not be read."""
        for words, _ in READING:
            folder = os.open("/", os.O_RDONLY)
            with self.subTest(words=words), begin(words, stdin=folder, stdout=subprocess.PIPE) as process:
                os.close(folder)
                said, error = process.communicate(timeout=SOON)
                self.assertEqual((process.returncode, said, error), (3, b'{"fault":"read"}\n', b""))

    def test_an_input_that_fails_behind_a_part(self):
        """A connection that is reset once the program has read what came."""
        for words, given in READING:
            with self.subTest(words=words), socket.create_server(("127.0.0.1", 0)) as listener:
                source = socket.create_connection(listener.getsockname())
                other = Talk(listener.accept()[0])
                other.send(given.encode())
                with begin(words, stdin=source, stdout=subprocess.PIPE) as process:
                    source.close()
                    time.sleep(0.3)
                    other.reset()
                    self.assertEqual((process.wait(SOON), process.stdout.read()), (3, b'{"fault":"read"}\n'))

    def test_words_are_judged_before_the_input(self):
        """Nothing of the input is read, which never ends."""
        for words in (["nope"], ["status", "door"], ["explain", DOOR], ["replay", "--workers", "0", DOOR]):
            with self.subTest(words=words), begin(words, stdin=subprocess.PIPE, stdout=subprocess.PIPE) as process:
                self.assertEqual((process.wait(SOON), process.stdout.read()), (2, b'{"fault":"usage"}\n'))

    def test_a_text_that_nobody_reads(self):
        """And one for which there is no room: no signal ends the program."""
        for words, given in WRITING:
            reading, writing = os.pipe()
            os.close(reading)
            for sink in (writing, os.open("/dev/full", os.O_WRONLY)):
                with self.subTest(words=words), begin(words, stdin=subprocess.PIPE, stdout=sink) as process:
                    os.close(sink)
                    error = process.communicate(given.encode(), timeout=SOON)[1]
                    self.assertEqual((process.returncode, error), (4, b""))

    def test_each_write_fails_in_turn(self):
        """Standard output is a file that has room for so many bytes: these are the front of the text."""
        for words, given in WRITING[:3] + WRITING[4:]:
            text = text_of(words, given)
            for room in list(range(0, len(text), max(1, len(text) // 40))) + [len(text) - 1, len(text)]:
                with self.subTest(words=words, room=room), tempfile.TemporaryFile() as sink:
                    command = ["prlimit", "--fsize=%d" % room, PROGRAM, *words]
                    # Python ignores the signal of a file that has no room, and here so does what it starts.
                    done = subprocess.run(command, input=given.encode(), stdout=sink, timeout=SOON, restore_signals=False)
                    sink.seek(0)
                    self.assertEqual((done.returncode, sink.read()), (0 if room == len(text) else 4, text[:room]))

    def test_a_fault_that_can_not_be_written(self):
        """The exit code is that of the fault."""
        with open("/dev/full", "wb") as sink, begin(["nope"], stdin=subprocess.DEVNULL, stdout=sink) as process:
            self.assertEqual(process.wait(SOON), 2)

    def test_a_reader_who_goes(self):
        """It takes a front of a text of 2 MB and more, and closes: that front is as it would be, and the exit code 4."""
        words, given = ["status", DOOR], routes(4000)
        with begin(words, stdin=subprocess.PIPE, stdout=subprocess.PIPE) as process:
            threading.Thread(target=self.feed, args=(process, given), daemon=True).start()
            front = process.stdout.read(100_000)
            process.stdout.close()
            self.assertEqual(process.wait(SOON), 4)
        self.assertTrue(text_of(words, given).startswith(front), "another front came")

    def test_a_reader_who_is_slow(self):
        """It takes all the same, a part at a time."""
        words, given = ["status", DOOR], routes(1000)
        with begin(words, stdin=subprocess.PIPE, stdout=subprocess.PIPE, bufsize=0) as process:
            threading.Thread(target=self.feed, args=(process, given), daemon=True).start()
            came = b""
            while part := process.stdout.read(5000):
                came += part
                time.sleep(0.002)
            self.assertEqual(process.wait(SOON), 0)
        self.assertTrue(came == text_of(words, given), "another text came")

    @staticmethod
    def feed(process, given):
        process.stdin.write(given.encode())
        process.stdin.close()
