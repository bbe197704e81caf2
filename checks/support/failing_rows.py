"""The table of failing calls: what a call of the C library that fails at the program may come to, by docs/reference.md.

A run has one failing call, and at most one thing in it is otherwise than in a run without. A row has the functions, where the call is made, the
ways in which it fails, and the things of which one has to be otherwise; AS_EVER stands for none.
"""
import errno
from dataclasses import dataclass

# What may be otherwise. An end is an exit code with what is written (docs/reference.md, the table of exit codes).
AS_EVER = "as ever"
READ_FAILED = 'exit code 3, {"fault":"read"}'
WRITE_FAILED = "exit code 4, a front of the text"
NOT_BOUND = 'exit code 5, {"fault":"bind"}'
NOT_STARTED = 'exit code 5, {"ready":true} and {"fault":"start"}'
NO_MEMORY = "exit code 6, nothing"
NO_MEMORY_READY = 'exit code 6, {"ready":true}'
# Words with a fault end in its code (docs/proved.md, "Each other exit code has its cause"), also where that can't be written.
USAGE_FRONT = 'exit code 2, a front of {"fault":"usage"}'
# A connection that is given up is closed behind a front of the reply, and the next one is served ("Serving"). At the admin endpoint the same lines
# are sent again then, and taken ("The admin endpoint").
GIVEN_UP = "a client's connection is given up"
CHANGES_GIVEN_UP = "the connection that brings changes is given up"
STATUS_GIVEN_UP = "the connection that asks for the statuses is given up"
# The reply where memory was wanted for a line ("The admin endpoint"). The lines are sent again then, and taken.
CHANGES_STARVED = "changes: 503, with refusal 0"
# The reply to a request whose backend isn't reached, or not to its end ("Which reply a request gets").
OPEN, SEND, RECEIVE = ("a request: 502 " + fault for fault in ("Open", "Send", "Receive"))

# Where a call is made: before `serve` is ready, with which socket, by which job, or at the standard streams.
START = "before it is ready"
ADMIN_LISTENER, DOOR_LISTENER = "the admin endpoint's listening socket", "the door's listening socket"
ADMIN, CLIENT, BACKEND = "a connection of the admin endpoint", "a client's connection", "a connection with the backend"
UNREACHED = "a connection with a backend that isn't there"
ENDING, UNASKED = "a connection that is shut down", "a connection on which nothing is asked"
SET, ADMIN_SET = "what a worker waits for", "what the admin endpoint waits for"
CREW, ADMIN_JOB, WORKER = "the first thread, when it is ready", "the admin endpoint's job", "the worker's job"
INPUT, OUTPUT, WITHIN = "standard input", "standard output", "the command"

CALLED, POLLED = "serve", "serve --polled"
SERVES = (CALLED, POLLED)
# The commands that read standard input, those that read nothing, and words that are no command's.
READERS = ("status", "explain", "replay", "replay --polled")
WRITERS = READERS + ("generate", "generate --run")
WRONG = "unknown"

# Ways in which a call moves a part of its bytes.
PARTS = ("one", "half")


@dataclass(frozen=True)
class Row:
    functions: tuple
    place: str
    ways: tuple
    outcomes: tuple
    commands: tuple


def row(functions, place, ways, *outcomes, commands=SERVES):
    return Row(tuple(functions.split()), place, tuple(ways.split()), outcomes, commands)


ROWS = [
    # The sockets are bound before it is ready.
    row("socket", START, "EMFILE ENOBUFS", NOT_BOUND),
    row("setsockopt ioctl", START, "EINVAL", NOT_BOUND),
    row("bind", START, "EADDRINUSE EACCES", NOT_BOUND),
    row("listen", START, "EADDRINUSE", NOT_BOUND),
    row("fcntl epoll_create1", START, "EMFILE", NOT_BOUND),
    row("epoll_ctl", START, "ENOSPC", NOT_BOUND),
    row("malloc realloc", START, "ENOMEM", NO_MEMORY),
    # That it is ready is written, and then its jobs are started.
    row("write", OUTPUT, "EIO ENOSPC EPIPE none", WRITE_FAILED),
    row("write", OUTPUT, "EINTR one half", AS_EVER),
    row("pthread_create", CREW, "EAGAIN", NOT_STARTED),
    row("malloc realloc", CREW, "ENOMEM", NO_MEMORY_READY, NOT_STARTED),
    # An accept that fails is no reason to stop: the connection that waits is taken by the next one.
    row("accept4", ADMIN_LISTENER, "EMFILE ECONNABORTED EINTR", AS_EVER),
    row("accept4", DOOR_LISTENER, "EMFILE ECONNABORTED EINTR", AS_EVER),
    row("epoll_wait", ADMIN_SET, "EINTR EINVAL none", AS_EVER),
    row("epoll_wait", SET, "EINTR EINVAL none", AS_EVER, commands=(POLLED,)),
    # The admin endpoint.
    row("setsockopt", ADMIN, "EINVAL", CHANGES_GIVEN_UP, STATUS_GIVEN_UP),
    row("epoll_ctl", ADMIN, "ENOSPC", CHANGES_GIVEN_UP, STATUS_GIVEN_UP),
    row("recv", ADMIN, "ECONNRESET EAGAIN", CHANGES_GIVEN_UP, STATUS_GIVEN_UP),
    row("send", ADMIN, "ECONNRESET EPIPE EAGAIN none", CHANGES_GIVEN_UP, STATUS_GIVEN_UP),
    row("recv send", ADMIN, "EINTR one half", AS_EVER),
    row("malloc realloc", ADMIN_JOB, "ENOMEM", CHANGES_STARVED, CHANGES_GIVEN_UP, STATUS_GIVEN_UP, AS_EVER),
    row("clock_gettime", ADMIN_JOB, "EINVAL", AS_EVER),
    # Clients. A call that waits for a client fails after 30 seconds with EAGAIN; a polled one waits then, and is made again.
    row("setsockopt ioctl", CLIENT, "EINVAL", GIVEN_UP),
    row("recv", CLIENT, "ECONNRESET", GIVEN_UP),
    row("send", CLIENT, "ECONNRESET EPIPE none", GIVEN_UP),
    row("recv send", CLIENT, "EAGAIN", GIVEN_UP, commands=(CALLED,)),
    row("recv send", CLIENT, "EAGAIN", AS_EVER, commands=(POLLED,)),
    row("recv send", CLIENT, "EINTR one half", AS_EVER),
    row("epoll_ctl", CLIENT, "ENOSPC", GIVEN_UP, commands=(POLLED,)),
    # Backends.
    row("socket", WORKER, "EMFILE ENOBUFS", OPEN),
    row("connect", BACKEND, "ECONNREFUSED ETIMEDOUT EADDRNOTAVAIL", OPEN),
    row("ioctl setsockopt", BACKEND, "EINVAL", OPEN, commands=(CALLED,)),
    row("poll", BACKEND, "ENOMEM", OPEN, commands=(CALLED,)),
    row("poll", BACKEND, "EINTR none", AS_EVER, commands=(CALLED,)),
    row("getpeername", BACKEND, "ENOBUFS", AS_EVER, commands=(POLLED,)),
    row("send", BACKEND, "ECONNRESET EPIPE none", SEND),
    row("recv", BACKEND, "ECONNRESET", RECEIVE),
    row("send", BACKEND, "EAGAIN", SEND, commands=(CALLED,)),
    row("recv", BACKEND, "EAGAIN", RECEIVE, commands=(CALLED,)),
    row("recv send", BACKEND, "EAGAIN", AS_EVER, commands=(POLLED,)),
    row("recv send", BACKEND, "EINTR one half", AS_EVER),
    row("epoll_ctl", BACKEND, "ENOSPC", OPEN, SEND, RECEIVE, commands=(POLLED,)),
    # A backend that isn't there: the request is answered 502 with Open in a run without a failing call too.
    row("getsockopt", UNREACHED, "ENOBUFS", AS_EVER),
    row("poll", UNREACHED, "EINTR", AS_EVER, commands=(CALLED,)),
    row("getpeername", UNREACHED, "ENOBUFS", AS_EVER, commands=(POLLED,)),
    # What a worker wants besides.
    row("malloc realloc", WORKER, "ENOMEM", GIVEN_UP, AS_EVER),
    row("clock_gettime", WORKER, "EINVAL", OPEN, commands=(CALLED,)),
    row("clock_gettime", WORKER, "EINVAL", GIVEN_UP, OPEN, SEND, RECEIVE, AS_EVER, commands=(POLLED,)),
    # A connection is closed whatever its end comes to, and one on which nothing is asked misses nothing.
    row("shutdown", ENDING, "ENOTCONN", AS_EVER),
    row("setsockopt", ENDING, "EINVAL", AS_EVER),
    row("setsockopt ioctl", UNASKED, "EINVAL", AS_EVER),
    row("recv", ENDING, "ECONNRESET EAGAIN EINTR one half", AS_EVER),
    row("recv", UNASKED, "ECONNRESET EAGAIN EINTR one half", AS_EVER),
    row("epoll_ctl", ENDING, "ENOSPC", AS_EVER, commands=(POLLED,)),
    row("epoll_ctl", UNASKED, "ENOSPC", AS_EVER),
    # A descriptor that can't be closed properly.
    *(row("close", place, "EIO EINTR", AS_EVER) for place in (START, ADMIN_LISTENER, DOOR_LISTENER, CLIENT, BACKEND, ENDING, UNASKED, SET,
                                                            ADMIN_SET)),
    # The commands that read and write.
    row("read", INPUT, "EIO EAGAIN", READ_FAILED, commands=READERS),
    row("read", INPUT, "EINTR one half", AS_EVER, commands=READERS),
    row("write", OUTPUT, "EIO ENOSPC EPIPE none", WRITE_FAILED, commands=WRITERS),
    row("write", OUTPUT, "EIO ENOSPC EPIPE none", USAGE_FRONT, commands=(WRONG,)),
    row("write", OUTPUT, "EINTR one half", AS_EVER, commands=WRITERS + (WRONG,)),
    row("clock_gettime", WITHIN, "EINVAL", AS_EVER, commands=WRITERS),
    row("malloc realloc", WITHIN, "ENOMEM", NO_MEMORY, AS_EVER, commands=WRITERS + (WRONG,)),
    # With --polled, exit code 6 comes too if the system gives no random bytes.
    row("getentropy", START, "EIO", NO_MEMORY, commands=(POLLED,)),
    row("getentropy", WITHIN, "EIO", NO_MEMORY, commands=("replay --polled",)),
]


def rows_of(command):
    return [one for one in ROWS if command in one.commands]


def ways_of(command, function):
    """The ways in which a function fails by some row of a command."""
    return list(dict.fromkeys(way for one in rows_of(command) if function in one.functions for way in one.ways))


def row_of(command, function, place, way):
    """The row of a failing call, or none."""
    found = (one for one in rows_of(command) if function in one.functions and place == one.place and way in one.ways)
    return next(found, None)


def number_of(way):
    """What a way is to the C file: the number of an error, or itself."""
    return getattr(errno, way, way)
