"""What gateward-view does, by its words."""
import os
import sys
import time

from gateward_words import Refused

from . import source
from .findings import Picture
from .objects import Objects
from .tables import tables
from .texts import Unread
from .words import USAGE, read_words


def say(text):
    print(f"gateward-view: {text}", file=sys.stderr)


def picture_of(words):
    status = source.statuses(words)
    # (the numbers of refused lines are those of the events where both are of one run, and an endpoint keeps none)
    objects = Objects(source.event_lines(words), {it.line for it in status.refused})
    return Picture(status, objects, words.doors, source.rows(words))


def show(words):
    """Prints the tables once. Colours are for a terminal alone, where NO_COLOR isn't set."""
    colours = sys.stdout.isatty() and not os.environ.get("NO_COLOR")
    text, is_wrong = tables(picture_of(words), words.problems, colours)
    if words.watch:
        text = ("\33[H\33[2J" if sys.stdout.isatty() else "") + time.strftime("%H:%M:%S\n\n") + text + "\n"
    sys.stdout.write(text)
    sys.stdout.flush()
    return 1 if words.problems and is_wrong else 0


def watch(words):
    """Prints the tables each two seconds, until it is ended. An endpoint that isn't reached is tried again."""
    while True:
        try:
            show(words)
        except Unread as error:
            say(error)
        time.sleep(2)


def write_page(words):
    from .page import page
    text = page(picture_of(words), source.explanation(words), words)
    with open(words.html, "w", encoding="utf-8") as file:
        file.write(text)
    return 0


def run(words):
    if words.html:
        return write_page(words)
    return watch(words) if words.watch else show(words)


def main(words):
    if "--help" in words:
        print(USAGE, end="")
        return 0
    try:
        return run(read_words(words))
    except Refused as fault:
        say(fault)
        print(USAGE, end="", file=sys.stderr)
        return 2
    except Unread as fault:
        say(fault)
        return 3
    except BrokenPipeError:
        sys.stderr.close()
        return 4
    except OSError as error:
        say(f"what is to be written can't be: {error}")
        return 4
    except KeyboardInterrupt:
        return 130
