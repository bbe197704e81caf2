"""Statuses behind each of many drawn changes, beside a second evaluation of all objects that are held."""
import json
import os
import subprocess
import sys

from support.checking import HOST, Check, post
from support.serving import gateward
from support.talking import get, talk

CASES = os.path.join(os.path.dirname(os.path.dirname(os.path.abspath(__file__))), "cases")
# Its script has the changes, of all kinds of objects; it shows the rows behind each, as `replay` serves by them.
CASE = os.path.join(CASES, "replay-drawn-changes")
sys.path.insert(0, CASES)
from worlds import World, compact, in_order, status_line  # noqa: E402


def drawn_events():
    """The events of the script."""
    script = subprocess.run(["./make-input"], cwd=CASE, stdout=subprocess.PIPE, text=True, check=True).stdout
    return [line.removeprefix("event ") for line in script.splitlines() if line.startswith("event ")]


def words_of_case():
    """The controller, and the DOORs without their sockets."""
    with open(os.path.join(CASE, "words")) as file:
        words = file.read().split()
    return words[1].split("=")[1], [word.split("=")[0] for word in words if "=127." in word]


class Drawn(Check):
    def test_the_statuses_behind_each_change(self):
        """They are those of all objects, whatever was kept from before the change."""
        controller, doors = words_of_case()
        with gateward(doors=doors, options=["--controller", controller]) as serving, talk(serving.admin) as client:
            world = World(controller, ["%s=127.0.0.1:%d" % door for door in zip(doors, serving.ports)])
            for number, event in enumerate(drawn_events()):
                self.assertEqual(client.ask(post(event.encode(), "/changes")).code(), 200, event)
                world.take(number, json.loads(event))
                statuses = [in_order(of_kind) for of_kind in (world.classes(), world.gateways(), world.routes())]
                wanted = [status_line(*one) for of_kind in statuses for one in of_kind] + [compact({"front": world.changes})]
                self.assertEqual(client.ask(get(HOST, "/status")).body.decode().splitlines(), wanted, event)
