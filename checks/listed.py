"""Whether the tables of README.md are those of all checks."""
import os
import re
import unittest

FOLDER = os.path.dirname(os.path.abspath(__file__))


def defined():
    """Each check by its module, class and name, as it is written: what is made twice stands once."""
    for name in sorted(os.listdir(FOLDER)):
        if name.endswith(".py"):
            with open(os.path.join(FOLDER, name)) as file:
                for found in re.finditer(r"^class (\w+)|^    def (test_\w+)", file.read(), re.M):
                    owner = found[1] or owner
                    if found[2]:
                        yield "%s.%s.%s" % (name[:-3], owner, found[2])


def told():
    """Each check that a table names."""
    with open(os.path.join(FOLDER, "README.md")) as file:
        for found in re.finditer(r"^\| `(?:(\w+\.\w+)|(test_\w+))` \|", file.read(), re.M):
            owner = found[1] or owner
            if found[2]:
                yield "%s.%s" % (owner, found[2])


class Table(unittest.TestCase):
    def test_the_table_names_each_check(self):
        self.assertEqual(sorted(told()), sorted(defined()))
