"""The demo's own checks: what it says of a counter, and how its screen is drawn as a picture."""

import importlib.machinery
import importlib.util
import sys
import unittest
import xml.etree.ElementTree as ElementTree
from pathlib import Path

ROOT = Path(__file__).resolve().parents[2]
sys.path += [str(ROOT / "demo"), str(ROOT / "tests/real")]

from load import Counter, Load
from screen import Counts, Node, Screen
from writers import GAVE_UP, LOST


def picture():
    """`demo/picture` as a module."""
    loader = importlib.machinery.SourceFileLoader("picture", str(ROOT / "demo/picture"))
    made = importlib.util.module_from_spec(importlib.util.spec_from_loader("picture", loader))
    loader.exec_module(made)
    return made


class Counters(unittest.TestCase):
    def counter(self, *replies):
        """One that two clients in turn were answered so about."""
        made = Counter(b"key", 2)
        for place, reply in enumerate(replies):
            made.add(place % 2, reply)
        return made

    def test_exact(self):
        """Answers stand in the value; of those lost as many as may be."""
        for value in (3, 4):
            self.assertIsNone(self.counter(b":1\r\n", b":3\r\n", LOST, b":2\r\n", GAVE_UP).fault(value))

    def test_faults(self):
        """An answer that is missing, one that stands twice, and more than were sent."""
        self.assertIn("a reply said 3", self.counter(b":1\r\n", b":3\r\n", LOST, b":2\r\n").fault(2))
        self.assertIn("twice", self.counter(b":1\r\n", b":1\r\n").fault(2))
        self.assertIn("2 were answered, 1 lost", self.counter(b":1\r\n", b":2\r\n", LOST, GAVE_UP).fault(4))

    def test_other_replies(self):
        with self.assertRaises(ValueError):
            self.counter(b"-MOVED 1 127.0.0.1:1\r\n")

    def test_groups(self):
        """Each third of the slots has counters and clients of its own."""
        load = Load([(0, 5460), (5461, 10922), (10923, 16383)])
        self.assertEqual((len(load.groups), load.clients % 3, len({it.key for it in load.counters})), (3, 0, len(load.counters)))


class Pictures(unittest.TestCase):
    def test_picture(self):
        """What stands on the screen stands in the picture, in its color."""
        screen = Screen("a title", "about & more", is_terminal=False)
        screen.add(Counts(2.0, 3000, 4, 5, 6, 7))
        screen.happened("a node is killed")
        lines = screen.lines([Node("127.0.0.1:1", "primary", 5461), Node("127.0.0.1:2", "killed", 0)])
        made = ElementTree.fromstring(picture().picture(lines))
        texts = ["".join(it.itertext()) for it in made.iter("{http://www.w3.org/2000/svg}text")]
        for text in ["a title", "1,500", "3,000", "MOVED 6, ASK 7", "5,461", "0:02  a node is killed", "about & more"]:
            self.assertTrue(any(text in it for it in texts), text)
        red = [it.text for it in made.iter("{http://www.w3.org/2000/svg}tspan") if "#ff7b72" in it.get("style", "")]
        self.assertEqual([it.strip() for it in red], ["killed"])
