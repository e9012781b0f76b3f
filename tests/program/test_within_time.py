"""What the sweeps of this run took, those of the modules whose names stand before this one's."""

import unittest

from program import SWEEPS

# Seconds that they may take together; those of tests/rows may take the rest of five minutes.
MOST = 70


class Sweeps(unittest.TestCase):
    def test_sweeps_take_less(self):
        taken = sum(SWEEPS.values())
        print(f"{len(SWEEPS)} sweeps took {taken:.0f} s, of at most {MOST}")
        self.assertLess(taken, MOST)
