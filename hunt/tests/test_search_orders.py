"""All that small programs can come to: what the search says against what an interpreter finds that tries every order."""

import unittest

from all_ends import met_ends
from lib.engine import Options
from small_programs import explored, image_of, random_program, reserving_step, step, waiting_step
from test_search import CAN_BUILD, NO_COMPILER

@unittest.skipUnless(CAN_BUILD, NO_COMPILER)
class EveryOrder(unittest.TestCase):
    """Of small random programs the search meets each outcome that any order has, with as few forced switches, and no other."""

    def compare(self, seed, code, threads, costs_are_equal, **options):
        how, met, met_hang = met_ends(image_of(code), Options(steps=100000, **options))
        found, hang = explored(code, threads)
        self.assertEqual((how, set(met), met_hang), ("all", set(found), hang), seed)
        for outcome, cost in found.items():
            if costs_are_equal:
                self.assertEqual(met[outcome], cost, (seed, outcome))
            self.assertLessEqual(met[outcome], cost, (seed, outcome))
        return hang

    def test_costs(self):
        for seed in (1, 3, 6, 10, 12, 14, 19, 24, 25, 30, 32, 37, 114, 125):
            self.compare(seed, *random_program(seed, step), costs_are_equal=True)

    def test_hangs(self):
        seeds = (*range(20, 25), 26, 31, 32, 36, 37, 38, 40, 43, 44, 47, 54)
        hangs = sum(self.compare(seed, *random_program(seed, waiting_step), costs_are_equal=False) for seed in seeds)
        self.assertTrue(0 < hangs < len(seeds))

    def test_short_turns(self):
        """A turn that is ended for nothing loses no end, wherever that comes."""
        for seed in (2, 8, 14, 47, 59, 85, 121, 166):
            self.compare(seed, *random_program(seed, reserving_step, 2), costs_are_equal=False, turn=5)

    def test_reservations(self):
        """LR and SC on own and shared words, with places between them, locks, and waiting loops, of two and three threads."""
        hangs = sum(self.compare(seed, *random_program(seed, reserving_step, 2), costs_are_equal=False) for seed in RESERVING)
        self.assertTrue(0 < hangs < len(RESERVING))


# Of the first seeds with few states: those with three threads, with a hang, or with the most ends.
RESERVING = (2, 3, 8, 14, 27, 39, 42, 47, 52, 53, 59, 63, 70, 71, 78, 79, 82, 84, 85, 89, 90, 91, 94, 97, 112, 117, 121, 122, 127,
             131, 132, 138, 146, 147, 149, 154, 160, 166, 181, 185, 194, 196, 206, 209, 211, 215, 216, 219, 223, 242)

if __name__ == "__main__":
    unittest.main()
