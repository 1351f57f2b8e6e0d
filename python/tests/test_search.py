"""A search over many functions, by threads and by processes."""
import multiprocessing
import random
import unittest
from concurrent.futures import ThreadPoolExecutor

import gjcut


def palindromes(count):
    source = random.Random(1)

    def word(length):
        half = [source.choice("+-") for _ in range((length + 1) // 2)]
        return "".join(half + half[: length // 2][::-1])

    for _ in range(count):
        front, back = source.randint(2, 12), source.randint(2, 12)
        yield front, word(front) + word(back)


def claim(front_and_signs):
    try:
        return gjcut.extreme(gjcut.family("two-slope", *front_and_signs)).claim
    except gjcut.Refused as refused:
        return refused.reason


def verdict(function):
    return gjcut.extreme(function)


class Search(unittest.TestCase):
    def setUp(self):
        self.given = list(palindromes(120))
        self.expected = [claim(each) for each in self.given]
        self.assertEqual({"extreme", "not-minimal", "slopes"}, set(self.expected))

    def test_threads(self):
        with ThreadPoolExecutor(4) as pool:
            self.assertEqual(list(pool.map(claim, self.given)), self.expected)

    def test_processes(self):
        for way in ("fork", "spawn"):
            with multiprocessing.get_context(way).Pool(3) as pool:
                self.assertEqual(pool.map(claim, self.given, chunksize=10), self.expected)

    def test_functions_and_verdicts_go_between_processes(self):
        functions = [
            gjcut.by_values("1/2", [0, "2/3", "1/3", 1, "1/3", "2/3"]), gjcut.family("gmic", "3/5")
        ]
        functions.append((functions[0] + gjcut.family("gmic", "1/2")) / 2)
        with multiprocessing.get_context("spawn").Pool(2) as pool:
            found = pool.map_async(verdict, functions).get(60)
        self.assertEqual(found, [gjcut.extreme(function) for function in functions])
        self.assertEqual([each.claim for each in found], ["not-extreme", "extreme", "not-extreme"])


if __name__ == "__main__":
    unittest.main()
