"""Derivations step by step: by hand, and against the plain checker on small random programs."""
import math
import pickle
import random
import unittest
from fractions import Fraction

import gjcut
from gjcut import Column, Constraint, Derivation, Draft, Rejected, Step, derivationcheck
from gjcut._problems import BITS
from gjcut.sentences import CAUSES
from test_proofcheck import EXAMPLES
from test_safe_cut import PROGRAM, X, Program, fractions, multiplier, near

OBJECTIVE = {"x": -4, "y": -5, "z": 2}
DUALS = {"a": "6/5", "b": "2/5", "first": "-1/2"}
# x <= 7/2, of which the cut of the sum 1 is -2x >= -6.
ONE = [X], [Constraint("c", {"x": 1}, "<=", "7/2")]
# Order 6, with the values 0 and 1 in turn.
TURNS = gjcut.by_values("1/2", [0, 1, 0, 1, 0, 1])


def numbers_of(step, *names):
    return [*(step.terms.get(name, 0) for name in names), step.right]


def two_cuts():
    """The program of docs/solver.md with the cuts of its two rows."""
    chain = Derivation(*PROGRAM)
    chain.cut({"first": "3/5", "second": "-1/5"}, name="a")
    chain.cut({"first": "-1/5", "second": "2/5"}, name="b")
    return chain


class ByHand(unittest.TestCase):
    def test_a_chain(self):
        chain = two_cuts()
        first, second = chain.steps
        self.assertEqual(numbers_of(first, *"xyz"), fractions("-5/3", "-5/3", "5/6", "-20/3"))
        self.assertEqual(numbers_of(second, *"xyz"), fractions("-5/2", "-25/4", "5/2", "-75/4"))
        best = chain.linear(DUALS, name="best")
        self.assertEqual((best.terms, best.right), (OBJECTIVE, -19))
        self.assertEqual(best.by, {name: Fraction(m) for name, m in DUALS.items()})
        self.assertTrue(chain.check())
        self.assertEqual(chain.text, (EXAMPLES / "check/derivation/input").read_text())
        self.assertEqual(repr(chain), "<derivation: 3 columns, 2 constraints, 3 steps>")

    def test_a_claim(self):
        chain = two_cuts()
        with self.assertRaises(Rejected) as caught:
            chain.claim(OBJECTIVE, -18, DUALS, name="best")
        rejected = pickle.loads(pickle.dumps(caught.exception))
        self.assertEqual((rejected.step, rejected.cause, rejected.about), ("best", "right", -19))
        self.assertIn("step 'best': with these terms the right side is at most -19", str(rejected))
        self.assertEqual(len(chain.steps), 2)
        # Less is claimed than is shown.
        self.assertEqual(chain.claim({**OBJECTIVE, "x": -3}, -20, DUALS).right, -20)
        twice = {name: 2 * value for name, value in OBJECTIVE.items()}
        self.assertEqual(chain.claim(twice, None, DUALS, times=2, name="t").right, -38)
        self.assertTrue(chain.check())

    def test_causes(self):
        free = [X, Column("z", False, None, None)], [Constraint("c", {"x": "1/2", "z": 1}, ">=", 1)]
        for program, words, cause, about in (
            (PROGRAM, dict(by={"first": 1}), "sign", "first"),
            (PROGRAM, dict(by={"first": 1}, rule="gmic"), "integral", None),
            (PROGRAM, dict(by={"first": -1}, terms={"x": -3, "y": -1}), "bound", "x"),
            (PROGRAM, dict(by={"first": -1}, terms={"x": -1}, right=0), "right", -7),
            (free, dict(by={"c": "1/3"}, rule="gmic"), "free", "z"),
            ((*ONE, TURNS), dict(by={"c": "1/2"}, rule="function"), "other", None),
            (ONE, dict(by={"c": -Fraction(2, 2**126 + 1)}, times=Fraction(1, 3)), "wide", None),
        ):
            chain = Derivation(*program)
            try:
                (found,) = chain.extend([Draft(**words)])
            except Rejected as rejected:
                found = rejected
            self.assertEqual((found.cause, found.about), (cause, about))
            self.assertEqual((found.step, chain.steps), ("s1", ()))
            self.assertEqual(str(found), f"step 's1': {CAUSES[cause].format(about, about)}")

    def test_the_rules_of_a_cut(self):
        columns = [X, Column("y", True, 0, None), Column("z", False, 0, None)]
        row = Constraint("c", {"x": "1/6", "y": "4/3", "z": 1}, "=", "7/2")
        chain = Derivation(columns, [row], TURNS)
        self.assertEqual(numbers_of(chain.cut({"c": 1}, "function"), *"xyz"), [1, 0, 6, 1])
        self.assertTrue(chain.check())
        self.assertIs(chain.check().function, TURNS)
        self.assertEqual(gjcut.check(chain.text).function, TURNS)
        self.assertIsNone(gjcut.check(two_cuts().text).function)
        # 3x + 4y <= 16 and x <= 7/2, turned by the upper bound of x.
        bounded = [X._replace(upper="7/2"), Column("y", True, 0, None)]
        chain = Derivation(bounded, [Constraint("c", {"x": 3, "y": 4}, "<=", 16)])
        cut = chain.cut({"c": "1/4"}, at_upper={"x"}, times=3)
        self.assertEqual(numbers_of(cut, *"xy"), [-4, -4, -16])
        self.assertEqual((cut.at_upper, cut.times), (("x",), 3))
        self.assertTrue(chain.check())

    def test_a_grid(self):
        chain = Derivation(*PROGRAM)
        cut = chain.cut({"first": "3/5", "second": "-1/5"}, grid=4)
        self.assertEqual(numbers_of(cut, *"xyz"), fractions("-3/2", "-3/2", "1", "-20/3"))

    def test_floats(self):
        chain = Derivation(*PROGRAM)
        cut = chain.cut({"first": 0.6, "second": -0.2})
        # The greatest entry is 0.6 times 2. Of 1.2/2**40 the greatest powers of 2 are that times 2
        # is at most it 1/2**41, and that times 3, which is the greatest entry of the second, 1/2**42.
        wanted = {"first": near(0.6, 41), "second": near(-0.2, 42)}
        self.assertEqual(cut.by, wanted)
        # The right side is over 2**100, and with a multiplier over 2**32 too wide. The entry is 1/3
        # of 1, so multipliers have two bits more than are kept.
        fine = [X], [Constraint("c", {"x": 1}, "<=", 3 + Fraction(1, 2**100))]
        cut = Derivation(*fine).linear({"c": -1 / 3})
        self.assertEqual(cut.by, {"c": near(-1 / 3, BITS[-1] + 2)})

    def test_bits(self):
        chain = Derivation(*PROGRAM)
        # Of 1.2/8, which is 0.15, with 2 and with 3: 1/16 and 1/32.
        cut = chain.cut({"first": 0.6, "second": -0.2}, bits=3, name="a")
        self.assertEqual(cut.by, {"first": Fraction(10, 16), "second": Fraction(-6, 32)})
        # The row 5/8 first - 3/16 second: 17/16 x + 1/16 y + 3/16 z + 5/8 s1 - 3/16 s2 = 43/16, f is
        # 11/16, and the cut 1/11 x + 1/11 y + 3/11 z + 10/11 s1 + 3/5 s2 >= 1. With s1 = 7 - 2x - y
        # and s2 = 9 - x - 3y + z it is -128/55 x - 144/55 y + 48/55 z >= -592/55.
        self.assertEqual(numbers_of(cut, *"xyz"), fractions("-128/55", "-144/55", "48/55", "-592/55"))
        # The step has the greatest entry 144/55, so times 0.7 that is 1.83; of the constraint it is
        # 2 times 0.3. Of a quarter of the first, 0.458, a step gets 1/8, and the constraint too.
        for step in (
            chain.linear({"a": 0.7, "first": -0.3}, bits=2),
            chain.claim({"x": 9, "y": 9, "z": 9}, None, {"a": 0.7, "first": -0.3}, bits=2),
            *chain.extend([Draft({"a": 0.7, "first": -0.3})], bits=2),
        ):
            self.assertEqual(step.by, {"a": Fraction(6, 8), "first": Fraction(-2, 8)})
        # A draft of the same call counts by its terms, and without terms as one with the entry 1.
        drafts = [
            Draft({"first": -1}, terms={"x": 16, "y": -1}, name="b"),
            Draft({"first": -1}, name="c"),
            Draft({"b": 0.7, "c": 2.7}),
        ]
        # Of 11.2/4, which is 2.8: with 16 it is 1/8, and with 1 it is 2.
        found = chain.extend(drafts, bits=2)
        self.assertEqual(found[2].by, {"b": Fraction(6, 8), "c": Fraction(2)})

    def test_bits_of_another_type(self):
        chain, by = Derivation(*PROGRAM), {"first": -0.6}
        for call in (
            lambda bits: chain.linear(by, bits=bits),
            lambda bits: chain.cut(by, bits=bits),
            lambda bits: chain.claim({}, None, by, bits=bits),
            lambda bits: chain.extend([Draft(by)], bits=bits),
        ):
            for wrong in (2.0, "4", True, Fraction(4), [4]):
                with self.assertRaisesRegex(TypeError, "^bits: .* write an int from 1 to 64, or No"):
                    call(wrong)
            for wrong in (0, -1, 65, 10**5000):
                with self.assertRaisesRegex(ValueError, "^bits: "):
                    call(wrong)
        self.assertEqual(chain.steps, ())


class Lists(unittest.TestCase):
    def test_many_steps(self):
        chain = two_cuts()
        drafts = [
            Draft({"first": 1}, "gmic"),
            Draft({"a": "6/5", "b": "2/5"}, name="cuts"),
            Draft({"cuts": 1, "first": "-1/2"}, terms=OBJECTIVE, right=-19),
        ]
        none, cuts, best = chain.extend(drafts)
        self.assertEqual((none.step, none.cause), ("s3", "integral"))
        self.assertEqual([cuts.name, best.name, best.right], ["cuts", "s4", -19])
        self.assertEqual(chain.steps[2:], (cuts, best))
        self.assertTrue(chain.check())

    def test_what_is_lost(self):
        chain = two_cuts()
        drafts = [Draft({"a": 1}), Draft({"first": 1}, "gmic", name="n"), Draft({"n": 1, "a": 1})]
        with self.assertRaises(Rejected) as caught:
            chain.extend(drafts)
        self.assertEqual((caught.exception.cause, caught.exception.about), ("lost", "n"))
        self.assertEqual(len(chain.steps), 2)

    def test_records(self):
        chain = Derivation(*ONE)
        (step,) = chain.extend(iter([({"c": -1}, "linear", {"x": -1}, None, (), 1, "s")]))
        self.assertEqual((step.name, step.right), ("s", -3))
        self.assertEqual(chain.extend([]), [])


class Faults(unittest.TestCase):
    def place_of(self, call):
        with self.assertRaises(gjcut.Refused) as caught:
            call()
        self.assertIn(caught.exception.advice, str(caught.exception))
        return str(caught.exception.place), caught.exception.reason

    def test_places_in_the_program(self):
        c, wide = ONE[1][0], 2**127
        for program, place, reason in (
            (([X, X], [c]), "columns[1]", "place"),
            (([X], [c, c]), "constraints[1]", "place"),
            (([X], [c._replace(entries={"y": 1})]), "constraints[0], 'y'", "place"),
            (([X], [c._replace(right=wide)]), "constraints[0], the right side", "number"),
            (([X._replace(upper=wide)], [c]), "columns[0], the upper bound", "number"),
        ):
            self.assertEqual(self.place_of(lambda: Derivation(*program)), (place, reason))
        low = gjcut.by_breakpoints("3/5", [(0, 0), ("3/5", "9/10")])
        self.assertEqual(
            self.place_of(lambda: Derivation(*ONE, low)), ("function", "no function asymmetric 0")
        )
        half = gjcut.family("half", "1/2")
        self.assertEqual(
            self.place_of(lambda: Derivation(*ONE, half)), ("function", "not continuous 0")
        )

    def test_places_in_a_step(self):
        chain, wide = Derivation(*ONE), 2**127
        for call, place, reason in (
            (lambda: chain.linear({"c": wide}), "by, 'c'", "number"),
            (lambda: chain.linear({"c": -1}, times=0), "times", "number"),
            (lambda: chain.linear({"c": -1}, times=-1), "times", "number"),
            (lambda: chain.linear({"c": -1}, grid=0), "grid", "number"),
            (lambda: chain.claim({"x": wide}, 1, {"c": -1}), "terms, 'x'", "number"),
            (lambda: chain.claim({"x": -1}, wide, {"c": -1}), "right", "number"),
            (lambda: chain.claim({"x": -1}, -3, {"c": -1}, at_upper=["x"]), "at_upper", "form"),
            (lambda: chain.extend([Draft({"c": wide})]), "drafts[0], by, 'c'", "number"),
        ):
            self.assertEqual(self.place_of(call), (place, reason))
        self.assertEqual(chain.steps, ())

    def test_what_is_not_there(self):
        chain = Derivation(*ONE)
        for call, said in (
            (lambda: chain.linear({"d": 1}), "by: there is no constraint or step 'd'"),
            (lambda: chain.linear({"s1": 1}), "by: there is no constraint or step 's1'"),
            (lambda: chain.cut({"c": 1}, at_upper=["y"]), "at_upper: there is no column 'y'"),
            (lambda: chain.claim({"y": 1}, 1, {"c": 1}), "terms, 'y': there is no column 'y'"),
            (lambda: chain.cut({"c": 1}, "linear"), "rule: there is no rule 'linear' of a cut"),
            (lambda: chain.claim({}, 1, {"c": 1}, "mir"), "rule: there is no rule 'mir'"),
            (lambda: chain.cut({"c": 1}, "function"), "rule: the derivation has no function"),
            (lambda: chain.linear({"c": 1}, name="c"), "name: another line has the name 'c'"),
            (lambda: chain.linear({"c": 1}, name="a b"), "name: the name 'a b' cannot stand"),
            (lambda: chain.linear({"c": 1e300}), "by: a multiplier has more than 127 bits"),
            (lambda: chain.linear({"c": float("nan")}), "by, 'c': nan is no number"),
            (
                lambda: chain.extend([Draft({"c": -1}), Draft({"s3": 1})]),
                r"drafts\[1\], by: there is no constraint or step 's3'",
            ),
            (lambda: chain.extend([Draft({}, right=1)]), r"drafts\[0\], right: a right side is"),
            (lambda: chain.extend([()]), r"drafts\[0\]: .* has 0 fields: write Draft\(by, rule"),
        ):
            with self.assertRaisesRegex(ValueError, "^" + said):
                call()

    def test_wrong_types(self):
        chain = Derivation(*ONE)
        for call, place, values in (
            (lambda x: chain.linear(x), "by: ", ([("c", 1)], "c", None, 1, {"c"})),
            (lambda x: chain.linear({x: 1}), "by: ", (1, None, b"c")),
            (lambda x: chain.linear({"c": x}), "by, 'c': ", (True, None, 1j, [1])),
            (lambda x: chain.linear({"c": -1}, times=x), "times: ", (0.5, True, None)),
            (lambda x: chain.linear({"c": -1}, grid=x), "grid: ", (4.0, "4", True)),
            (lambda x: chain.linear({"c": -1}, name=x), "name: ", (1, b"s", ["s"])),
            (lambda x: chain.cut({"c": 1}, x), "rule: ", (None, 1, TURNS)),
            (lambda x: chain.cut({"c": 1}, at_upper=x), "at_upper: ", ("x", None, {"x": 1}, [1])),
            (lambda x: chain.claim(x, 1, {"c": 1}), "terms: ", (None, [("x", 1)], "x")),
            (lambda x: chain.claim({x: 1}, 1, {"c": 1}), "terms, .*: ", (1, b"x")),
            (lambda x: chain.claim({"x": x}, 1, {"c": 1}), "terms, 'x': ", (0.5, None, True)),
            (lambda x: chain.claim({}, x, {"c": 1}), "right: ", (0.5, True, [1])),
            (lambda x: chain.extend(x), "drafts: ", ("ab", None, {"c": 1}, 4)),
            (lambda x: chain.extend([x]), r"drafts\[0\]: ", ("ab", None, {"c": 1}, 4)),
            (lambda x: Derivation(x, []), "columns: ", ("ab", None)),
            (lambda x: Derivation(*ONE, x), "function is ", ("gmic", 1)),
        ):
            for value in values:
                with self.assertRaisesRegex(TypeError, "^" + place):
                    call(value)
        self.assertEqual(chain.steps, ())


class AgainstThePlainChecker(unittest.TestCase):
    def test_random_chains(self):
        source, steps, cuts = random.Random(68), 0, 0
        for _ in range(150):
            program = Program(source)
            chain = Derivation(program.columns, program.constraints)
            names = [constraint.name for constraint in program.constraints]
            for _ in range(4):
                drafts, grid = [], source.choice((None, None, 1, 4))
                for _ in range(source.randint(1, 3)):
                    by = {name: multiplier(source) for name in names if source.random() < 0.8}
                    upper = [c.name for c in program.columns if source.random() < 0.5]
                    draft = Draft(by, "gmic", at_upper=upper, times=source.choice((1, 12, "2/3")))
                    drafts.append(draft)
                found = [each for each in chain.extend(drafts, grid) if isinstance(each, Step)]
                names += [each.name for each in found]
                cuts += len(found)
            text = chain.text
            self.assertEqual(derivationcheck.check(text.encode()), (0, "accepted derivation"))
            self.assertEqual(chain.check().text, "accepted derivation\n")
            for step in chain.steps:
                # No greater right side may stand there.
                steps += 1
                head = text.index(f"step {step.name} ")
                claim = f"claim {step.right}\n"
                above = Fraction(math.floor(step.right * 1000) + 1, 1000)
                more = text[head:].replace(claim, f"claim {above}\n", 1)
                status, said = derivationcheck.check((text[:head] + more).encode())
                line = text[:head].count("\n") + 1
                self.assertEqual((status, said), (1, f"rejected line {line} right {step.right}"))
        self.assertGreater(cuts, 300)
        self.assertEqual(steps, cuts)


if __name__ == "__main__":
    unittest.main()
