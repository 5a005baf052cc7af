"""Series and data frames of pandas: names are kept, and a frame is never taken for a game."""
import os
import re
import subprocess
import sys
import unittest
from fractions import Fraction
from typing import Any, Callable, Iterator, Optional

import coop
from coop.program import TOP

from .asking import Answering, needs_program

AIRPORT = coop.airport({"light": 2, "medium": 4, "heavy": 6})
EXAMPLE = os.path.join(TOP, "python", "examples", "data_frame.py")
# What readers tried: a Series in another order, and a frame whose column labels are numbers.
TRIED = """
import coop, numpy, pandas
from coop import sensitivity, runways, variants
estate = coop.bankruptcy(5, pandas.Series([3, 7], index=[17, 3]))
game = coop.airport({"light": 2, "medium": 4, "heavy": 6})
shares = pandas.Series(["1", "3/2", "7/2"], index=game.names)
print(coop.propose(game, shares), coop.propose(game, shares.sort_values(ascending=False)))
groups = pandas.Series({"Bob": 0, "Ann": 0, "Ann+Bob+Cem": 12, "Cem": 0, "Ann+Bob": 6, "Ann+Cem": 2, "Bob+Cem": 2})
print(coop.table(groups) == coop.table(dict(groups)))
frame = pandas.DataFrame([[1.0, 2, 3.5], [4, 5, 9.25]])
ways = [lambda: coop.table(frame, order="mask"), lambda: coop.airport(frame), lambda: coop.propose(game, frame),
        lambda: coop.table(frame.to_numpy(), order="mask", digits=2), lambda: coop.tree(frame),
        lambda: coop.landings(frame), lambda: coop.table(groups, order="size"),
        lambda: coop.airport(pandas.Series([1.0, float("nan")], index=["a", "b"]), digits=2),
        lambda: coop.table(pandas.Series([1.0, float("nan")], ["Bray", "Bray+Dart"], name="P017"), digits=2),
        lambda: coop.table(numpy.array([1.0, float("nan"), 3]), digits=2),
        lambda: coop.airport(pandas.Series([1, 2], index=[1.5, float("nan")])),
        lambda: coop.landings([("a", 1, numpy.int64(0))]), lambda: coop.shapley(estate).to_pandas(places=-1),
        lambda: coop.table(pandas.Series([1, 2, 3, 4, 5, 6, 7])),
        lambda: sensitivity.along(estate, ("claim", numpy.int64(1)), -1, 1)]
for way in ways:
    try:
        print("taken:", way())
    except coop.BadInput as fault:
        print(fault)
path = sensitivity.along(estate, ("claim", estate_label := pandas.Index([17, 3])[0]), -1, 1)
three = numpy.int64(3)
print(estate_label, path.at(0) == sensitivity.along(estate, ("claim", "17"), -1, 1).at(0),
      variants.without(estate, [17]).names, coop.landings([("Aer", 2, three)]).names,
      runways.shapley([("Aer", 2, three)]))
objects = numpy.array(["1/2", 3, None], dtype=object)
print(coop.airport(objects[:2]).amounts, coop.airport(numpy.float32([0.5, 2]), digits=three).amounts,
      coop.landings(pandas.DataFrame([["A", 2, 1]]).to_numpy()).names, coop.assignment(numpy.array([[1, 2]])).n)
found = sensitivity.ranges(coop.airport([1, 2]))
print(list(pandas.DataFrame(found).columns), list(pandas.DataFrame(sensitivity.margins(coop.nucleolus(game)))["room"]))
"""
SAID = """InCore() InCore()
True
a DataFrame of 2 x 3 isn't a list of numbers: one row is one game
a DataFrame of 2 x 3 isn't a list of numbers: one row is one game
a DataFrame of 2 x 3 isn't a list of numbers: one row is one game
a ndarray of 2 x 3 isn't a list of numbers: one row is one game
a data frame isn't a list of rows: give the rows that frame.to_numpy().tolist() has, and \
names=[*frame.index, *frame.columns], or [*frame.columns][1:] of a network
a data frame isn't a list of rows: give the rows that frame.to_numpy().tolist() has
`order` is for a vector, not for a mapping; the labels of a Series name the groups: give its .to_numpy()
b: nan isn't a number
P017, Bray+Dart: nan isn't a number
number 2: nan isn't a number
a label is missing (nan): each number needs a name
a: 0 isn't a number of landings: give a whole number, 1 or more
-1 isn't a number of digits from 0 to 40
each label is one number, and no group: give a vector, such as .to_numpy(), and its `order`
1 isn't a player: there are 17, 3; give a name, not a place
17 True ['3'] ['Aer 1', 'Aer 2', 'Aer 3'] {'Aer': Fraction(2, 1)}
[Fraction(1, 2), Fraction(3, 1)] [Fraction(1, 2), Fraction(2, 1)] ['A 1'] 3
['what', 'number', 'down', 'up', 'below', 'above', 'matters'] [None, Fraction(1, 1), None, Fraction(1, 1), None, None]
"""


class Labelled:
    """What a Series of pandas is here: labels and values, of which the values are gone through."""

    ndim = 1

    def __init__(self, items: dict[str, Any]):
        self.own = items

    def __iter__(self) -> Iterator[Any]:
        return iter(self.own.values())

    def __getitem__(self, label: str) -> Any:
        return self.own[label]

    def keys(self) -> Any:
        """The labels."""
        return self.own.keys()

    def items(self) -> Any:
        """The labels and the values."""
        return self.own.items()


class Frame(Labelled):
    """What a data frame is here."""

    ndim, shape = 2, (2, 3)


def python_with_pandas() -> Optional[str]:
    """A Python that has pandas, if there is one."""
    for python in (sys.executable, "/usr/bin/python3"):
        words = [python, "-c", "import pandas"]
        if os.path.exists(python) and not subprocess.run(words, stderr=subprocess.DEVNULL).returncode:
            return python
    return None


def printed(words: list[str]) -> str:
    """What a program prints."""
    settings = {**os.environ, "PYTHONPATH": os.path.join(TOP, "python")}
    done = subprocess.run(words, env=settings, stdout=subprocess.PIPE, stderr=subprocess.STDOUT)
    return done.stdout.decode()


class Labels(unittest.TestCase):
    def test_a_series_has_names(self) -> None:
        costs: Any = Labelled({"light": 2, "medium": 4, "heavy": 6})
        self.assertEqual(coop.airport(costs), AIRPORT)
        groups: dict[str, Any] = {"b": 2, "a+b": 5, "a": 1}
        table: Any = Labelled(groups)
        self.assertEqual(coop.table(table).tree, coop.table(groups).tree)
        with self.assertRaisesRegex(coop.BadInput, "the labels of a Series name the groups"):
            coop.table(table, order="mask")

    def test_shares_by_name(self) -> None:
        program = Answering(0, '{"answer":"core"}')
        shares: Any = Labelled({"heavy": "7/2", "light": 1, "medium": "3/2"})
        coop.propose(AIRPORT, shares, program=program)
        self.assertIn(b'"shares":[1,"3/2","7/2"]', program.asked[0][1])
        for wrong in ({"0": 1, "1": 2, "2": 3}, {"light": 1, "medium": 2}):
            unnamed: Any = Labelled(wrong)
            with self.assertRaisesRegex(coop.BadInput, "light, medium, heavy"):
                coop.propose(AIRPORT, unnamed, program=program)

    def test_a_frame_is_refused(self) -> None:
        frame: Any = Frame({"0": [1, 4], "1": [2, 5], "2": [3, 9]})
        ways: list[Callable[[Any], Any]] = [coop.table, coop.cost_table, coop.airport]
        ways.append(lambda it: coop.bankruptcy(1, it))
        for way in ways:
            with self.assertRaisesRegex(coop.BadInput, "a Frame of 2 x 3 .*: one row is one game"):
                way(frame)
        with self.assertRaisesRegex(coop.BadInput, "one row is one game"):
            coop.propose(AIRPORT, frame, program=Answering(0))

    def test_games_of_the_same_document(self) -> None:
        self.assertEqual(coop.airport([1, 2]), coop.airport(["1", Fraction(2)]))
        self.assertEqual(len({coop.airport([1, 2]), coop.airport([1, 2]), coop.airport([1, 3])}), 2)
        self.assertNotEqual(coop.airport([1, 2]), coop.airport({"a": 1, "b": 2}))

    @needs_program
    def test_what_readers_tried(self) -> None:
        """With pandas, if some Python here has it."""
        python = python_with_pandas()
        said = printed([python, "-c", TRIED]) if python else SAID
        self.assertEqual(said, SAID)

    @needs_program
    def test_the_recipe(self) -> None:
        """The page shows the program, and what it prints; it runs where some Python has pandas."""
        with open(os.path.join(TOP, "docs", "python.md"), encoding="utf-8") as file:
            shown = re.findall(r"```python\n(\"\"\"A data frame(?:.*\n)*?)```\n```text\n((?:.*\n)*?)```", file.read())
        with open(EXAMPLE, encoding="utf-8") as file:
            text = file.read()
        python = python_with_pandas()
        self.assertEqual(shown, [(text, printed([python, EXAMPLE]) if python else shown[0][1])])


if __name__ == "__main__":
    unittest.main()
