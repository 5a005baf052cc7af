"""What both the package and the page work out for themselves, since each needs it without the other: that it is the
same. Names are compared in test_names, games and what groups are worth by tools/gate."""
import json
import subprocess
import unittest
from fractions import Fraction
from pathlib import Path
from random import Random
from typing import Any, Optional

from coop import filling, networks, runways
from coop.errors import BadInput
from coop.program import TOP
from coop.styles import rounded

from .asking import needs_node

BY_THE_PAGE = """
const of = (name) => import(new URL(name, "FOLDER/"));
const [{ roundedSteps }, { Rational }, { unpacked }, { costsOfNetwork }, { nucleolusOf, shapleyOf }, { fillSplits }]
  = await Promise.all(["exact/decimals.js", "exact/rational.js", "cases/tables.js", "work/networks.js",
    "work/runways.js", "work/splits.js"].map(of));
const told = {
  fill: ({ names, numbers, how }) => {
    return unpacked(fillSplits({ typed: { names, numbers }, mark: ".", costs: true, how }).state).numbers;
  },
  network: (what) => costsOfNetwork({ ...what, mark: "." }).typed?.numbers ?? null,
  runway: (rows) => {
    const exact = rows.map(([cost, count]) => ({ cost: Rational.of(cost), count }));
    return [nucleolusOf, shapleyOf].map((rule) => rule(exact).map(String));
  },
  round: ({ shares, places }) => roundedSteps(shares.map(Rational.of), places).map(String),
};
const asked = JSON.parse(await new Response(process.stdin).text());
console.log(JSON.stringify(asked.map(([task, what]) => told[task](what))));
"""
COUNT = 60


def by_the_page(task: str, cases: list[Any]) -> list[Any]:
    """What the page's modules find of each case."""
    code = BY_THE_PAGE.replace("FOLDER", Path(TOP, "page", "src").as_uri())
    asked = json.dumps([[task, case] for case in cases]).encode()
    done = subprocess.run(["node", "--input-type=module", "-e", code], input=asked, stdout=subprocess.PIPE, check=True)
    found: list[Any] = json.loads(done.stdout)
    return found


@needs_node
class Both(unittest.TestCase):
    def test_groups_that_nobody_costed(self) -> None:
        """Each as its cheapest split, and as its cheapest cover by groups that have a number."""
        draw = Random(1)
        cases: list[Any] = []
        wanted: list[list[Fraction]] = []
        for k in range(COUNT):
            n, how = draw.randint(2, 6), ("split", "larger")[k % 2]
            everyone = 2**n - 1
            given = {1 << i: Fraction(draw.randint(1, 60), draw.choice([1, 2, 4])) for i in range(n)}
            given.update({group: Fraction(draw.randint(1, 90)) for group in range(1, everyone) if draw.random() < 0.3})
            given[everyone] = Fraction(draw.randint(1, 120))
            missing = [group for group in range(1, everyone) if group not in given]
            found = filling.cheapest(given, missing, within=how != "split")
            every = {**given, **{item.group: item.amount for item in found}}
            wanted.append([every[group] for group in range(1, everyone + 1)])
            numbers = ["", *(str(given.get(group, "")) for group in range(1, everyone + 1))]
            cases.append({"names": [f"N{i}" for i in range(n)], "numbers": numbers, "how": how})
        for case, mine, theirs in zip(cases, wanted, by_the_page("fill", cases)):
            self.assertEqual([Fraction(number) for number in theirs[1:]], mine, case)

    def test_networks_without_some_links(self) -> None:
        """What each group's cheapest network costs, by way of others; none where it joins not all."""
        draw = Random(2)
        cases: list[Any] = []
        wanted: list[Optional[list[Fraction]]] = []
        for _ in range(COUNT):
            names = [f"N{i}" for i in range(draw.randint(1, 6))]
            points = ["source", *names]
            links = {
                (i, j): Fraction(draw.randint(0, 40), draw.choice([1, 1, 2]))
                for i in range(len(points)) for j in range(i + 1, len(points)) if draw.random() < 0.7
            }
            try:
                given = {(points[i], points[j]): cost for (i, j), cost in links.items()}
                wanted.append(networks.table_of_links(given, names=names).amounts[1:])
            except BadInput:
                wanted.append(None)
            cases.append({"names": names, "links": {f"{i}-{j}": str(cost) for (i, j), cost in links.items()}})
        self.assertTrue(any(mine is None for mine in wanted))
        for case, mine, theirs in zip(cases, wanted, by_the_page("network", cases)):
            self.assertEqual(theirs and [Fraction(number) for number in theirs[1:]], mine, case)

    def test_runways_of_any_number(self) -> None:
        draw = Random(3)
        cases: list[list[tuple[str, int]]] = [
            [(str(Fraction(draw.randint(0, 30), draw.randint(1, 3))), draw.randint(1, 200)) for _ in range(size)]
            for size in (1, 2, 3, 5, 9, 20) for _ in range(8)
        ]
        for case, found in zip(cases, by_the_page("runway", cases)):
            for rule, theirs in zip((runways.nucleolus, runways.shapley), found):
                mine = rule([(str(k), cost, count) for k, (cost, count) in enumerate(case)])
                each = [mine[str(k)] / count for k, (_, count) in enumerate(case)]
                self.assertEqual([Fraction(share) for share in theirs], each, case)

    def test_decimals_that_add_up(self) -> None:
        draw = Random(4)
        drawn = ([Fraction(draw.randint(-500, 900), draw.randint(1, 60)) for _ in range(draw.randint(1, 9))]
                 for _ in range(COUNT))
        cases: list[Any] = [{"shares": list(map(str, shares)), "places": draw.randint(0, 4)} for shares in drawn]
        for case, theirs in zip(cases, by_the_page("round", cases)):
            mine = rounded([Fraction(share) for share in case["shares"]], case["places"])
            self.assertEqual([int(step) for step in theirs], mine, case)


if __name__ == "__main__":
    unittest.main()
