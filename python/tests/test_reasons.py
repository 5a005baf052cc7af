"""Each answer in sentences, failed conditions, and refusals with their place."""
import json
import unittest
from typing import Any, Optional

from coop.desk.reasons import checked, reasons
from coop.desk.report import report
from coop.styles import EXACT, Style
from coop import BadInput

from .asking import needs_node

AIRPORT: dict[str, Any] = {"class": "airport", "costs": [2, 4, 6], "names": ["light", "medium", "heavy"]}
TRIO = {"class": "table", "names": ["s", "p", "d"], "players": 3, "worths": [20, 30, 80, 0, 50, 65, 120]}
MAJORITY = {"class": "table", "players": 3, "worths": [0, 0, 1, 0, 1, 1, 1]}
LEVELS = [
    {"excess": "-1", "coalitions": [[[1], 1], [[2, 3], 1]], "earlier": [], "bounds": [], "total": 1},
    {"excess": "-3/2", "coalitions": [[[1, 2], 1], [[1, 3], 1]], "earlier": [[[1], -1]], "bounds": [], "total": 1},
]
FOUR: dict[str, Any] = {
    "answer": "nucleolus",
    "certificate": {
        "mode": "span",
        "levels": [
            {
                "excess": "-2",
                "coalitions": [[[1, 2], 1], [[1, 2, 3], 1], [[4], 1], [[3, 4], 1]],
                "earlier": [],
                "bounds": [],
                "total": 2,
            },
            {"excess": "-5/2", "coalitions": [[[2], 1], [[1, 3], 1]], "earlier": [[[4], 1]], "bounds": [], "total": 1},
        ],
    },
    "game": {
        "class": "table",
        "players": 4,
        "sparse": [[[1, 2], 4], [[1, 3], 3], [[3, 4], 2], [[1, 2, 3], 6], [[1, 2, 4], 5], [[1, 2, 3, 4], 10]],
    },
    "shares": ["7/2", "5/2", 2, 2],
}


def said(line: Any, document: Any = None, say: Style = EXACT) -> tuple[str, int]:
    """The sentences with single blanks, and the status."""
    beside: Optional[bytes] = None if document is None else json.dumps(document).encode()
    text, status = reasons(json.dumps(line).encode(), beside, say)
    return " ".join(text.split()), status


def solved(**changes: Any) -> dict[str, Any]:
    """The airport's line, with changes."""
    certificate = {"mode": "players", "levels": json.loads(json.dumps(LEVELS))}
    return {
        "answer": "nucleolus",
        "certificate": certificate,
        "game": AIRPORT,
        "shares": ["1", "3/2", "7/2"],
        **changes,
    }


def spoilt(level: int, **changes: Any) -> dict[str, Any]:
    """The airport's line with changes of a level."""
    document = solved()
    document["certificate"]["levels"][level].update(changes)
    return document


PAIRS: dict[str, Any] = {
    "excess": "-2", "coalitions": [[[1, 2], 1], [[1, 3], 1], [[2, 3], 1]], "earlier": [], "bounds": [], "total": 2
}
THIRDS: dict[str, Any] = {
    "answer": "nucleolus",
    "certificate": {"mode": "span", "levels": [PAIRS]},
    "game": {"class": "table", "players": 3, "worths": [0, 0, 0, 0, 0, 0, 3]},
    "shares": [1, 1, 1],
}
BLOCKED = {"answer": "blocked", "coalition": [1], "excess": "1"}
SENTENCES: list[tuple[Any, Any, str]] = [
    ({"answer": "yes"}, None, "The certificate meets all conditions"),
    ({"answer": "core"}, None, "No group could do better by itself than by these shares: they are in the core."),
    (
        BLOCKED,
        {"game": AIRPORT, "shares": [3, 1, 2]},
        (
            "light alone could do better without the others, by 1. It pays 3, where by itself it would cost 2. "
            "No group could do better by more."
        ),
    ),
    (BLOCKED, None, "Player 1 alone could do better without the others, by 1. No group could do better by more."),
    (
        {"answer": "not efficient", "sum": "-6", "total": "6"},
        {"game": AIRPORT, "shares": [-1, -2, -3]},
        "The shares add to −6, and all together cost 6. So they aren’t a division of the whole.",
    ),
    (
        {"answer": "core point", "shares": ["1", "3/2", "7/2"]},
        {"game": AIRPORT},
        "and no proposal. - light: 1 - medium: 1.50 - heavy: 3.50",
    ),
    (
        {
            "against": "2",
            "answer": "empty core",
            "collection": [[[1, 2], 1], [[1, 3], 1], [[2, 3], 1]],
            "k": 2,
            "value": "3",
        },
        {"game": MAJORITY},
        (
            "- player 1 and player 2 together, counted once (worth 1) - player 1 and player 3 together, counted once"
            " (worth 1) - player 2 and player 3 together, counted once (worth 1) So counted these groups hold each"
            " player twice, and are worth 3 by themselves. All together, counted as often, are worth 2; the groups’ sum"
            " is more. So in every division one of them has to get less than by itself."
        ),
    ),
    (
        {"answer": "shapley", "shares": ["2/3", "1/6", "1/6"]},
        {"game": {"class": "voting", "quota": 5, "weights": [4, 2, 1]}},
        "Each voter’s power",
    ),
    (
        {"answer": "shapley", "shares": ["2/3", "5/3", "11/3"]},
        {"game": AIRPORT},
        "What each costs more than those before it",
    ),
    (
        {"answer": "bird", "shares": ["10", "1"], "tree": [[0, 1, 10], [1, 2, 1]]},
        {"game": {"class": "tree", "matrix": [[0, 10, 10], [10, 0, 1], [10, 1, 0]], "names": ["harbour", "mill"]}},
        "- the source to harbour: 10, which harbour pays - harbour to mill: 1, which mill pays",
    ),
    (
        {"answer": "convex", "marginal": ["20", "60", "40"], "shapley": ["125/3", "325/6", "145/6"]},
        {"game": TRIO},
        "- Shapley shares. s: 125/3, p: 325/6, d: 145/6 - In the order of the players. s: 20, p: 60, d: 40",
    ),
    # behind player 1 the third adds 1, and behind 1 and 2 nothing
    (
        {"answer": "not convex", "deficit": "1", "i": 2, "j": 3, "set": [1]},
        {"game": MAJORITY},
        "Player 3 adds 1 less after player 1 alone with player 2 than after player 1 alone: 0, and 1.",
    ),
    ({"answer": "prekernel"}, None, "these shares are in the prekernel"),
    (
        {"answer": "not prekernel", "i": 1, "ij": "-95/6", "j": 2, "ji": "-40/3"},
        {"game": TRIO, "shares": ["125/3", "325/6", "145/6"]},
        (
            "p has a better hold on s. Of the groups with s and without p the greatest excess is −15.83 (exactly "
            "−95/6) (s and d together); of those with p and without s the greatest excess is −13.33 (exactly −40/3) (p "
            "and d together)."
        ),
    ),
    (
        {
            "answer": "matching",
            "buyers best": ["2", "1", "0", "6", "6"],
            "pairs": [[1, 5], [2, 4]],
            "sellers best": ["0", "0", "0", "7", "8"],
            "value": "15",
        },
        {
            "game": {
                "class": "market",
                "matrix": [[5, 8], [7, 6], [6, 6]],
                "names": ["Ann", "Ben", "Cem", "house", "flat"],
            }
        },
        "- Ann with flat, at 6 at least and 8 at most - Ben with house, at 6 at least and 7 at most",
    ),
    (
        {"answer": "no imputation", "singles": "3", "total": "2"},
        None,
        "The players are worth 3 by themselves, added, and 2 all together.",
    ),
    (
        {
            "class": "table",
            "common": "216",
            "first": "1",
            "greatest": "2",
            "last": "3",
            "players": 12,
            "seed": 1,
            "verdict": "yes",
        },
        None,
        "a table of 12 players from the number 1",
    ),
    ({"usage": "players"}, None, "The game has more players than the command serves."),
    (
        {"number": 3, "refused": "Shape"},
        {"game": {"class": "airport", "cost": [2]}},
        (
            "The document is refused: 3 Shape. game.cost: The key “cost” has no place here; is it “costs”?"
        ),
    ),
]

# Each condition, by a document that fails it.
FAILURES: list[tuple[dict[str, Any], str]] = [
    (
        solved(shares=[1, 2, 4]),
        "condition 1. The payments don’t add to what all together cost. They add to 7, and all together cost 6.",
    ),
    (solved(shares=[3, 1, 2]), "condition 2. light pays more than alone. light pays 3, and costs 2 alone."),
    (
        spoilt(0, excess="-2"),
        (
            "condition 3. At level 1: by these shares what light alone would gain or lose by leaving (its excess) "
            "isn’t what the line states. The level has the excess −2, and it is −1."
        ),
    ),
    (
        spoilt(1, coalitions=[[[1, 2], 0], [[1, 3], 1]]),
        "condition 4. At level 2: a weight of light and medium is below 1.",
    ),
    (spoilt(0, bounds=[[2, 0]]), "condition 4. At level 1: a weight of the bound of medium is below 1."),
    (
        spoilt(1, total=2),
        (
            "condition 5. At level 2: the weights at light don’t add to the level’s total. They add to 1, and the "
            "total is 2."
        ),
    ),
    (
        spoilt(0, bounds=[[1, 1], [2, 1], [3, 1]], total=2),
        (
            "condition 6. At level 1: light is said to pay exactly what it costs alone, and that isn’t so (or has no "
            "place here). light pays 1, and costs 2 alone."
        ),
    ),
    (
        {**FOUR, "certificate": {**FOUR["certificate"], "mode": "players"}},
        (
            "condition 7. At level 2: a group that is still open is worse off than the level says; its excess is −2. "
            "The level has the excess −2.50. It is player 1 and player 2 together."
        ),
    ),
    (THIRDS, "its excess is −1. The level has the excess −2. It is player 1 alone."),
    (
        solved(certificate={"mode": "players", "levels": LEVELS[:1]}),
        "condition 8. Behind the last level the share of medium isn’t settled.",
    ),
]


@needs_node
class Reasons(unittest.TestCase):
    def test_sentences(self) -> None:
        for line, document, sentence in SENTENCES:
            text, status = said(line, document)
            self.assertIn(sentence, text)
            self.assertEqual(status, 0)

    def test_cores_of_a_table_of_costs(self) -> None:
        """Its numbers may have been filled in, which nobody tells the program; those of an airport may not."""
        table = {"game": {"class": "cost-table", "players": 2, "worths": [2, 3, 4]}, "shares": [2, 2]}
        for line in ({"answer": "core"}, {"answer": "core point", "shares": ["2", "2"]}):
            self.assertIn("If some of them were filled in, such a group may cost less", said(line, table)[0])
            airport = {"game": {"class": "airport", "costs": [2, 3]}, "shares": [1, 2]}
            self.assertNotIn("filled in", said(line, airport)[0])

    def test_failed_conditions(self) -> None:
        for document, sentence in FAILURES:
            text, status = said(document)
            self.assertIn(sentence, text)
            self.assertEqual(status, 1)

    def test_a_no_beside_its_document(self) -> None:
        line = {"answer": "no", "coalition": [1], "level": 1, "reason": 3}
        self.assertIn("and it is −1.", said(line, spoilt(0, excess="-2"))[0])
        self.assertEqual(
            said(line),
            (
                (
                    "The certificate fails condition 3. At level 1: by these shares what the group 1 would gain or "
                    "lose by leaving (its excess) isn’t what the line states."
                ),
                0,
            ),
        )

    def test_styles(self) -> None:
        """The places, the unit and the mark of the sentences of the page."""
        text = said(solved(), say=Style(2, "EUR"))[0]
        self.assertIn("What all need costs 6.00 EUR.", text)
        self.assertIn("- medium pays 1.50 EUR, 0.50 EUR more than the earlier ones.", text)
        self.assertNotIn("rounded", text)
        self.assertIn("medium pays 1,5 kr, ", said(solved(), say=Style(1, "kr", ","))[0])
        self.assertIn("Rounding. The shares are rounded so that they add up", said(FOUR, say=Style(0))[0])

    def test_a_share_is_rounded_once(self) -> None:
        """The shares of an answer have the table's decimals, which add up."""
        shapley = said({"answer": "shapley", "shares": ["2/3", "2/3", "2/3"]}, say=Style(2))[0]
        self.assertIn("player 1: 0.67 - player 2: 0.67 - player 3: 0.66", shapley)
        beside = {"game": {**AIRPORT, "costs": [6, 6, 2]}, "shares": ["2/3", "8/3", "8/3"]}
        blocked = said({"answer": "blocked", "coalition": [3], "excess": "2/3"}, beside, Style(0))[0]
        self.assertIn("It pays 2, where", blocked)
        thirds = {**THIRDS, "game": {**THIRDS["game"], "worths": [0] * 6 + [10]}, "shares": ["10/3"] * 3}
        alone: dict[str, Any] = {"coalitions": [[[1], 1], [[2], 1], [[3], 1]], "excess": "-10/3"}
        thirds["certificate"] = {"mode": "span", "levels": [{**PAIRS, **alone, "total": 1}]}
        told = said(thirds, say=Style(2))[0]
        self.assertIn("gets at least about 3.33 more than it is worth by itself. Among the worst off of these:", told)
        self.assertIn("is settled: player 1 gets 3.34; player 2 and player 3 get 3.33 each.", told)
        paper = report(thirds, "", Style(2))
        self.assertIn("player 1 gets 3.34; player 2 and player 3 get 3.33 each.", paper)
        self.assertIn("<td>3.34</td><td>10/3</td>", paper)

    def test_a_rule_is_rounded_once(self) -> None:
        """The parts of a runway's rule are those of the table, and what is rounded is about so much."""
        costs = {**AIRPORT, "costs": [2, 4, 5]}
        told = said({**solved(), "game": costs, "shares": ["1", "3/2", "5/2"]}, say=Style(0))
        self.assertEqual(told[1], 0)
        self.assertIn("- medium pays 2, about 1 more than the earlier ones. What it", told[0])
        self.assertIn("- heavy pays 2, about 1 more than the earlier ones. What all need costs 5. "
                      "The 2 earlier ones pay about 3, so about 3 is left.", told[0])

    def test_shares_that_werent_judged(self) -> None:
        blocked = {"answer": "blocked", "coalition": [1], "excess": "1"}
        good: list[tuple[dict[str, Any], list[Any]]] = [
            (blocked, [3, 1, 2]),
            ({"answer": "core"}, [1, "3/2", "7/2"]),
            ({"answer": "not efficient", "sum": "7", "total": "6"}, [1, 2, 4]),
            ({"answer": "prekernel"}, [1, "3/2", "7/2"]),
            ({"answer": "not prekernel", "i": 1, "j": 2, "ij": "1", "ji": "-3"}, [3, 1, 2]),
        ]
        others = [[4, 1, 1], [1, 2, 5], [3, 1, 1]]  # the first add up, as those of the prekernel do
        for line, shares in good:
            said(line, {"game": AIRPORT, "shares": shares})
            for some in others[1:] if line["answer"] == "prekernel" else others:
                with self.assertRaisesRegex(BadInput, "aren’t those that the line judges", msg=f"{line} {some}"):
                    said(line, {"game": AIRPORT, "shares": some})
        per_head = {**AIRPORT, "excess": "per-head"}
        said({"answer": "blocked", "coalition": [1, 2], "excess": "1/2"}, {"game": per_head, "shares": [2, 3, 1]})

    def test_names_are_safe(self) -> None:
        game = {**AIRPORT, "names": ["light\n\n  heavy: 0", "medium\u202e", "heavy"]}
        for line, beside in ((solved(game=game), None), ({"answer": "shapley", "shares": [1, 2, 3]}, {"game": game})):
            text = said(line, beside)[0]
            self.assertIn("light\\u000a\\u000a heavy: 0", text)
            self.assertNotIn("\u202e", text)

    def test_a_line_that_is_none_to_check(self) -> None:
        """Whose number is spoilt is told by name, and what to write, as by `check` and `scripts/slip`."""
        for line, sentence in (
            (solved(shares=[1, "1,5", "7/2"]), r"of medium\): “1,5” is no fraction"),
            (solved(shares=[1, "3/2", 3.5]), r"of heavy\): 3.5 is no whole number"),
            (spoilt(1, excess="-1,5"), r"level 2, excess: The excess is a fraction in lowest terms"),
        ):
            with self.assertRaisesRegex(BadInput, sentence):
                reasons(json.dumps(line).encode(), where="s.json")
            with self.assertRaisesRegex(BadInput, sentence):
                checked(json.dumps(line).encode(), "s.json")
        told = said({"number": 5, "refused": "Number"}, {"game": {"class": "airport", "costs": [1, 2.5]}})[0]
        self.assertIn("game.costs, item 2 (the cost of player 2): 2.5 is no whole number", told)

    def test_what_is_refused(self) -> None:
        cases: list[tuple[bytes, Optional[bytes], str]] = [
            (b'{"answer":"yes","answer":"no"}', None, 'the key "answer" is given twice'),
            (b'{"answer":"perhaps"}', None, "isn’t an answer of the program"),
            (b'{"game":{"class":"airport","costs":[1]}}', None, "isn’t an answer of the program"),
            (b'{"answer":"blocked"}', None, "isn’t a whole answer"),
            (
                b'{"answer":"blocked","coalition":[9],"excess":"1"}',
                json.dumps({"game": AIRPORT}).encode(),
                "9 isn’t a player",
            ),
            (b'{"number":8,"refused":"Estate"}', json.dumps({"game": AIRPORT}).encode(), "is it another document"),
            (b'{"number":99,"refused":"X"}', None, "isn't a refusal"),
            (b'{"answer":"nucleolus","shares":[1]}', None, "no certificate"),
            (json.dumps(solved(shares=[1, 2])).encode(), None, "2 shares for 3 players"),
        ]
        for line, document, sentence in cases:
            with self.assertRaisesRegex(BadInput, sentence):
                reasons(line, document)


if __name__ == "__main__":
    unittest.main()
