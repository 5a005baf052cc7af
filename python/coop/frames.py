"""A certificate at a change of a game: slopes of its shares and levels there, and how far it holds."""
from __future__ import annotations

from fractions import Fraction
from math import lcm
from typing import Iterator, Optional, Sequence

from .answers import Nucleolus, Shares
from .errors import BadInput
from .game import MOST_IN_A_TABLE
from .levels import Level, by_last_level, is_open, level_of, open_tests
from .linear import solution, sums
from .masks import members
from .moving import Moving
from .widest import Many

Limit = tuple[int, Optional[int]]
"""A group, and the level whose excess it may have at most; without one, what it gets is at least what it is worth."""


class Frame:
    """A certificate at a change t, and slopes of its shares and levels there. Inside, a cost is a negative worth."""

    def __init__(self, moving: Moving, rule: str, t: Fraction, answer: Nucleolus, factor: int):
        self.moving, self.rule, self.t, self.n = moving, rule, t, moving.game.n
        self.certificate = answer.certificate
        self.levels: list[Level] = [level_of(level) for level in self.certificate["levels"]]
        values = [moving.sign * share for share in answer.shares.values()]
        self.values = [q / factor for q in [*values, *(level.excess for level in self.levels)]]
        self.tight: list[Limit] = [(moving.game.everyone, None)]
        for k, level in enumerate(self.levels):
            self.tight += [(group, k) for group, _ in level.coalitions]
            self.tight += [(player, None) for player, _ in level.bounds]
        self.slopes = self.solve()
        self.tests = open_tests(self.n, self.certificate["mode"], self.levels)
        self.groups: Optional[list[list[int]]] = None

    def size(self, group: int) -> int:
        """What an excess is divided by."""
        return bin(group).count("1") if self.moving.game.per_head else 1

    def solve(self) -> Optional[list[Fraction]]:
        """Slopes of shares and levels by what the certificate says: each group that it lists has the excess of its
        level. None if the change breaks that at once."""
        rates = [self.moving.slope(self.t, group, 1) for group, _ in self.tight]
        unit = lcm(*(rate.denominator for rate in rates))
        width, equations = self.n + len(self.levels), []
        for (group, k), rate in zip(self.tight, rates):
            row = [group >> i & 1 for i in range(self.n)] + [0] * (len(self.levels) + 1)
            if k is not None:
                row[self.n + k] = self.size(group)
            row[width] = (rate * unit).numerator
            equations.append(row)
        found = solution(equations, width)
        return None if found is None else [slope / unit for slope in found]

    def at(self, t: Fraction) -> list[Fraction]:
        """Shares and levels after another change."""
        assert self.slopes is not None
        return [value + (t - self.t) * slope for value, slope in zip(self.values, self.slopes)]

    def shares(self, t: Fraction) -> Shares:
        """The shares after another change, as a document counts them."""
        return {name: self.moving.sign * q for name, q in zip(self.moving.game.names, self.at(t))}

    def named(self) -> Shares:
        """The slopes of the shares, as a document counts them."""
        assert self.slopes is not None
        return {name: self.moving.sign * q for name, q in zip(self.moving.game.names, self.slopes)}

    def line(self, t: Fraction) -> bytes:
        """What `check` reads after another change."""
        values = self.at(t)
        _, factor = self.moving.tree_at(t)
        excesses = [str(q * factor) for q in values[self.n :]]
        levels = [{**level, "excess": excess} for level, excess in zip(self.certificate["levels"], excesses)]
        shares = [str(self.moving.sign * q * factor) for q in values[: self.n]]
        others = {"answer": self.rule, "certificate": {**self.certificate, "levels": levels}, "shares": shares}
        return self.moving.document(t, **others)[0]

    # ---- How far it holds

    def slack(self, values: Sequence[Fraction], worth: Fraction, limit: Limit) -> Fraction:
        """How far a group that is worth so much is from what shares and levels allow it: the excess of a level, or what
        it is worth. Of a negative group it is how far a level is above the next one."""
        group, level = limit
        if group < 0:
            return values[self.n - 1 - group] - values[self.n - group]
        gets = sum((values[i] for i in members(group)), Fraction(0))
        return gets - worth if level is None else gets + self.size(group) * values[self.n + level] - worth

    def slack_at(self, t: Fraction, limit: Limit) -> Fraction:
        """The same after another change."""
        return self.slack(self.at(t), self.moving.worth(t, limit[0]) if limit[0] >= 0 else Fraction(0), limit)

    def crossing(self, end: Fraction, limit: Limit) -> Fraction:
        """Where on the way to a change a limit is met that is broken there, by Newton's method: what is left of it is a
        concave function."""
        assert self.slopes is not None
        way = 1 if self.t > end else -1
        while (value := self.slack_at(end, limit)) < 0:
            grows = self.moving.slope(end, limit[0], way) if limit[0] >= 0 else Fraction(0)
            slope = self.slack(self.slopes, grows, limit)
            step = -value / slope if slope else Fraction(0)
            if step * way <= 0 or abs(step) >= abs(self.t - end):
                return self.t
            end += step
        return end if value == 0 or limit not in self.tight else self.t

    def broken_at(self, t: Fraction, pool: "set[int]") -> Optional[Limit]:
        """A limit that is broken after another change, of those of open groups the one that is broken most; None if the
        frame holds there."""
        values = self.at(t)
        for limit in () if self.moving.is_linear else self.tight:
            if self.slack(values, self.moving.worth(t, limit[0]), limit) != 0:
                return limit
        for k in range(len(self.levels) - 1):
            if values[self.n + k] < values[self.n + k + 1]:
                return -1 - k, None
        if self.rule == "nucleolus":
            for i in range(self.n):
                if values[i] < self.moving.worth(t, 1 << i):
                    return 1 << i, None
        for group in pool:
            if (level := self.last_open(group)) is not None:
                if self.slack(values, self.moving.worth(t, group), (group, level)) < 0:
                    return group, level
        worst = min(self.worst(t, values), default=(Fraction(0), (0, None)), key=lambda found: found[0])
        return worst[1] if worst[0] < 0 else None

    def worst(self, t: Fraction, values: list[Fraction]) -> Iterator[tuple[Fraction, Limit]]:
        """For each level the open group that has least left, and how much. Of a group only its last level counts, since
        levels are ever lower."""
        if self.n > MOST_IN_A_TABLE:
            yield from self.worst_of_many(t, values)
            return
        scale, worths = self.moving.worths(t)
        unit = lcm(scale, *(q.denominator for q in values))
        whole = [(q * unit).numerator for q in values]
        gets, times = sums(whole[: self.n]), unit // scale
        for k, groups in enumerate(self.by_last_level()):
            excess = whole[self.n + k]
            if not groups:
                continue
            if self.moving.game.per_head:
                left = [gets[s] + excess * bin(s).count("1") - times * worths[s] for s in groups]
            else:
                left = [gets[s] - times * worths[s] for s in groups]
            least = min(left)
            yield Fraction(least + (0 if self.moving.game.per_head else excess), unit), (groups[left.index(least)], k)

    def worst_of_many(self, t: Fraction, values: list[Fraction]) -> Iterator[tuple[Fraction, Limit]]:
        """The same of any number of players, by groups among which is one that has least left."""
        game = self.moving.game_at(t)
        unit = lcm(game.factor, *(q.denominator for q in values))
        whole = [(q * unit).numerator for q in values]
        many = Many(game, unit, whole[: self.n])
        for k, rest in enumerate(self.tests[:-1]):
            if not isinstance(rest, int):
                most = f"sensitivity is for at most {MOST_IN_A_TABLE}"
                raise BadInput(f"{self.n} players, and a certificate in mode span: {most}")
            for group in many.widest(rest):
                yield Fraction(many.left(group) + whole[self.n + k], unit), (group, k)

    def by_last_level(self) -> list[list[int]]:
        """The groups by the last level at which they are open."""
        if self.groups is None:
            self.groups = by_last_level(self.n, self.tests)
        return self.groups

    def last_open(self, group: int) -> Optional[int]:
        """The last level at which a group is open."""
        if group <= 0 or group == self.moving.game.everyone:
            return None
        return max((k for k, test in enumerate(self.tests[:-1]) if is_open(test, group)), default=None)
