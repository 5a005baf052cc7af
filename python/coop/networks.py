"""Tables of costs from the links of a network that exist, for groups whose ways may share stretches."""
from __future__ import annotations

from fractions import Fraction
from typing import Any, Iterator, Mapping, Optional, Sequence

from .amounts import Amount, amounts_of, label_of, named_items
from .errors import BadInput
from .game import Game, require_table
from .games import listed_names, made
from .masks import members
from .names import alike

Link = tuple[str, str, Fraction]
Links = dict[tuple[int, int], Fraction]


def table_of_links(
    links: Mapping[tuple[str, str], Amount],
    *,
    source: str = "source",
    names: Optional[Sequence[str]] = None,
    by_way_of_others: bool = True,
    digits: Optional[int] = None,
    per_head: bool = False,
) -> Game:
    """What each group's cheapest network costs, by the links that exist: pairs of names, or of a name and the source.
    It may run by way of the places of others, or else through those of the group alone. Without `names` the players
    are those of the links, in their order; with them a link of another place is refused."""
    read, source = list(read_links(links, digits)), label_of(source)
    names = players_in(read, source, names)
    require_table(len(names))
    by_points = numbered(read, [source, *names])
    costs = [cheapest(group, by_points) for group in range(2 ** len(names))]
    if by_way_of_others:
        for bit in (1 << i for i in range(len(names))):
            pairs = [(cost, costs[group | bit]) for group, cost in enumerate(costs)]
            costs = [min((cost for cost in pair if cost is not None), default=None) for pair in pairs]
    whole: list[Fraction] = []
    for group, cost in enumerate(costs):
        if cost is None:
            raise BadInput(f"no links join {'+'.join(names[i] for i in members(group))} to the {source}")
        whole.append(cost)
    return made("cost-table", {"players": len(names), "worths": whole[1:]}, names, per_head, digits)


def read_links(links: Any, digits: Optional[int]) -> Iterator[Link]:
    """The ends of each link, and what it costs."""
    items = named_items(links)
    if items is None:
        raise BadInput("the links aren't a mapping from pairs of names to costs, such as {('source', 'Ann'): 4}")
    for (pair, _), cost in zip(items, amounts_of(links, items, digits)):
        if not isinstance(pair, tuple) or len(pair) != 2:
            raise BadInput(f"{str(pair)[:80]} isn't a pair of names, as ('source', 'Ann') is: a link has two ends")
        yield label_of(pair[0]), label_of(pair[1]), cost


def players_in(links: Sequence[Link], source: str, names: Optional[Sequence[str]]) -> list[str]:
    """The players: all that the links have but the source. Where no names are given, none differ by capitals alone."""
    found = list(dict.fromkeys(name for *ends, _ in links for name in ends if name != source))
    if names is not None:
        names = listed_names(names)
        for name in found:
            if name not in names:
                raise BadInput(f"a link has {name}, which is neither {source} nor one of the names {', '.join(names)}")
        return names
    for some in alike([source, *found], str.casefold):
        raise BadInput(f"{' and '.join(some)} differ only in capitals: if they are different places, give all names")
    return found


def numbered(links: Sequence[Link], points: list[str]) -> Links:
    """The links both ways, by the numbers of their points."""
    found: Links = {}
    for one, other, cost in links:
        ends = points.index(one), points.index(other)
        if one == other or cost < 0:
            raise BadInput(f"the link of {one} and {other} joins a point to itself, or costs less than nothing")
        if found.setdefault(ends, cost) != cost or found.setdefault(ends[::-1], cost) != cost:
            raise BadInput(f"the link of {one} and {other} is given twice, with two costs")
    return found


def cheapest(group: int, links: Links) -> Optional[Fraction]:
    """What the cheapest network through the places of a group costs; None where its links don't join all."""
    joined, left, cost = {0}, {i + 1 for i in members(group)}, Fraction(0)
    while left:
        ways = [(links[a, b], b) for a in joined for b in left if (a, b) in links]
        if not ways:
            return None
        link, new = min(ways)
        cost += link
        joined.add(new)
        left.remove(new)
    return cost
