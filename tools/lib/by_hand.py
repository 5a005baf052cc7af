"""The nucleolus by the script that people write by hand, in floats with HiGHS, which SciPy has inside.

It solves linear programs with a row for each group. After each it fixes groups in one of two ways: those with a
positive dual price, which is right; or all that are tight at the optimum that was found, which is usual, and wrong if
another optimum has fewer.
"""
from __future__ import annotations

from importlib import import_module
from typing import Any, Optional, Sequence

SMALL = 1e-7  # what counts as 0, as in most such scripts
WAYS = ("duals", "tight")


def is_there() -> bool:
    """Whether SciPy is installed, which is then loaded."""
    try:
        import_module("scipy.optimize")
        import_module("scipy.sparse")
    except ImportError:
        return False
    return True


def nucleolus(n: int, worths: Sequence[int], way: str) -> Optional[list[float]]:
    """The nucleolus of worths by mask; None where the script gets no further."""
    numpy: Any = import_module("numpy")
    groups = (numpy.arange(1, 2**n - 1)[:, None] >> numpy.arange(n) & 1).astype(float)
    worth, alone = numpy.array(worths[1:-1], dtype=float), [float(worths[1 << i]) for i in range(n)]
    fixed, totals, basis = [numpy.ones(n)], [float(worths[-1])], [numpy.ones(n) / n**0.5]
    while len(fixed) < n:
        axes = numpy.array(basis)
        live = numpy.flatnonzero(abs(groups - groups @ axes.T @ axes).max(axis=1) > 1e-9)
        found = optimum(groups[live], worth[live], fixed, totals, alone)
        if found.status:
            return None
        level, before = found.x[n], len(fixed)
        if way == "duals":
            new = [(groups[k], worth[k] - level) for k in live[-found.ineqlin.marginals > SMALL]]
            new += [(numpy.eye(n)[i], alone[i]) for i in range(n) if found.lower.marginals[i] > SMALL]
        else:
            apart = abs(groups[live] @ found.x[:n] + level - worth[live])
            new = [(groups[k], worth[k] - level) for k in live[apart < SMALL * max(1, abs(level))]]
        for row, total in new:
            rest = row - numpy.array(basis).T @ (numpy.array(basis) @ row)
            if numpy.linalg.norm(rest) > 1e-9:
                fixed, totals = [*fixed, row], [*totals, total]
                basis.append(rest / numpy.linalg.norm(rest))
        if len(fixed) == before:
            return None
    return [float(share) for share in numpy.linalg.solve(numpy.array(fixed), numpy.array(totals))]


def optimum(rows: Any, worth: Any, fixed: list[Any], totals: list[float], alone: list[float]) -> Any:
    """The least greatest excess of some groups, over imputations that meet what is fixed."""
    numpy: Any = import_module("numpy")
    limits = import_module("scipy.sparse").csr_matrix(numpy.hstack([-rows, -numpy.ones((len(rows), 1))]))
    equal = numpy.hstack([numpy.array(fixed), numpy.zeros((len(fixed), 1))])
    bounds = [*((least, None) for least in alone), (None, None)]
    costs = [0.0] * len(alone) + [1.0]
    return import_module("scipy.optimize").linprog(costs, limits, -worth, equal, totals, bounds, method="highs")


def is_near(shares: Optional[Sequence[float]], wanted: Sequence[float]) -> bool:
    """Whether shares in floats are those that are wanted, but for rounding."""
    near = 10 * SMALL * max(1.0, *(abs(share) for share in wanted))
    return shares is not None and all(abs(a - b) <= near for a, b in zip(shares, wanted))
