"""The benchmark's networks filtered by SQLite's joins: sql.py DIRECTORY.

Reads DIRECTORY/times.txt and the networks' texts beside it, as bench/main writes them, and filters each with one DELETE for each
visit of a combination and member. Prints two times beside the others: of the whole job, from the lists to the rows left (tables,
indexes, deletes), and of the deletes alone. SQLite finds no supports. The lines go on to DIRECTORY/all-times.txt, with the whole
job's time behind. A job that takes longer than LIMIT is given up and counted with LIMIT.

Networks with the code ANY are joined so that it fits every code, by the fastest of five ways tried.
"""

import itertools
import sqlite3
import sys
import time
from collections.abc import Callable
from pathlib import Path
from typing import NamedTuple

LIMIT = 20.0  # seconds after which a job is given up
ENOUGH = 1.0  # and after which no other round begins
ROUNDS = 3
ANY = 4294967295


class Measured(NamedTuple):
    kind: str
    name: str
    m: int
    tuples: int
    left: int
    rattle: float
    c: float


class Network(NamedTuple):
    scopes: list[tuple[int, ...]]
    tuples: list[list[tuple[int, ...]]]
    combinations: list[tuple[int, ...]]


def read_network(path: Path) -> Network:
    """The network of a text in the form of docs/TEXT.md."""
    lines = (tuple(map(int, line.split(","))) for line in path.read_text(encoding="ascii").splitlines())
    relations, _, combinations = next(lines)
    scopes, tuples = [], []
    for _ in range(relations):
        _, rows = next(lines)
        scopes.append(next(lines))
        tuples.append(list(itertools.islice(lines, rows)))
    return Network(scopes, tuples, list(itertools.islice(lines, combinations)))


def shared(network: Network, a: int, b: int) -> list[int]:
    return [x for x in network.scopes[a] if x in network.scopes[b]]


def indexed(network: Network) -> set[tuple[int, tuple[int, ...]]]:
    """Relations and columns: those that a relation shares with another one of a combination."""
    beside = {pair for members in network.combinations for pair in itertools.permutations(members, 2)}
    return {(a, tuple(sorted(shared(network, a, b)))) for a, b in beside if shared(network, a, b)}


def load(network: Network) -> sqlite3.Connection:
    """Tables and indexes: the least time for the whole job of those tried."""
    base = sqlite3.connect(":memory:", isolation_level=None)
    base.execute("BEGIN")
    for r, (scope, tuples) in enumerate(zip(network.scopes, network.tuples)):
        base.execute(f"CREATE TABLE r{r} ({', '.join(f'x{x} INTEGER' for x in scope)})")
        base.executemany(f"INSERT INTO r{r} VALUES ({', '.join('?' * len(scope))})", tuples)
    for number, (r, columns) in enumerate(sorted(indexed(network))):
        base.execute(f"CREATE INDEX i{number} ON r{r} ({', '.join(f'x{x}' for x in columns)})")
    base.execute("COMMIT")
    return base


def has_any(network: Network) -> bool:
    return any(ANY in row for tuples in network.tuples for row in tuples)


def equal(a: str, b: str) -> str:
    return f"{a} = {b}"


def fitting(a: str, b: str) -> str:
    """Two codes fit. Each part asks something of both columns, so that SQLite finds the rows of either table by its index."""
    return f"({a} = {b} OR ({a} = {ANY} AND {b} >= 0) OR ({b} = {ANY} AND {a} >= 0))"


def visit(network: Network, combination: tuple[int, ...], member: int, agree: Callable[[str, str], str]) -> str:
    """The statement that deletes the member's tuples without a support in the combination."""
    pairs = itertools.combinations(combination, 2)
    agreeing = [agree(f"r{a}.x{x}", f"r{b}.x{x}") for a, b in pairs for x in shared(network, a, b)]
    others = ", ".join(f"r{r}" for r in combination if r != member)
    return f"DELETE FROM r{member} WHERE NOT EXISTS (SELECT 1 FROM {others} WHERE {' AND '.join(agreeing)})"


def filtered(base: sqlite3.Connection, network: Network) -> None:
    """Visits until none waits; what falls in one combination makes the other members of the others wait."""
    waiting = dict.fromkeys((c, r) for c in range(len(network.combinations)) for r in network.combinations[c])
    agree = fitting if has_any(network) else equal
    while waiting:
        pair = next(iter(waiting))
        del waiting[pair]
        combination, member = pair
        if base.execute(visit(network, network.combinations[combination], member, agree)).rowcount:
            for other, members in enumerate(network.combinations):
                if other != combination and member in members:
                    waiting.update(dict.fromkeys((other, r) for r in members if r != member))


def job(network: Network) -> tuple[float, float, int | None]:
    """Times of the whole job and of its deletes, and the tuples left, or None where it was given up."""
    start = time.perf_counter()
    base = load(network)
    loaded = time.perf_counter()
    base.set_progress_handler(lambda: time.perf_counter() - start > LIMIT, 100_000)
    try:
        filtered(base, network)
    except sqlite3.OperationalError:
        return LIMIT, LIMIT, None
    end = time.perf_counter()
    left = sum(base.execute(f"SELECT count(*) FROM r{r}").fetchone()[0] for r in range(len(network.scopes)))
    return end - start, end - loaded, left


def sql_times(size: Measured, network: Network) -> tuple[float, float]:
    """The least times, over some rounds, of the whole job and of its deletes."""
    rounds = []
    while len(rounds) < ROUNDS and sum(whole for whole, _ in rounds) < ENOUGH:
        whole, deletes, left = job(network)
        if left not in (size.left, None):
            sys.exit(f"SQLite leaves {left} tuples of {size}")
        rounds.append((whole, deletes))
    return min(rounds)


def read_measured(lines: list[str]) -> list[Measured]:
    rows = [line.split() for line in lines]
    return [Measured(*row[:2], *map(int, row[2:5]), *map(float, row[5:])) for row in rows]


def told(seconds: float) -> str:
    return f"over {LIMIT:.0f} s  " if seconds >= LIMIT else f"{1e3 * seconds:8.3f} ms "


def main() -> None:
    directory = Path(sys.argv[1])
    measured = read_measured((directory / "times.txt").read_text(encoding="ascii").splitlines())
    print(f"\n{'':44} {'Rattle':>11} {'C -O2':>11} {'SQLite':>11} {'deletes':>11}   SQLite / Rattle, / C")
    with open(directory / "all-times.txt", "w", encoding="ascii") as out:
        for size in measured:
            whole, deletes = sql_times(size, read_network(directory / f"{size.name}.txt"))
            what = f"{size.name:33} {size.left:4} left"
            faster = f"{whole / size.rattle:.1f}" if size.rattle else "-"
            print(f"{what:44} {''.join(map(told, (size.rattle, size.c, whole, deletes)))}  {faster} {whole / size.c:.1f}", flush=True)
            print(*size, whole, file=out)


if __name__ == "__main__":
    main()
