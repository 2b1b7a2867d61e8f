"""The listing of connected combinations by brute force: drawn books, and what the call answers and leaves.

A line has the numbers of one call: by how many bytes which list is short of a whole number of entries, m, the lists that are lent
(the sheets' records, the questions, the codes, and the list for the combinations), each behind its length, then the answer's kind,
refusal number and count, and the list after."""

import argparse
import dataclasses
import functools
import itertools
import random
from typing import Iterator

import book
import draw
from book import Request

MOST = 256
LISTS = ("sheets", "questions", "codes", "combinations")
UNITS = {"sheets": 6, "questions": 2, "codes": 4, "combinations": 2}
CLIQUES = {2: (23, 3), 3: (12, 7, 3), 4: (10, 7, 5, 5, 4)}  # so many sheets each that share a question: 256 combinations in all


# The meaning


def reaches_all(members: tuple[int, ...], near: list[set[int]]) -> bool:
    """Whether the first member reaches all, from one to the next that shares a question with it."""
    reached, rest = {members[0]}, set(members[1:])
    while found := {s for s in rest if near[s] & reached}:
        reached, rest = reached | found, rest - found
    return not rest


@functools.lru_cache(maxsize=4)
def all_connected(scopes: tuple[frozenset[int], ...], m: int) -> list[list[int]]:
    """Of all rising choices of m sheets those that are connected; of few sheets by every division into two groups too."""
    near = [{t for t, others in enumerate(scopes) if own & others} for own in scopes]
    found = [list(c) for c in itertools.combinations(range(len(scopes)), m) if reaches_all(c, near)]
    if len(scopes) <= 12:
        choices = itertools.combinations(range(len(scopes)), m)
        divided = [list(c) for c in choices if book.connected([sorted(scopes[s]) for s in c])]
        assert found == divided, "the program contradicts itself"
    return found


def reply(request: Request) -> tuple[tuple[int, int, int], list[int]]:
    """Kind, refusal number and count; and the list after."""
    lent = list(request.combinations)
    for number in (2, 3, 4, 5, 6, 7):
        if book.FAULT_TESTS[number](request):
            return (book.REFUSED, number, 0), lent
    found = all_connected(tuple(map(frozenset, book.read_questions(request))), request.m)
    numbers = [sheet for combination in found for sheet in combination]
    if len(found) > MOST:
        return (book.REFUSED, 15, 0), lent
    if len(lent) < len(numbers):
        return (book.REFUSED, 16, 0), lent
    listed = dataclasses.replace(request, combinations=numbers)
    assert not any(book.FAULT_TESTS[number](listed) for number in (7, 8, 9, 10)), "what is listed would be refused"
    return (0, 0, len(found)), numbers + lent[len(numbers) :]


# The desk's text


def listing_lines(request: Request, m: int) -> list[list[int]]:
    """The numbers of the answer, then each combination; the m and the combinations that stand in the text do not matter."""
    request.m, request.combinations = m, [0] * (4 * MOST)
    (kind, number, count), after = reply(request)
    return [[kind, number, count, 0], *(after[k * m : k * m + m] for k in range(count))]


def asked_listing(text: bytes) -> bytes:
    """The combinations program's whole output for its whole input: a line with m, and a book's text."""
    line, end, rest = text.partition(b"\n")
    try:
        book.require(end != b"")
        m = book.read_field(line, 2**16 - 1)
        lines = listing_lines(book.read_text(rest), m)
    except book.NotInForm:
        lines = [[book.REFUSED, 1, 0, 0]]
    return book.text_of(lines)


# Drawing


def of_scopes(rng: random.Random, scopes: list[list[int]], m: int, most_rows: int) -> Request:
    """A book of sheets with these questions."""
    request = Request(call="combinations", m=m)
    for questions in scopes:
        rows = rng.randint(0, most_rows)
        request.sheets.append((len(questions), rows))
        request.questions += rng.sample(questions, len(questions))
        request.codes += [rng.choice((0, 1, 65535, 2**32 - 1)) for _ in range(rows * len(questions))]
    return request


def lend(rng: random.Random, request: Request) -> Request:
    """With a list that is as long as needed, longer, shorter, or empty, and holds anything."""
    request.combinations = [0] * (4 * MOST)
    (kind, number, count), _ = reply(request)
    needed = count * request.m if kind == 0 else (MOST + 1) * 4 if number == 15 else rng.randint(0, 9)
    length = rng.choice((needed, needed, needed + 1, needed + rng.randint(1, 40), max(needed - 1, 0), needed // 2, 0))
    request.combinations = [rng.randrange(65536) for _ in range(length)]
    return request


def small(rng: random.Random) -> Request:
    sheets = rng.randint(1, 12)
    pool = rng.sample(range(64), rng.choice((2, 4, 8, 12, 20, 40)))
    widest = rng.choice((1, 2, 2, 3, 4, 8))
    scopes = [rng.sample(pool, rng.randint(1, min(widest, len(pool)))) for _ in range(sheets)]
    m = rng.choice((2, 3, 4)) if rng.randrange(12) else rng.choice((0, 1, 5, 258, 65535))
    return lend(rng, of_scopes(rng, scopes, m, 3))


def damaged(rng: random.Random) -> Request:
    """A small book with one fault or two among 2 to 7."""
    request = small(rng)
    for _ in range(rng.choice((1, 1, 2))):
        kind = rng.randrange(8)
        place = rng.randrange(max(1, len(request.sheets)))
        if kind == 0:
            request.sheets = [] if rng.randrange(2) else [(1, 0)] * 65
        elif kind == 1 and request.sheets:
            request.sheets[place] = (rng.choice((0, 9, 65535)), request.sheets[place][1])
        elif kind == 2 and request.sheets:
            request.sheets[place] = (request.sheets[place][0], rng.choice((4097, 65535)))
        elif kind == 3:
            request.questions = request.questions[:-1] if rng.randrange(2) else request.questions + [0]
        elif kind == 4:
            request.codes = request.codes[:-1] if request.codes and rng.randrange(2) else request.codes + [0]
        elif kind == 5 and request.questions:
            request.questions[rng.randrange(len(request.questions))] = rng.choice((64, 128, 319, 65535))
        elif kind == 6 and len(request.questions) > 1:
            at = rng.randrange(1, len(request.questions))
            request.questions[at] = request.questions[at - 1]
        else:
            request.m = rng.choice((0, 1, 5, 6, 65535))
    return request


def cliques(rng: random.Random) -> Request:
    """Groups of sheets that share a question each: 256 combinations, or 257, or one fewer."""
    m = rng.choice((2, 3, 4))
    sizes = list(CLIQUES[m]) + rng.choice(([], [m], [m], [m - 1]))
    if rng.randrange(4) == 0:
        sizes.pop(-1)
    scopes = [[question] for question, size in enumerate(sizes) for _ in range(size)]
    extra = rng.sample(range(20, 64), len(scopes))
    scopes = [scope + [extra[k]] if rng.randrange(3) == 0 else scope for k, scope in enumerate(scopes)]
    rng.shuffle(scopes)
    return lend(rng, of_scopes(rng, scopes, m, 1))


def shapes(rng: random.Random) -> list[list[list[int]]]:
    """Books of 64 sheets: none share; a chain, in order, from both ends and shuffled; a hub first and last; halves that share; pairs apart;
    triples; all share; a few hubs behind their sheets."""
    chain = [[k, (k + 1) % 64] if k < 63 else [k] for k in range(64)]
    hub = [list(range(8))] + [[k] for k in range(1, 64)]
    return [
        [[k] for k in range(64)],
        chain,
        chain[::2] + chain[1::2],
        rng.sample(chain, 64),
        hub,
        hub[1:] + hub[:1],
        [[k // 32] for k in range(64)],
        [[k % 32] for k in range(64)],
        [[k % 21] for k in range(64)],
        [[0] for k in range(64)],
        [[k] for k in range(48)] + [list(range(8 * h, 8 * h + 8)) for h in range(6)] + [[50 + k] for k in range(10)],
    ]


def large(rng: random.Random) -> Iterator[Request]:
    for scopes in shapes(rng):
        for m in (2, 3, 4):
            yield lend(rng, of_scopes(rng, scopes, m, 1))


def requests(seed: int, count: int) -> Iterator[Request]:
    rng = random.Random(seed)
    for _ in range(count):
        yield rng.choice((small, small, small, small, damaged))(rng)
    for _ in range(count // 20):
        yield cliques(rng)
    yield from large(rng)


def draw_text(rng: random.Random) -> bytes:
    """The text of a book with few or with about 256 combinations, that has none and another m."""
    request = rng.choice((small, small, small, cliques, damaged))(rng)
    while any(book.FAULT_TESTS[number](request) for number in (2, 3, 4, 5)):
        request = small(rng)
    request.m, request.combinations = rng.choice((2, 3, 4)), []
    return book.write_text(request)


def asked_texts(seed: int, count: int) -> Iterator[tuple[int, bytes]]:
    """Texts of both kinds, each with an m."""
    rng = random.Random(seed)
    for _ in range(count):
        m = rng.choice((2, 3, 4)) if rng.randrange(8) else rng.choice((0, 1, 5, 9, 10, 65535))
        yield m, draw_text(rng) if rng.randrange(3) else draw.draw_text(rng)


# Printing


def numbers(request: Request, short: int, which: str) -> list[int]:
    records = [number for width, rows in request.sheets for number in (width, rows, 7)]
    answer, after = ((book.REFUSED, 1, 0), request.combinations) if short else reply(request)
    line = [short, LISTS.index(which), request.m]
    for entries in (records, request.questions, request.codes, request.combinations):
        line += [len(entries), *entries]
    return [*line, *answer, len(after), *after]


def main() -> None:
    parser = argparse.ArgumentParser(description=__doc__)
    parser.add_argument("--seed", type=int, required=True)
    parser.add_argument("--count", type=int, required=True)
    parser.add_argument("--short", action="store_true", help="calls with a list that is not a whole number of entries")
    arguments = parser.parse_args()
    rng = random.Random(arguments.seed + 1)
    seen: set[tuple[int, ...]] = set()
    for request in requests(arguments.seed, arguments.count):
        if not arguments.short:
            line = numbers(request, 0, "sheets")
            seen.add(tuple(line[-len(request.combinations) - 4 :][:2]))
            print(*line)
            continue
        for which in LISTS:
            if getattr(request, which):
                print(*numbers(request, rng.randrange(1, UNITS[which]), which))
    wanted = {(book.REFUSED, number) for number in (2, 3, 4, 5, 6, 7, 15, 16)} | {(0, 0)}
    if not arguments.short and not wanted <= seen:
        raise SystemExit(f"never drawn: {sorted(wanted - seen)}")


if __name__ == "__main__":
    main()
