"""Draws requests, lists of calls and desk texts from one random.Random, the same on every machine."""

import itertools
import math
import random
from dataclasses import replace
from typing import Callable, NamedTuple, Optional

import book
from book import ANY, OLD_ANY, Request, Row, write_text

Page = tuple[list[int], list[list[int]]]  # a sheet: its questions and its rows

CALLS = ["filter", "withdraw", "choose", "choose_several", "test", "compare"]
CHANGES = ["filter", "withdraw", "choose", "choose_several"]
EDGE_QUESTIONS = (0, 1, 2, 31, 32, 62, 63)
TOP = ANY - 1  # the highest code that fits itself alone
HALF = 2**16
ALPHABETS = ((0, 1), (0, 1), (0, 1, 2), (0, TOP), (1, 256, 257), (0, OLD_ANY), (1, HALF, HALF + 1))
LIKELY_BYTES = b"0123456789,,\n\n\r -+.\t\0\x0b\xff\xb2"
LIKELY_FIELDS = b"0 1 5 9 63 64 65 256 257 4096 4097 65535 65536 99999 4294967294 4294967295 4294967296 9999999999".split()
BAD_QUESTIONS = (64, 65, 127, 128, 256, 319, 65535)
# Numbers by whose remainder, or whose quotient, a library might sort codes.
MODULI = (17, 17, 17, 16, 64, 256, 1000, HALF, HALF, 2**24)


class Network(NamedTuple):
    pages: list[Page]
    m: int
    combinations: list[list[int]]


def chance(rng: random.Random, percent: int) -> bool:
    return rng.randrange(100) < percent


# Networks


def draw_rows(
    rng: random.Random, questions: list[int], codes: list[int], orders: list[Row], count: int
) -> list[list[int]]:
    """Rows of the given complete orders among random ones and repeats."""
    rows: list[list[int]] = []
    for _ in range(count):
        if rows and chance(rng, 15):
            rows.append(list(rng.choice(rows)))
        elif chance(rng, 60):
            order = rng.choice(orders)
            rows.append([order[question] for question in questions])
        else:
            rows.append([rng.choice(codes) for _ in questions])
    return rows


def shuffled_columns(rng: random.Random, page: Page) -> Page:
    order = rng.sample(range(len(page[0])), len(page[0]))
    return [page[0][k] for k in order], [[row[k] for k in order] for row in page[1]]


def draw_combinations(rng: random.Random, pages: list[Page], m: int, count: int, most: int) -> list[list[int]]:
    """Connected combinations with at most so many choices of one row from each member."""
    fitting = []
    for members in itertools.combinations(range(len(pages)), m):
        few = math.prod(len(pages[sheet][1]) for sheet in members) <= most
        if few and book.connected([pages[sheet][0] for sheet in members]):
            fitting.append(list(members))
    return [list(rng.choice(fitting)) for _ in range(count)] if fitting else []


def draw_pages(
    rng: random.Random, pool: list[int], codes: list[int], widths: list[int], counts: list[int]
) -> list[Page]:
    orders = [{question: rng.choice(codes) for question in pool} for _ in range(1 + len(codes) // 2)]
    pages = []
    for count in counts:
        questions = rng.sample(pool, min(rng.choice(widths), len(pool)))
        pages.append((questions, draw_rows(rng, questions, codes, orders, count)))
    return pages


def ring_network(rng: random.Random) -> Network:
    """Sheets that pair off the codes of neighbouring questions in a ring: they fit in pairs, but not all together."""
    m = rng.choice((2, 3, 3, 3, 3, 4))
    pool = rng.sample(EDGE_QUESTIONS, rng.choice((3, max(m, 3))))
    codes = rng.sample((0, 1, 257, TOP), rng.choice((2, 3, 3)))
    pages = []
    for place, question in enumerate(pool):
        rows = [list(pair) for pair in zip(codes, rng.sample(codes, len(codes)))]
        rows += [[rng.choice(codes), rng.choice(codes)] for _ in range(rng.choice((0, 0, 0, 1)))]
        rng.shuffle(rows)
        questions = [question, pool[place - 1]]
        pages.append((questions, rows) if chance(rng, 50) else (questions[::-1], [row[::-1] for row in rows]))
    pages += draw_pages(rng, pool, codes, [1, 2], [rng.randint(1, 3) for _ in range(rng.choice((0, 0, 0, 1, 2)))])
    rng.shuffle(pages)
    return Network(pages, m, draw_combinations(rng, pages, m, rng.choice((1, 2, 3, 4)), 10000))


def small_network(rng: random.Random) -> Network:
    if chance(rng, 30):
        return ring_network(rng)
    m = rng.choice((2, 2, 3, 3, 4))
    sheets = rng.randint(m, 6) if chance(rng, 90) else rng.randint(1, 3)
    most = max(3, 12 // sheets)
    counts = [0 if chance(rng, 2) else rng.randint(1, most) for _ in range(sheets)]
    size, widest = (8, 8) if chance(rng, 10) else (rng.choice((2, 3, 3, 4, 5)), 3)
    widths = list(range(1, widest + 1))
    pool = rng.sample(range(64), size) if size == 8 or chance(rng, 50) else rng.sample(EDGE_QUESTIONS, size)
    pages = draw_pages(rng, pool, list(rng.choice(ALPHABETS)), widths, counts)
    return Network(pages, m, draw_combinations(rng, pages, m, rng.choice((0, 1, 2, 3, 4, 6)), 10000))


def wide_counts(rng: random.Random) -> list[int]:
    """Row counts of 4 to 9 sheets, some of them large, with 64 to 300 rows in all."""
    total = rng.choice((64, 65, 127, 128, 129, 192)) if chance(rng, 30) else rng.randint(65, 300)
    cuts = sorted(rng.sample(range(1, total), rng.randint(3, 8)))
    return [high - low for low, high in zip([0] + cuts, cuts + [total])]


def wide_network(rng: random.Random) -> Network:
    """Pairs of sheets of any size, or larger combinations of middling ones; the marks mostly take several words."""
    m = rng.choice((2, 2, 3, 4))
    codes = list(range(rng.choice((2, 4, 8))))
    counts = wide_counts(rng) if m == 2 else [rng.randint(6, 14) for _ in range(rng.randint(8, 14))]
    pool = rng.sample(range(64), 4 if m == 2 else 3)
    pages = draw_pages(rng, pool, codes, [1, 2, 3] if m == 2 else [2], counts)
    return Network(pages, m, draw_combinations(rng, pages, m, rng.choice((1, 2, 3, 4, 6)), 5000))


def loose_network(rng: random.Random) -> Network:
    """A small network behind a sheet of many rows that stands in no combination: several mark words, little work."""
    pages, m, combinations = small_network(rng)
    questions = rng.sample(range(64), rng.choice((1, 2)))
    rows = [[rng.randrange(2) for _ in questions] for _ in range(rng.choice((61, 64, 65, 127, 128)))]
    return Network([(questions, rows)] + pages, m, [[sheet + 1 for sheet in members] for members in combinations])


def tall_network(rng: random.Random) -> Network:
    """Sheets of several mark words, each paired with sheets of few rows."""
    pool, codes = rng.sample(range(64), 3), list(range(rng.choice((2, 3, 4, 8))))
    counts = [rng.randint(100, 400) for _ in range(rng.choice((1, 2, 3)))]
    pages = draw_pages(rng, pool, codes, [2, 3], counts)
    pages += draw_pages(rng, pool, codes, [1, 2], [rng.randint(1, 6) for _ in range(rng.choice((2, 3, 4)))])
    rng.shuffle(pages)
    return Network(pages, 2, draw_combinations(rng, pages, 2, rng.choice((2, 3, 4, 6)), 2500))


def own_codes(network: Network) -> list[int]:
    """The codes other than any, rising."""
    return sorted({code for _, rows in network.pages for row in rows for code in row} - {ANY})


def recoded(network: Network, codes: list[int]) -> Network:
    """The network with these codes in place of its own; any stays."""
    new = {ANY: ANY, **dict(zip(own_codes(network), codes))}
    pages = [(questions, [[new[code] for code in row] for row in rows]) for questions, rows in network.pages]
    return Network(pages, network.m, network.combinations)


def alike(rng: random.Random, network: Network) -> Network:
    """The network with other codes in place of its own, all of them with one remainder by one number."""
    modulus = rng.choice(MODULI)
    return recoded(network, rng.sample(range(rng.randrange(modulus), ANY, modulus), len(own_codes(network))))


def alike_network(rng: random.Random) -> Network:
    return alike(rng, rng.choice((wide_network, tall_network))(rng))


def loose_alike_network(rng: random.Random) -> Network:
    return alike(rng, loose_network(rng))


def ordered(rng: random.Random, questions: list[int]) -> list[int]:
    """The questions in rising, falling or any order."""
    kind = rng.randrange(3)
    return sorted(questions, reverse=kind == 1) if kind < 2 else rng.sample(questions, len(questions))


def clashing_network(rng: random.Random) -> Network:
    """Sheets that share most of their questions, each with columns in an order of its own; the rows differ in a few codes."""
    pool = rng.sample(range(64), 9) if chance(rng, 50) else [0, 63] + rng.sample(range(1, 63), 7)
    codes = rng.choice(ALPHABETS)
    order = {question: rng.choice(codes) for question in pool}
    changed = rng.choice((5, 20, 50))
    pages = []
    for _ in range(rng.randint(2, 4)):
        questions = ordered(rng, rng.sample(pool, rng.randint(4, 8)))
        rows = [[rng.choice(codes) if chance(rng, changed) else order[q] for q in questions] for _ in range(rng.randint(2, 4))]
        pages.append((questions, rows))
    return Network(pages, 2, draw_combinations(rng, pages, 2, rng.choice((1, 2, 3)), 10000))


# Networks of many sheets


def neighbours(pages: list[Page]) -> list[list[int]]:
    """For each sheet the others that ask one of its questions."""
    asked = [set(questions) for questions, _ in pages]
    return [[t for t in range(len(pages)) if t != s and asked[s] & asked[t]] for s in range(len(pages))]


def grown_combination(rng: random.Random, near: list[list[int]], m: int) -> tuple[int, ...]:
    """Sheets from any one on, each sharing a question with one before it: m of them, or all that can be reached."""
    members = [rng.randrange(len(near))]
    while len(members) < m:
        others = [sheet for member in members for sheet in near[member] if sheet not in members]
        if not others:
            break
        members.append(rng.choice(others))
    return tuple(sorted(members))


def different_combinations(rng: random.Random, pages: list[Page], m: int, count: int) -> list[list[int]]:
    """So many different connected combinations, or fewer where they are hard to find."""
    near = neighbours(pages)
    found: dict[tuple[int, ...], None] = {}
    for _ in range(20 * count):
        members = grown_combination(rng, near, m)
        if len(members) == m and len(found) < count:
            found[members] = None
    return [list(members) for members in found]


def many_pages(rng: random.Random, sheets: int, most_orders: int) -> list[Page]:
    """Sheets with the rows of some complete orders; now and then one is missing, or there is a stray one."""
    pool = rng.sample(range(64), rng.randint(sheets // 3, sheets // 2 + 6))
    codes = rng.choice(ALPHABETS)
    orders = [{question: rng.choice(codes) for question in pool} for _ in range(1 + rng.randint(1, most_orders))]
    missing = [0 if chance(rng, 75) else 3] + [6] * (len(orders) - 2)
    pages = []
    for _ in range(sheets):
        questions = rng.sample(pool, rng.choice((1, 2, 2, 2, 3)))
        rows = [[order[q] for q in questions] for order, percent in zip(orders, missing) if not chance(rng, percent)]
        if chance(rng, 15):
            rows.append([rng.choice(orders)[question] for question in questions])
        rng.shuffle(rows)
        pages.append((questions, rows))
    return pages


def many_sheets(rng: random.Random) -> int:
    return rng.choice((15, 16, 33, 63, 64, 64, rng.randint(15, 64), rng.randint(15, 64)))


def knot_pages(
    rng: random.Random, ring: list[int], codes: list[int], before: Optional[int], behind: int, links: list[int]
) -> list[Page]:
    """A ring of sheets on neighbouring questions, with a row for each code. It may be twisted: the rows for the first two
    codes then fit in pairs and not all together, and only a combination of the whole ring shows it. Of a ring that hangs
    on the one before, by the question `before`, one sheet has further rows that fit; they stay as long as that ring keeps
    its rows for the two codes. By the question `behind` the next ring may hang on this one. Links join sheets and strike
    nothing."""
    twisted = before is not None or chance(rng, 50)
    crossed = rng.sample(range(len(ring)), rng.choice((1, 3)) if twisted else rng.choice((0, 2)))
    hanging, holding = rng.choice(crossed) if twisted else 0, rng.randrange(len(ring))
    pages = []
    for place, question in enumerate(ring):
        across = [codes[1], codes[0], *codes[2:]] if place in crossed else codes
        rows = [{question: code, ring[place - 1]: other} for code, other in zip(codes, across)]
        if place == hanging and before is not None:
            rows = [{**row, before: codes[2]} for row in rows]
            rows += [{question: code, ring[place - 1]: code, before: codes[0]} for code in codes[:2]]
        if place == holding:
            rows = [{**row, behind: codes[0] if row[question] in codes[:2] else codes[2]} for row in rows]
        if chance(rng, 60):
            link = rng.choice(links)
            rows = [{**row, link: codes[2]} for row in rows]
        questions = rng.sample(sorted(rows[0]), len(rows[0]))
        pages.append((questions, [[row[q] for q in questions] for row in rng.sample(rows, len(rows))]))
    return pages


def knotted_network(rng: random.Random, m: int, count: int) -> Network:
    """15 to 64 sheets: rings of m, many of them hanging on another, and some sheets more. The rings are combinations,
    among different other ones or among the later half of these."""
    sheets = many_sheets(rng)
    rings = min(sheets // m, 12)
    pool, codes = rng.sample(range(64), 64), rng.sample((0, 1, 16, 17, 34, 257, TOP), rng.choice((3, 4, 4)))
    chain, links = pool[m * rings :][:rings], pool[(m + 1) * rings :][: max(2, rings // 3)]
    pages: list[Page] = []
    for k in range(rings):
        before = chain[k - 1] if k and chance(rng, 70) else None
        pages += knot_pages(rng, pool[m * k : m * (k + 1)], codes, before, chain[k], links)
    while len(pages) < sheets:
        questions = rng.sample(links, rng.choice((1, 2)))
        pages.append((questions, [[codes[2]] * len(questions)] * rng.choice((1, 2, 2))))
    whole = [list(range(m * k, m * (k + 1))) for k in range(rings)]
    others = [members for members in different_combinations(rng, pages, m, count) if members not in whole][: count - rings]
    first = others[: count // 2] if chance(rng, 50) else []
    rest = whole + others[len(first) :]
    places = rng.sample(range(sheets), sheets)
    return Network(
        [pages[places.index(sheet)] for sheet in range(sheets)],
        m,
        [sorted(places[sheet] for sheet in members) for members in first + rng.sample(rest, len(rest))],
    )


def crowded_network(rng: random.Random) -> Network:
    """15 to 64 sheets of few rows, in 7 to 256 different combinations."""
    m = rng.choice((2, 2, 3, 3, 4, 4))
    count = rng.choice((7, 8, 12, 16, 24, 32, 48, 64, 96, 128, 200, 256))
    if m > 2 and count > 16 and chance(rng, 50):
        return knotted_network(rng, m, count)
    pages = many_pages(rng, many_sheets(rng), 3)
    network = Network(pages, m, different_combinations(rng, pages, m, count))
    return alike(rng, network) if chance(rng, 30) else network


def full_network(rng: random.Random) -> Network:
    """256 different combinations of four: 1,024 pairs."""
    return knotted_network(rng, 4, 256)


def thin_network(rng: random.Random) -> Network:
    """As crowded, with one row or so on each sheet and few combinations; or with very many of a few sheets."""
    if chance(rng, 20):
        pages = many_pages(rng, rng.randint(15, 17), 1)
        return Network(pages, 4, different_combinations(rng, pages, 4, 256))
    m = rng.choice((2, 2, 3, 4))
    pages = many_pages(rng, many_sheets(rng), 1)
    return Network(pages, m, different_combinations(rng, pages, m, rng.choice((7, 8, 10, 15, 20, 40))))


# Networks with any


def any_rows(rng: random.Random, page: Page, under: list[int], percent: int) -> list[list[int]]:
    """The sheet's rows with any in place of some codes under these questions; a few are any throughout or equal to another."""
    rows: list[list[int]] = []
    for row in page[1]:
        if rows and chance(rng, 10):
            rows.append(list(rng.choice(rows)))
            continue
        whole = chance(rng, 1)
        rows.append([ANY if whole or q in under and chance(rng, percent) else code for q, code in zip(page[0], row)])
    return rows


def with_any(rng: random.Random, network: Network) -> Network:
    """The network with any on all sheets or some, under all questions or two, in few, many or all places there."""
    asked = sorted({question for questions, _ in network.pages for question in questions})
    under = asked if chance(rng, 50) else rng.sample(asked, min(2, len(asked)))
    sheets_percent, percent = rng.choice((40, 100)), rng.choice((5, 5, 30, 30, 100))
    pages = [(page[0], any_rows(rng, page, under, percent)) if chance(rng, sheets_percent) else page for page in network.pages]
    return Network(pages, network.m, network.combinations)


def at_times_with_any(rng: random.Random, network: Network) -> Network:
    return with_any(rng, network) if chance(rng, 15) else network


def other_codes(rng: random.Random, network: Network) -> Network:
    """The network with its own codes, with random ones, or with the topmost ones up to the neighbour of any."""
    own = own_codes(network)
    return recoded(network, rng.choice((own, rng.sample(range(ANY), len(own)), list(range(ANY - len(own), ANY)))))


def wide_codes(rng: random.Random, count: int) -> list[int]:
    """So many codes: about 65,535, with one low half, with one high half, anywhere, or multiples of 2^24."""
    low, high = rng.choice((0, OLD_ANY, rng.randrange(HALF))), rng.randrange(1, HALF - 1)
    first = OLD_ANY - rng.randrange(count + 1)
    others = [range(low, ANY, HALF), range(HALF * high, HALF * (high + 1)), range(ANY), range(0, ANY, 2**24)]
    return list(range(first, first + count)) if chance(rng, 20) else rng.sample(rng.choice(others), count)


def coded_network(rng: random.Random) -> Network:
    """A network with codes of 32 bits, often with any."""
    kinds = [small_network] * 8 + [ring_network] * 4 + [clashing_network] * 2 + [loose_network, tall_network]
    network = rng.choice(kinds)(rng)
    network = recoded(network, wide_codes(rng, len(own_codes(network))))
    return with_any(rng, network) if chance(rng, 40) else network


def far_network(rng: random.Random) -> Network:
    """Every row of sheet 0 fits all rows of sheet 1. Only one of these has a row of sheet 2 that fits both, often by any, and it may
    stand behind many others, which a row with any on sheet 0 keeps."""
    count = rng.randint(20, 28)
    a, b, c, d = rng.sample(range(64), 4)
    pages: list[Page] = [([a, b], [[end, 0] for end in rng.sample(range(count), 4)] + [[ANY, 0]])]
    pages.append(([b, c, d], [[0, line, line] for line in rng.sample(range(count), count)]))
    pages.append(([c, d, a], [[ANY if chance(rng, 40) else line, line, line] for line in range(count)]))
    if chance(rng, 30):
        pages.append(([rng.choice((a, b))], [[0], [ANY]]))
    return Network([shuffled_columns(rng, page) for page in pages], len(pages), [list(range(len(pages)))])


def any_network(rng: random.Random) -> Network:
    """A network of any kind with any, most of them small."""
    if chance(rng, 6):
        return other_codes(rng, far_network(rng))
    kinds = [small_network] * 10 + [ring_network] * 4 + [clashing_network] * 2
    kinds += [loose_network, wide_network, tall_network, thin_network]
    return with_any(rng, other_codes(rng, rng.choice(kinds)(rng)))


# Lending a network to a call


def numbers_needed(request: Request) -> int:
    """Length of the support list; sheets that are missing count as empty."""
    present = [sheet for sheet in request.combinations if sheet < len(request.sheets)]
    return sum(request.sheets[sheet][1] for sheet in present) * request.m


def garbage(rng: random.Random, needed: int) -> list[int]:
    length = needed + rng.choice((0, 0, 1, 5))
    if needed > book.MOST_SUPPORTS and chance(rng, 50):
        length = rng.randrange(10)
    return [rng.randrange(65536) for _ in range(length)] if needed <= 2000 else [rng.randrange(10)] * length


def write_network(network: Network, call: str) -> Request:
    pages = network.pages
    return Request(
        call=call,
        sheets=[(len(questions), len(rows)) for questions, rows in pages],
        questions=[question for questions, _ in pages for question in questions],
        codes=[code for _, rows in pages for row in rows for code in row],
        m=network.m,
        combinations=[sheet for combination in network.combinations for sheet in combination],
    )


def lend_marks(rng: random.Random, request: Request) -> None:
    """All, most or half of the rows living, of many sheets all or nearly all; spare bits and spare words at random."""
    living_percent = rng.choice((100, 100, 100, 85, 50) if len(request.sheets) < 15 else (100, 100, 100, 99, 95))
    total = book.row_total(request)
    request.marks = [rng.getrandbits(64) for _ in range(-(-total // 64) + rng.choice((0, 0, 1, 2)))]
    for g in range(total):
        if chance(rng, living_percent):
            request.marks[g // 64] |= 1 << (g % 64)
        else:
            request.marks[g // 64] &= ~(1 << (g % 64))


def settle_marks(request: Request) -> None:
    whole = book.read_book(request)
    kept = book.filtered(whole, book.read_combinations(request), book.living_rows(whole, request.marks))
    request.marks = book.marks_after(whole, request.marks, kept)


def count_rows(request: Request) -> None:
    whole = book.read_book(request)
    request.counts = book.true_counts(whole, book.living_rows(whole, request.marks))


def miscount(rng: random.Random, request: Request) -> None:
    """One count, often of the first or the last sheet, a little off, or right in its low byte; the sum may be right all the same. Or
    all rows counted, or each sheet with the count of the next one, where that is not true."""
    counts = request.counts
    others = [[rows for _, rows in request.sheets], counts[1:] + counts[:1]]
    wrong = [other for other in others if other != counts]
    if wrong and chance(rng, 20):
        request.counts = rng.choice(wrong)
    elif counts:
        place, off = rng.choice((0, len(counts) - 1, rng.randrange(len(counts)))), rng.choice((1, 1, 1, -1, -1, -1, 2, 256))
        counts[place] = (counts[place] + off) % 65536
        if len(counts) > 1 and chance(rng, 15):
            counts[place - 1] = (counts[place - 1] - off) % 65536


def lend_counts(rng: random.Random, request: Request) -> None:
    """True counts; where the call does not look at them, often untrue ones."""
    count_rows(request)
    if request.call not in CHANGES and chance(rng, 50):
        miscount(rng, request)


def draw_pair(rng: random.Random, rows: list[Row], base: Row, pairs: list[tuple[int, int]]) -> tuple[int, int]:
    """Mostly out of the book, and often out of one row; or one again, or its question with another code, or one that nobody asks or
    answers."""
    kind = rng.randrange(100)
    if pairs and kind < 10:
        return rng.choice(pairs)
    if pairs and kind < 22:
        question = rng.choice(pairs)[0]
        return question, rng.choice([row[question] for row in rows if question in row] + [0, TOP, ANY])
    row = base if kind < 70 or not rows else rng.choice(rows)
    if row and kind < 85:
        return rng.choice(list(row.items()))
    question = rng.choice(list(row)) if row and kind < 92 else rng.randrange(64)
    return question, rng.choice((0, 1, TOP, ANY, ANY))


def give_pairs(rng: random.Random, request: Request) -> None:
    rows = book.read_book(request).rows
    base = rng.choice(rows) if rows else {}
    pairs: list[tuple[int, int]] = []
    for _ in range(rng.choice((0, 1, 2, 2, 2, 3, 3, 4, 5, 70))):
        question, code = draw_pair(rng, rows, base, pairs)
        pairs.append((question, (code + HALF) % ANY if code != ANY and chance(rng, 5) else code))
    request.chosen_questions = [question for question, _ in pairs]
    request.chosen_codes = [code for _, code in pairs]


def give_arguments(rng: random.Random, request: Request) -> None:
    total = book.row_total(request)
    if request.call == "withdraw" and total:
        request.rows = [rng.randrange(total) for _ in range(rng.choice((0, 1, 1, 1, 2, 4)))]
    if request.call == "compare":
        request.rows = [rng.randrange(max(total, 1)) for _ in range(2)]
    if request.call == "choose":
        asked = request.questions if request.questions and chance(rng, 90) else range(64)
        request.question = rng.choice(asked)
        given = request.codes if request.codes and chance(rng, 85) else (0, 1, OLD_ANY, TOP, ANY)
        request.code = rng.choice(given)
        if request.code != ANY and chance(rng, 10):
            request.code = (request.code + rng.choice((HALF, 2**31))) % ANY
    if request.call == "choose_several":
        give_pairs(rng, request)


def lend(rng: random.Random, network: Network, call: str) -> Request:
    request = write_network(network, call)
    lend_marks(rng, request)
    request.supports = garbage(rng, numbers_needed(request))
    lend_counts(rng, request)
    give_arguments(rng, request)
    return request


def good_request(rng: random.Random, network: Network, call: str) -> Request:
    request = lend(rng, network, call)
    if chance(rng, 50 if call == "test" else 25):
        settle_marks(request)
        lend_counts(rng, request)
    return request


def request_on(network: Callable[[random.Random], Network]) -> Callable[[random.Random, str], Request]:
    return lambda rng, call: good_request(rng, at_times_with_any(rng, network(rng)), call)


# Faults put into a network: everything after them still fits together


def page_sheets(rng: random.Random, network: Network) -> None:
    if chance(rng, 30):
        network.pages.clear()
        network.combinations.clear()
        return
    for _ in range(rng.choice((65, 65, 66, 128, 257, 320)) - len(network.pages)):
        network.pages.append(([rng.randrange(64)], [[rng.randrange(2)] for _ in range(rng.randrange(2))]))


def page_width(rng: random.Random, network: Network) -> None:
    place = rng.randrange(len(network.pages))
    questions = rng.sample(range(64), rng.choice((0, 9, 9, 10, 64)))
    network.pages[place] = (questions, [[rng.randrange(2) for _ in questions] for _ in network.pages[place][1]])


def page_rows(rng: random.Random, network: Network) -> None:
    total = sum(len(rows) for _, rows in network.pages)
    questions, rows = rng.choice(network.pages)
    rows.extend([0] * len(questions) for _ in range(rng.choice((4097, 4097, 4100, 4200)) - total))


def page_question(rng: random.Random, network: Network) -> None:
    questions, rows = rng.choice(network.pages)
    if chance(rng, 50) or not 1 <= len(questions) < 8:
        questions[:1] = [rng.choice(BAD_QUESTIONS)]
        return
    questions.append(rng.choice(questions))
    for row in rows:
        row.append(rng.randrange(2))


def page_disconnected(rng: random.Random, network: Network) -> None:
    """A disconnected combination of sheets there are, or with a new sheet on a question nobody asks."""
    pages, m = network.pages, network.m
    numbers = itertools.combinations(range(len(pages)), m)
    parted = [list(c) for c in numbers if not book.connected([pages[sheet][0] for sheet in c])]
    if not parted or chance(rng, 30):
        asked = {question for questions, _ in pages for question in questions}
        fresh = rng.choice([question for question in range(64) if question not in asked])
        parted = [sorted(rng.sample(range(len(pages)), m - 1)) + [len(pages)]]
        pages.append(([fresh], [[rng.randrange(2)] for _ in range(rng.randrange(3))]))
    network.combinations.insert(rng.randint(0, len(network.combinations)), rng.choice(parted))


def page_supports(rng: random.Random, network: Network) -> None:
    """Repeated combinations and added rows until over 32,768 numbers are needed."""
    combinations = network.combinations
    combinations += [list(rng.choice(combinations)) for _ in range(rng.randint(150, 250) - len(combinations))]
    questions, rows = network.pages[combinations[0][0]]
    while numbers_needed(write_network(network, "filter")) <= book.MOST_SUPPORTS:
        rows.extend([0] * len(questions) for _ in range(rng.randint(1, 20)))


NETWORK_DAMAGES: dict[int, Callable[[random.Random, Network], None]] = {
    10: page_disconnected,
    12: page_supports,
    6: page_question,
    3: page_width,
    4: page_rows,
    2: page_sheets,
}


# Faults put into the lent lists


def lent_combination(rng: random.Random, request: Request) -> None:
    start = rng.randrange(0, len(request.combinations) or 1, request.m)
    combination = request.combinations[start : start + request.m] or list(range(request.m))
    kind = rng.choice(("missing", "swapped", "equal"))
    if kind == "missing":
        combination[-1] = rng.choice((len(request.sheets), 64, 256, 65535))
    elif kind == "swapped":
        combination[0], combination[1] = combination[1], combination[0]
    else:
        combination[-1] = combination[-2]
    request.combinations[start : start + request.m] = combination


def lent_combination_list(rng: random.Random, request: Request) -> None:
    if request.combinations and chance(rng, 40):
        count = rng.choice((257, 257, 300)) * request.m
        repeats = count // len(request.combinations) + 1
        request.combinations = (request.combinations * repeats)[:count]
    else:
        request.combinations.insert(rng.randint(0, len(request.combinations)), rng.choice((0, 1, 65535)))


def lent_m(rng: random.Random, request: Request) -> None:
    request.m = rng.choice((0, 1, 5, 5, 6, 258, 65535))
    request.combinations = rng.choice((request.combinations, [], list(range(len(request.sheets)))))


def lent_lengths(rng: random.Random, request: Request) -> None:
    """One list too long, cut short or empty."""
    entries = rng.choice((request.questions, request.codes))
    if not entries or chance(rng, 50):
        entries.extend(rng.choice((0, 1, 65535)) for _ in range(rng.choice((1, 1, 2, 64))))
    else:
        del entries[rng.choice((0, len(entries) - 1, rng.randrange(len(entries)))) :]


def lent_width(rng: random.Random, request: Request) -> None:
    if request.sheets:
        place = rng.randrange(len(request.sheets))
        request.sheets[place] = (rng.choice((0, 9, 256, 257, 65535)), request.sheets[place][1])


def lent_rows(rng: random.Random, request: Request) -> None:
    """Row counts over 4,096, also such as come to little again when counted in 16 bits."""
    if not request.sheets:
        return
    place = rng.randrange(len(request.sheets))
    width, rows = request.sheets[place]
    request.sheets[place] = (width, rng.choice((4097, 65535)))
    if len(request.sheets) > 1 and request.sheets[place][1] == 65535:
        other_width, other_rows = request.sheets[place - 1]
        request.sheets[place - 1] = (other_width, other_rows + rows + 1)


def lent_marks(rng: random.Random, request: Request) -> None:
    words = min(-(-book.row_total(request) // 64), len(request.marks))
    if words:
        del request.marks[rng.choice((0, words - 1)) :]


def lent_supports(rng: random.Random, request: Request) -> None:
    needed = min(numbers_needed(request), len(request.supports))
    if needed:
        del request.supports[rng.choice((0, needed - 1, rng.randrange(needed))) :]


def lent_counts(rng: random.Random, request: Request) -> None:
    """Untrue counts; or counts that are too many or too few, which only plain lists can hold."""
    kind = rng.randrange(100)
    if kind < 10:
        request.counts.extend(rng.choice((0, 1, 65535)) for _ in range(rng.choice((1, 1, 64))))
    elif kind < 20 and request.counts:
        del request.counts[rng.choice((0, len(request.counts) - 1)) :]
    else:
        miscount(rng, request)


def lent_numbers(rng: random.Random, request: Request) -> None:
    total = min(book.row_total(request), 65535)
    bad = rng.choice((total, 65535, rng.randint(total, 65535)))
    if request.call == "compare":
        request.rows[rng.randrange(2)] = bad
    else:
        request.rows.insert(rng.randint(0, len(request.rows)), bad)


def lent_pairs(rng: random.Random, request: Request) -> None:
    """One of the two lists cut short, or longer than the other."""
    entries = rng.choice((request.chosen_questions, request.chosen_codes))
    if entries and chance(rng, 50):
        del entries[rng.choice((0, len(entries) - 1, rng.randrange(len(entries)))) :]
    else:
        entries.extend(rng.choice((0, 1, 63)) for _ in range(rng.choice((1, 1, 2, 64, 300))))


def lent_choice(rng: random.Random, request: Request) -> None:
    bad = rng.choice(BAD_QUESTIONS)
    if request.call != "choose_several":
        request.question = bad
        return
    request.chosen_questions.insert(rng.randint(0, len(request.chosen_questions)), bad)
    request.chosen_codes.append(rng.choice((0, 1, ANY)))


LENT_DAMAGES: dict[int, Callable[[random.Random, Request], None]] = {
    9: lent_combination,
    8: lent_combination_list,
    7: lent_m,
    5: lent_lengths,
    3: lent_width,
    4: lent_rows,
    11: lent_marks,
    12: lent_supports,
    18: lent_counts,
    13: lent_numbers,
    14: lent_choice,
    19: lent_pairs,
}


# Damaged requests


def network_to_damage(rng: random.Random) -> Network:
    """A small network with a row in some combination, at times with many rows."""
    network = small_network(rng)
    while not numbers_needed(write_network(network, "filter")):
        network = small_network(rng)
    if chance(rng, 30):
        questions, rows = rng.choice(network.pages)
        rows.extend([0] * len(questions) for _ in range(rng.randint(50, 140)))
    return network


def request_with_faults(rng: random.Random, call: str, numbers: list[int]) -> Request:
    network = network_to_damage(rng)
    in_network = [n for n in NETWORK_DAMAGES if n in numbers and (n not in LENT_DAMAGES or chance(rng, 50))]
    for number in in_network:
        NETWORK_DAMAGES[number](rng, network)
    request = lend(rng, network, call)
    for number in LENT_DAMAGES:
        if number in numbers and number not in in_network:
            LENT_DAMAGES[number](rng, request)
    return request


def damaged_request(rng: random.Random, call: str) -> Request:
    """Usually several faults, the first of them any that the call uses."""
    used = book.FAULTS_USED[call]
    place = rng.randrange(len(used))
    later = used[place + 1 :]
    extra = rng.sample(later, min(rng.choice((0, 1, 1, 2, 3)), len(later)))
    return request_with_faults(rng, call, [used[place]] + extra)


def untrue_request(rng: random.Random, call: str) -> Request:
    """Untrue counts, mostly together with another fault, before them or behind them in the order."""
    others = [number for number in book.FAULTS_USED[call] if number != 18]
    return request_with_faults(rng, call, [18] + rng.sample(others, rng.choice((0, 1, 1))))


def several_request(rng: random.Random, call: str) -> Request:
    """Pairs that are accepted, or lists of unequal length, mostly together with another fault, before it or behind it in the order."""
    if chance(rng, 75):
        return request_on(any_network if chance(rng, 30) else small_network)(rng, call)
    others = [number for number in book.FAULTS_USED[call] if number != 19]
    return request_with_faults(rng, call, [19] + rng.sample(others, rng.choice((0, 1, 1))))


# Requests at the edge of what is accepted


def edge_sheets(count: int) -> Network:
    return Network([([0], [[0]])] * count, 2, [[0, count - 1]])


def edge_width(width: int) -> Network:
    questions = list(range(width))
    return Network([(questions, [[0] * width, [1] * width]), (questions[::-1], [[1] * width])], 2, [[0, 1]])


def edge_rows(total: int) -> Network:
    return Network([([0], [[g % 2] for g in range(total - 1)]), ([0], [[0]])], 2, [[0, 1]])


def edge_question(question: int) -> Network:
    return Network([([question], [[0], [1]]), ([question], [[1]])], 2, [[0, 1]])


def edge_m(m: int) -> Network:
    return Network([([0], [[0], [1]])] * m, m, [list(range(m))])


def edge_combinations(count: int) -> Network:
    return Network([([0], [[0], [1]]), ([0], [[1]])], 2, [[0, 1]] * count)


def edge_supports(total: int) -> Network:
    """512 numbers needed for each row."""
    return Network([([0], [[0]] * 32), ([0], [[0]] * (total - 32))], 2, [[0, 1]] * 256)


class Edge(NamedTuple):
    network: Callable[[int], Network]
    last_accepted: int
    first_refused: int


EDGES: dict[int, Edge] = {
    2: Edge(edge_sheets, 64, 65),
    3: Edge(edge_width, 8, 9),
    4: Edge(edge_rows, 4096, 4097),
    6: Edge(edge_question, 63, 64),
    7: Edge(edge_m, 4, 5),
    8: Edge(edge_combinations, 256, 257),
    12: Edge(edge_supports, 64, 65),
}


def edge_request(rng: random.Random, call: str) -> Request:
    edge = EDGES[rng.choice(sorted(EDGES))]
    return lend(rng, edge.network(rng.choice((edge.last_accepted, edge.first_refused))), call)


def mixed_request(rng: random.Random, call: str) -> Request:
    kinds = [request_on(small_network)] * 12 + [damaged_request] * 6 + [request_on(wide_network), edge_request]
    return rng.choice(kinds)(rng, call)


SIZES: dict[str, Callable[[random.Random, str], Request]] = {
    "small": request_on(small_network),
    "loose": request_on(loose_network),
    "loose-alike": request_on(loose_alike_network),
    "wide": request_on(wide_network),
    "alike": request_on(alike_network),
    "clashing": request_on(clashing_network),
    "any": request_on(any_network),
    "coded": request_on(coded_network),
    "crowded": request_on(crowded_network),
    "full": request_on(full_network),
    "thin": request_on(thin_network),
    "damaged": damaged_request,
    "untrue": untrue_request,
    "several": several_request,
    "edge": edge_request,
    "mixed": mixed_request,
}


def requests(seed: int, count: int, calls: list[str], size: str) -> list[Request]:
    rng = random.Random(seed)
    return [SIZES[size](rng, rng.choice(calls)) for _ in range(count)]


# Lists of calls on one book


def copied(shared: Request) -> Request:
    lists = ("sheets", "questions", "codes", "combinations", "marks", "counts", "rows", "chosen_questions", "chosen_codes")
    return replace(shared, **{name: list(getattr(shared, name)) for name in lists})


def refused_call(rng: random.Random, shared: Request, call: str) -> Request:
    """Refused for its own arguments, for a damaged copy of the shared lists, or for other lists altogether; often with counts of
    its own."""
    request = replace(copied(shared), call=call, supports=garbage(rng, numbers_needed(shared)))
    give_arguments(rng, request)
    usable = [number for number in LENT_DAMAGES if number in book.FAULTS_USED[call]]
    LENT_DAMAGES[rng.choice(usable)](rng, request)
    if chance(rng, 15):
        miscount(rng, request)
    if book.first_fault(request) and chance(rng, 80):
        return request
    return damaged_request(rng, call)


def accepted_call(rng: random.Random, shared: Request, call: str) -> Request:
    request = replace(shared, call=call, supports=garbage(rng, numbers_needed(shared)))
    give_arguments(rng, request)
    return request


def usual_network(rng: random.Random) -> Network:
    return at_times_with_any(rng, wide_network(rng) if chance(rng, 10) else small_network(rng))


LIST_SIZES: dict[str, Callable[[random.Random], Network]] = {
    "usual": usual_network,
    "crowded": crowded_network,
    "any": any_network,
    "coded": coded_network,
}


def list_of_calls(rng: random.Random, network: Network) -> tuple[Request, list[Request]]:
    """The shared lists with the starting marks and counts, and the change calls."""
    shared = good_request(rng, network, "filter")
    if chance(rng, 6):
        lent_counts(rng, shared)
    refused_percent = 100 if chance(rng, 5) else 25
    calls = []
    for _ in range(rng.randint(1, 8)):
        make = refused_call if chance(rng, refused_percent) else accepted_call
        calls.append(make(rng, shared, rng.choice(("filter", "withdraw", "withdraw", "choose", "choose_several"))))
    return shared, calls


def lists_of_calls(seed: int, count: int, size: str = "usual") -> list[tuple[Request, list[Request]]]:
    rng = random.Random(seed)
    return [list_of_calls(rng, LIST_SIZES[size](rng)) for _ in range(count)]


# Moves between the old form and the new one


class Move(NamedTuple):
    there: bool  # to the new form
    request: Request
    target: list[int]
    cut: list[int]  # so many bytes are missing at the end of the sheets, the questions, the codes and the target


def book_to_move(rng: random.Random) -> Request:
    """Of any kind; at times with faults 2 to 6, and at times with as many codes as a book can have."""
    if chance(rng, 1):
        return lend(rng, rng.choice((edge_rows(4096), Network([(list(range(8)), [[1] * 8] * 4096)], 2, []))), "filter")
    if chance(rng, 35):
        return request_with_faults(rng, "filter", rng.sample((2, 3, 4, 5, 6), rng.choice((1, 1, 2))))
    return lend(rng, rng.choice((small_network, coded_network, any_network))(rng), "filter")


def recode(rng: random.Random, request: Request, there: bool) -> None:
    """Codes of the form that is left; on the way back at times one or two for which the old form has no place."""
    own = OLD_ANY if there else ANY
    request.codes = [own if code == ANY or chance(rng, 5) else code % OLD_ANY for code in request.codes]
    if request.codes and not there and chance(rng, 40):
        for _ in range(rng.choice((1, 1, 2))):
            wide = rng.choice((OLD_ANY, HALF, TOP, HALF + OLD_ANY, rng.randint(OLD_ANY, TOP)))
            request.codes[rng.choice((0, -1, rng.randrange(len(request.codes))))] = wide


def draw_move(rng: random.Random) -> Move:
    there, request = chance(rng, 50), book_to_move(rng)
    recode(rng, request, there)
    needed = len(request.codes)
    room = rng.choice((needed, needed, needed + 1, needed + rng.randrange(99), max(needed - 1, 0), 0, rng.randint(0, needed)))
    target = [rng.randrange(2**32 if there else HALF) for _ in range(room)]
    cut, units = [0] * 4, (6, 2, 2 if there else 4, 4 if there else 2)
    lists = (request.sheets, request.questions, request.codes, target)
    if chance(rng, 12):
        place = rng.choice([place for place in range(4) if lists[place]] or [0])
        cut[place] = rng.randrange(1, units[place]) if lists[place] else 0
    return Move(there, request, target, cut)


def moves(seed: int, count: int) -> list[Move]:
    rng = random.Random(seed)
    return [draw_move(rng) for _ in range(count)]


# Texts for the listing program


def good_text(rng: random.Random) -> bytes:
    network = coded_network(rng) if chance(rng, 30) else usual_network(rng)
    return write_text(write_network(network, "filter"))


def refused_text(rng: random.Random) -> bytes:
    """Faults that a text can hold: those of the network, a bad combination, a bad m, too many combinations."""
    network = network_to_damage(rng)
    number = rng.choice((2, 3, 4, 6, 6, 7, 8, 9, 9, 10, 10, 12))
    if number in NETWORK_DAMAGES:
        NETWORK_DAMAGES[number](rng, network)
    request = write_network(network, "filter")
    if number not in NETWORK_DAMAGES or chance(rng, 20):
        LENT_DAMAGES[number if number in (7, 8, 9) else 9](rng, request)
    return write_text(request)


def change_bytes(rng: random.Random, text: bytes) -> bytes:
    """One to three bytes changed, inserted or deleted, or the text cut."""
    for _ in range(rng.choice((1, 1, 1, 2, 3))):
        place = rng.randrange(len(text) + 1)
        byte = bytes([rng.choice(LIKELY_BYTES) if chance(rng, 90) else rng.randrange(256)])
        text = rng.choice(
            (
                text[:place] + byte + text[place + 1 :],
                text[:place] + byte + text[place:],
                text[:place] + text[place + 1 :],
                text[:place],
            )
        )
    return text


def change_field(rng: random.Random, text: bytes) -> bytes:
    """One field with a needless zero, out of range, empty or not decimal."""
    lines = text.split(b"\n")
    place = rng.randrange(max(len(lines) - 1, 1))
    fields = lines[place].split(b",")
    column = rng.randrange(len(fields))
    old = fields[column]
    wraps = [b"%d" % (int(old) + 2**bits) for bits in (8, 16, 32, 64)]
    others = [b"", b"00", b"-1", b"-0", b"0x1", b"1e1", b"1_0", b"0" + old, b"+" + old, b" " + old, old + b" "]
    fields[column] = rng.choice(rng.choice((wraps, others, LIKELY_FIELDS)))
    lines[place] = b",".join(fields)
    return b"\n".join(lines)


def change_lines(rng: random.Random, text: bytes) -> bytes:
    """Line ends and whole lines: missing, doubled, empty, swapped, in another form, or after the last."""
    lines = text[:-1].split(b"\n")
    place = rng.randrange(len(lines))
    dropped = lines[:place] + lines[place + 1 :]
    return rng.choice(
        (
            text[:-1],
            text + b"\n",
            text + b"0",
            text + b"\0",
            text + text,
            b"\n" + text,
            b"\xef\xbb\xbf" + text,
            b"",
            b"\n",
            text.replace(b"\n", b"\r\n"),
            text[:-1] + b"\r\n",
            text.replace(b"\n", b"\r"),
            text.replace(b",", b", "),
            text.replace(b",", b";"),
            b"".join(line + b"\n" for line in dropped),
            b"\n".join(lines[: place + 1] + lines[place:]) + b"\n",
            b"\n".join(lines[:place] + [b""] + lines[place:]) + b"\n",
            b"\n".join(dropped + [lines[place]]) + b"\n",
            b"\n".join(lines[:place] + [lines[place] + b","] + lines[place + 1 :]) + b"\n",
            b"\n".join(lines[:place] + [lines[place] + b",0"] + lines[place + 1 :]) + b"\n",
        )
    )


def text_of_length(length: int) -> bytes:
    """A faultless text of exactly so many bytes, about 16,100 to 80,000: one sheet, width 8, 1,000 rows."""
    request = Request(sheets=[(8, 1000)], questions=list(range(8)), codes=[1] * 8000)
    further_digits = length - len(write_text(request))
    for place in range(8000):
        digits = min(8, further_digits)
        request.codes[place] = 10**digits
        further_digits -= digits
    return write_text(request)


def text_of_rows(total: int) -> bytes:
    return write_text(Request(sheets=[(1, total - 1), (1, 1)], questions=[0, 0], codes=[0] * total))


def large_text(rng: random.Random) -> bytes:
    if chance(rng, 60):
        return text_of_length(rng.choice((32767, 32768, 32769, 40000, 65536)))
    return text_of_rows(rng.choice((4095, 4096, 4097)))


def draw_text(rng: random.Random) -> bytes:
    kind = rng.randrange(100)
    if kind < 3:
        return large_text(rng)
    if kind < 30:
        return refused_text(rng)
    text = good_text(rng)
    if kind < 60:
        return text
    return (change_bytes if kind < 80 else change_field if kind < 92 else change_lines)(rng, text)


def texts(seed: int, count: int) -> list[bytes]:
    rng = random.Random(seed)
    return [draw_text(rng) for _ in range(count)]


def draw_older_text(rng: random.Random) -> bytes:
    """A text of 16-bit codes, often with 65,535 among them and in other fields, or one changed as draw_text does."""
    network = network_to_damage(rng) if chance(rng, 20) else usual_network(rng)
    request = write_network(network, "filter")
    request.codes = [OLD_ANY if code == ANY or chance(rng, 5) else code % HALF for code in request.codes]
    if request.questions and chance(rng, 10):
        request.questions[rng.randrange(len(request.questions))] = OLD_ANY
    if request.combinations and chance(rng, 10):
        request.combinations[rng.randrange(len(request.combinations))] = OLD_ANY
    text = write_text(request)
    return text if chance(rng, 70) else rng.choice((change_bytes, change_field, change_lines))(rng, text)


def older_texts(seed: int, count: int) -> list[bytes]:
    rng = random.Random(seed)
    return [draw_older_text(rng) for _ in range(count)]
