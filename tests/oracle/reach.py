"""What the drawn requests of a size must reach, told from the requests and their replies."""

import itertools
from dataclasses import replace
from typing import Callable, Iterator

import book
from book import ANY, OLD_ANY, Book, Combination, Reply, Request, Row

BUCKETS = 17  # codes with one remainder by this number are alike to an index of so many buckets

SHEETS = [(15, 15), (16, 31), (32, 63), (64, 64)]
ORDERS = ["rising", "falling", "mixed"]
COMBINATIONS = [(7, 15), (16, 63), (64, 255), (256, 256)]
ANY_SHARES = [(1, 10), (20, 40), (100, 100)]
FAR = 16  # the library's search takes another way after so many rows in vain


def bands(number: int, all_bands: list[tuple[int, int]], of: str) -> Iterator[str]:
    return (f"{low} to {high} {of}" for low, high in all_bands if low <= number <= high)


def spread(request: Request) -> int:
    """The most mark words that the rows of one sheet in a combination stand in."""
    rows = book.read_book(request).sheets
    return max((rows[s][-1] // 64 - rows[s][0] // 64 + 1 for s in request.combinations if rows[s]), default=0)


def works(request: Request, reply: Reply) -> bool:
    """An accepted change whose filter deletes rows and leaves some, or a test that is answered."""
    answer = reply[0]
    if request.call == "test":
        return answer[0] != book.REFUSED
    return request.call != "compare" and answer[0] != book.REFUSED and answer[2] > 0 and answer[4] > 0


def order(questions: list[int]) -> str:
    """How the columns of a sheet stand."""
    return {tuple(sorted(questions)): "rising", tuple(sorted(questions)[::-1]): "falling"}.get(tuple(questions), "mixed")


def compared(request: Request, reply: Reply) -> Iterator[str]:
    """Of a comparison: that the rows agree, or how the columns stand in which they differ."""
    one, other = (book.read_book(request).rows[g] for g in request.rows)
    shared = [[q for q in row if q in one and q in other] for row in (one, other)]
    clashes = [[q for q in questions if not book.fit(one[q], other[q])] for questions in shared]
    if not clashes[0]:
        yield "agree"
    if len(clashes[0]) > 2:
        yield f"several clashes, {order(clashes[0])} and {order(clashes[1])}"
    if reply[0][1] in (0, 63):
        yield f"clash under {reply[0][1]}"
    if clashes[0] and any(ANY in (one[q], other[q]) for q in shared[0]):
        yield "a clash beside any"


# Counts


def counted(request: Request, marks: list[int]) -> list[int]:
    """The living rows of each sheet, by the records and the marks alone; a row without a mark is dead."""
    living = [word >> bit & 1 for word in marks for bit in range(64)]
    ends = itertools.accumulate(rows for _, rows in request.sheets)
    return [sum(living[max(end - rows, 0) : end]) for end, (_, rows) in zip(ends, request.sheets)]


def place(sheet: int, sheets: int) -> str:
    return "first" if sheet == 0 else "last" if sheet == sheets - 1 else "middle"


def off(request: Request) -> Iterator[str]:
    """How the counts lent differ from the marks."""
    true = counted(request, request.marks)
    if len(request.counts) != len(true):
        yield "too many counts" if len(request.counts) > len(true) else "too few counts"
        return
    wrong = [(sheet, (count - true[sheet]) % 65536) for sheet, count in enumerate(request.counts) if count != true[sheet]]
    if wrong:
        yield "untrue"
    if len(wrong) == 1:
        sheet, by = wrong[0]
        if by in (1, 65535):
            yield f"one too {'many' if by == 1 else 'few'}, {place(sheet, len(true))} sheet"
        if by == 256:
            yield "right in the low byte"
    if wrong and sum(request.counts) == sum(true):
        yield "untrue, with the right sum"


def of_untrue_counts(request: Request, reply: Reply) -> Iterator[str]:
    """Of counts that differ from the marks: how, and what is given in their place, or not."""
    ways, (kind, number) = list(off(request)), reply[0][:2]
    if not ways:
        return
    if kind != book.REFUSED:
        yield f"counts not looked at, {request.call} {kind}"
    elif number == 18:
        yield from (f"18, {request.call}", *(f"18, {way}" for way in ways))
        later = [n for n in book.FAULTS_USED[request.call] if n in (13, 14, 19) and book.FAULT_TESTS[n](request)]
        yield from (f"18 before {n}" for n in later)
    elif request.call not in book.ASKING:
        yield f"{number} before 18"


def of_changed_counts(request: Request, counts: list[int]) -> Iterator[str]:
    """Of an accepted change: which counts it changes."""
    changed = [sheet for sheet, count in enumerate(counts) if count != request.counts[sheet]]
    yield from (f"a count changes, {place(sheet, len(counts))} sheet" for sheet in changed)
    if 0 < len(changed) < len(counts):
        yield "a count changes and another stays"
    if any(request.counts[sheet] > 255 for sheet in changed):
        yield "a count above 255 changes"


# Pairs


def of_pairs(request: Request, reply: Reply) -> Iterator[str]:
    """Of a choice of several: how its pairs stand, and what they do together."""
    pairs = list(zip(request.chosen_questions, request.chosen_codes))
    if reply[0][0] == book.REFUSED:
        yield from of_unequal_lists(request, reply)
        return
    yield f"{min(len(pairs), 3)} pairs, answered {reply[0][0]}" if len(pairs) < 65 else "pairs for more than every question"
    if len(set(pairs)) < len(pairs):
        yield "a pair twice"
    if ANY in request.chosen_codes and len(set(request.chosen_codes)) > 1:
        yield "any chosen beside another code"
    if set(request.chosen_questions) - set(request.questions) and set(request.chosen_questions) & set(request.questions):
        yield "a question that nobody asks, beside others"
    whole = book.read_book(request)
    living, left = (book.living_rows(whole, marks) for marks in (request.marks, reply[1]))
    yield from of_contrary_codes(pairs, whole, living, left)
    struck = [living & book.struck_by_choice(whole, *pair) for pair in set(pairs)]
    together = living & book.struck_rows(whole, request)
    if len(struck) > 1 and all(some < together for some in struck) and left:
        yield "each pair strikes less than all together"
    if len(pairs) > 1 and living & struck_by_last(whole, pairs) - set().union(*(book.struck_by_choice(whole, *p) for p in pairs[:-1])):
        yield "the last pair alone strikes a row"


def struck_by_last(whole: Book, pairs: list[tuple[int, int]]) -> set[int]:
    return book.struck_by_choice(whole, *pairs[-1])


def of_contrary_codes(pairs: list[tuple[int, int]], whole: Book, living: set[int], left: set[int]) -> Iterator[str]:
    for question in {question for question, _ in pairs}:
        codes = {code for asked, code in pairs if asked == question} - {ANY}
        if len(codes) < 2 or not any(question in whole.rows[g] for g in living):
            continue
        yield "contrary codes" if len(codes) == 2 else "three contrary codes"
        if any(whole.rows[g].get(question) == ANY for g in left):
            yield "contrary codes, and any is left"
        if any(whole.rows[g].get(question) in codes for g in living):
            yield "contrary codes that rows have"


def of_unequal_lists(request: Request, reply: Reply) -> Iterator[str]:
    """Of lists of unequal length: which is longer, and which faults stand before them and behind."""
    if not book.unequal_lists(request):
        return
    number = reply[0][1]
    if number == 19:
        longer = "questions" if len(request.chosen_questions) > len(request.chosen_codes) else "codes"
        yield f"19, more {longer}" if request.chosen_questions and request.chosen_codes else f"19, {longer} alone"
        yield from ("19 before 14" for _ in range(book.bad_choice(request)))
    else:
        yield f"{number} before 19"


# Any


def any_in_book(request: Request) -> Iterator[str]:
    """Where any stands in the book, and what stands beside it."""
    whole = book.read_book(request)
    for rows in whole.sheets:
        held = [tuple(whole.rows[g].values()) for g in rows if ANY in whole.rows[g].values()]
        yield from ("equal rows with any" for _ in range(len(held) - len(set(held))))
        yield from ("a row of any alone" for row in held if len(row) > 1 and set(row) == {ANY})
        yield from ("any in several columns" for row in held if 1 < row.count(ANY) < len(row))
    for question in set(request.questions):
        asking = [sheet for sheet, asked in enumerate(book.read_questions(request)) if question in asked]
        codes = {whole.rows[g][question] for sheet in asking for g in whole.sheets[sheet]}
        if ANY in codes:
            yield "any, asked by several sheets" if len(asking) > 1 else "any, asked by one sheet"
        if {ANY, ANY - 1} <= codes:
            yield "any beside the topmost code"


def codes_beside_any(request: Request) -> str:
    codes = set(request.codes) - {ANY}
    return "low" if max(codes, default=0) < 16 else "topmost" if min(codes) > ANY - 16 else "scattered"


def misread(request: Request, reading: Callable[[int], int]) -> Request:
    """The request with its codes read otherwise."""
    codes, chosen = ([reading(code) for code in codes] for codes in (request.codes, request.chosen_codes))
    return replace(request, codes=codes, code=reading(request.code), chosen_codes=chosen)


def any_decides(request: Request, reply: Reply) -> bool:
    """Whether an ordinary code in the place of any gets another answer or other marks."""
    held = {*request.codes, *request.chosen_codes, request.code}
    other = min(set(range(len(held) + 1)) - held)
    return book.reply(misread(request, lambda code: other if code == ANY else code))[:2] != reply[:2]


def any_meets(one: Row, other: Row) -> Iterator[str]:
    """Where any stands for a seeking row and a row of its support."""
    for question in one.keys() & other.keys():
        if ANY in (one[question], other[question]):
            seeker, partner = one[question] == ANY, other[question] == ANY
            yield "any on both sides" if seeker and partner else "any in the seeking row" if seeker else "any in its support"


def chain(whole: Book, combination: Combination, candidates: set[int], g: int) -> bool:
    """Whether candidates of the members, g for its own sheet, agree each with the one before."""
    ends = [g]
    for place, sheet in enumerate(combination):
        rows = [g] if g in whole.sheets[sheet] else [h for h in whole.sheets[sheet] if h in candidates]
        ends = [h for h in rows if place == 0 or any(book.agree(whole.rows[h], whole.rows[end]) for end in ends)]
    return bool(ends)


def chained(whole: Book, combinations: list[Combination], kept: set[int], g: int) -> bool:
    """Whether a row that fell has chains of rows left in all its combinations, and in one of them through any alone."""
    holding = [combination for combination in combinations if any(g in whole.sheets[sheet] for sheet in combination)]
    without = {h for h in kept if ANY not in whole.rows[h].values()}
    chains = [(chain(whole, combination, kept, g), chain(whole, combination, without, g)) for combination in holding]
    return all(has_chain for has_chain, _ in chains) and (True, False) in chains


def far_on(whole: Book, combination: Combination, living: set[int], g: int) -> bool:
    """Whether in the first support of row g two further rows meet by any, the first of them behind many that agree with g."""
    chosen = book.first_support(whole, combination, living, g)
    others = [h for h in chosen or () if h != g]
    if len(others) < 2 or not list(any_meets(whole.rows[others[0]], whole.rows[others[1]])):
        return False
    before = [h for rows in whole.sheets if others[0] in rows for h in rows if h < others[0] and h in living]
    return sum(book.agree(whole.rows[g], whole.rows[h]) for h in before) >= FAR


def any_in_supports(whole: Book, combinations: list[Combination], kept: set[int]) -> Iterator[str]:
    for combination in combinations:
        for g in (g for sheet in combination for g in whole.sheets[sheet] if g in kept):
            for h in set(book.first_support(whole, combination, kept, g)) - {g}:
                yield from any_meets(whole.rows[g], whole.rows[h])


def any_in_choice(request: Request, whole: Book, living: set[int], kept: set[int]) -> Iterator[str]:
    question, code = request.question, request.code
    if code == ANY and any(question in whole.rows[g] for g in living):
        yield "any chosen"
    if living & book.struck_rows(whole, request) and any(whole.rows[g].get(question) == ANY for g in kept):
        yield "a code chosen beside any"


def any_in_change(request: Request, reply: Reply) -> Iterator[str]:
    """Of an accepted change: how any stands in the supports, before the filter and after it, in rows that fall, and in a choice."""
    whole, combinations = book.read_book(request), book.read_combinations(request)
    living, kept = (book.living_rows(whole, marks) for marks in (request.marks, reply[1]))
    rest = living - book.struck_rows(whole, request)
    yield from any_in_supports(whole, combinations, kept)
    if any(chained(whole, combinations, kept, g) for g in rest - kept):
        yield f"a chain through any, m = {request.m}"
    if any(far_on(whole, combination, rest, g) for combination in combinations for g in rest & set(whole.sheets[combination[0]])):
        yield "a support far on by any"
    if request.call == "choose":
        yield from any_in_choice(request, whole, living, kept)


def of_any(request: Request, reply: Reply) -> Iterator[str]:
    """Of an accepted request with any: that it decides, and how it stands."""
    share = 100 * request.codes.count(ANY) // len(request.codes)
    yield from bands(share, ANY_SHARES, "per cent any")
    yield from any_in_book(request)
    if any_decides(request, reply):
        yield f"any decides, {request.call}" + (f" {reply[0][0]}" if request.call in book.ASKING else f", m = {request.m}")
        yield f"any decides beside {codes_beside_any(request)} codes"
        if book.row_total(request) > 64 and request.call != "compare":
            yield "any decides in several words"
    if request.call not in book.ASKING:
        yield from any_in_change(request, reply)


# Codes of 32 bits

MISREADINGS = {
    "by low halves": lambda code: code % 2**16,
    "by high halves": lambda code: code // 2**16,
    "with 65,535 as any": lambda code: ANY if code == OLD_ANY else code,
}


def of_wide_codes(request: Request, reply: Reply) -> Iterator[str]:
    """Of an accepted request: which misreadings of its codes get another answer or other marks, and what is chosen."""
    for name, reading in MISREADINGS.items():
        if book.reply(misread(request, lambda code: code if code == ANY else reading(code)))[:2] != reply[:2]:
            yield f"other {name}, {request.call}"
    if {OLD_ANY, ANY} <= set(request.codes):
        yield "65,535 beside any"
    if request.call == "choose" and request.code != ANY and request.question in request.questions:
        yield "65,535 chosen" if request.code == OLD_ANY else "more chosen" if request.code > OLD_ANY else "less chosen"


def reached(request: Request, reply: Reply) -> Iterator[str]:
    yield from of_untrue_counts(request, reply)
    if request.call == "choose_several":
        yield from of_pairs(request, reply)
    if request.call not in book.ASKING and reply[0][0] != book.REFUSED:
        yield from of_changed_counts(request, reply[3])
    if request.call == "compare" and reply[0][0] != book.REFUSED:
        yield from compared(request, reply)
    if ANY in request.codes and reply[0][0] != book.REFUSED:
        yield from of_any(request, reply)
    if max(request.codes, default=0) >= OLD_ANY and reply[0][0] != book.REFUSED:
        yield from of_wide_codes(request, reply)
    if not works(request, reply):
        return
    combinations = {tuple(combination) for combination in book.read_combinations(request)}
    yield from bands(len(request.sheets), SHEETS, "sheets")
    yield from bands(len(combinations), COMBINATIONS, "different combinations")
    if len(combinations) * request.m == 1024:
        yield f"1,024 pairs, {request.call}" + (f" {reply[0][0]}" if request.call == "test" else "")
    codes = set(request.codes) - {ANY}
    different = len(codes) if len({code % BUCKETS for code in codes}) == 1 else 1
    if different >= 3 and book.row_total(request) > 64:
        yield "codes alike in several words"
    if different >= 4 and spread(request) > 2:
        yield "codes alike in a sheet of several words"


def labels(all_bands: list[tuple[int, int]], of: str) -> set[str]:
    return {label for low, _ in all_bands for label in bands(low, all_bands, of)}


ANY_PLACES = {"any in the seeking row", "any in its support", "any on both sides", "a support far on by any"}
ANY_PLACES |= {"any in several columns", "a row of any alone", "equal rows with any"}
ANY_PLACES |= {"any, asked by several sheets", "any, asked by one sheet"}
ANY_CALLS = {f"any decides, {call}, m = {m}" for call in ("filter", "withdraw", "choose", "choose_several") for m in (2, 3, 4)}
ANY_CALLS |= {"any decides, test 1", "any decides, compare 0", "any decides, compare 1", "a clash beside any"}
ANY_CALLS |= {"any chosen", "a code chosen beside any", "a chain through any, m = 3", "a chain through any, m = 4"}
ANY_CODES = {"any decides beside low codes", "any decides beside topmost codes", "any decides beside scattered codes"}
ANY_CODES |= {"any beside the topmost code", "any decides in several words"} | labels(ANY_SHARES, "per cent any")
ANY_LISTS = {"any chosen", "a code chosen beside any"} | {label for label in ANY_CALLS if label.startswith("any decides, choose")}

CODED = {f"other {name}, {call}" for name in MISREADINGS for call in ("filter", "withdraw", "choose", "choose_several", "test", "compare")}
CODED |= {"65,535 beside any", "65,535 chosen", "more chosen"}

SEVERAL = {f"{count} pairs, answered {kind}" for count in range(4) for kind in (0, 1)}
SEVERAL |= {"pairs for more than every question", "a pair twice", "any chosen beside another code"}
SEVERAL |= {"a question that nobody asks, beside others", "each pair strikes less than all together", "the last pair alone strikes a row"}
SEVERAL |= {"contrary codes", "three contrary codes", "contrary codes, and any is left", "contrary codes that rows have"}
SEVERAL |= {"19, more questions", "19, more codes", "19, questions alone", "19, codes alone", "19 before 14"}
SEVERAL |= {f"{number} before 19" for number in (*range(2, 13), 18)}

PLACES = ("first", "middle", "last")
UNTRUE = {f"18, one too {how}, {where} sheet" for how in ("many", "few") for where in PLACES}
UNTRUE |= {"18, too many counts", "18, too few counts", "18, right in the low byte", "18, untrue, with the right sum"}
UNTRUE |= {"18, filter", "18, withdraw", "18, choose", "18, choose_several", "18 before 13", "18 before 14", "18 before 19"}
UNTRUE |= {f"{number} before 18" for number in range(2, 13)}
UNASKED = {f"counts not looked at, {call} {kind}" for call in book.ASKING for kind in (0, 1)}
CHANGED = {f"a count changes, {where} sheet" for where in PLACES} | {"a count changes and another stays"}


WANTED: dict[str, set[str]] = {
    "untrue": UNTRUE,
    "crowded": CHANGED | labels(SHEETS, "sheets") | labels(COMBINATIONS, "different combinations"),
    "full": {f"1,024 pairs, {call}" for call in ("filter", "withdraw", "choose", "choose_several", "test 0", "test 1")},
    "clashing": {"agree", "clash under 0", "clash under 63"}
    | UNASKED
    | {f"several clashes, {one} and {other}" for one in ORDERS for other in ORDERS},
    "alike": {"codes alike in several words", "codes alike in a sheet of several words", "a count above 255 changes"},
    "any": ANY_PLACES | ANY_CALLS | ANY_CODES,
    "several": SEVERAL,
    "coded": CODED,
}
