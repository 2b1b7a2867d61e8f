"""The meaning of the compatibility book: refusals, filtering, calls, the strike rule and the desk's text."""

import itertools
import re
from dataclasses import dataclass, field, replace
from typing import Callable, Iterator, NamedTuple, Optional

Row = dict[int, int]  # question -> code
Combination = list[int]
Answer = tuple[int, ...]
Reply = tuple[Answer, list[int], list[int], list[int]]  # answer, marks, supports, counts

SETTLED, EMPTIED, REFUSED = 0, 1, 2
DIFFER, AGREE = 0, 1
NO_SHEET = 64
NO_QUESTION = 64
DEAD = 65535
ANY = 2**32 - 1  # the code for "any"
OLD_ANY = 2**16 - 1  # the same while codes had 16 bits; now a code like every other
MOST_ROWS = 4096
MOST_SUPPORTS = 32768
MOST_BYTES = 32768
OLD_MOST_BYTES = 65536  # of an older text


@dataclass
class Request:
    call: str = "filter"
    sheets: list[tuple[int, int]] = field(default_factory=list)
    questions: list[int] = field(default_factory=list)
    codes: list[int] = field(default_factory=list)
    m: int = 2
    combinations: list[int] = field(default_factory=list)
    marks: list[int] = field(default_factory=list)
    supports: list[int] = field(default_factory=list)
    counts: list[int] = field(default_factory=list)  # of each sheet's living rows
    rows: list[int] = field(default_factory=list)
    question: int = 0
    code: int = 0
    chosen_questions: list[int] = field(default_factory=list)
    chosen_codes: list[int] = field(default_factory=list)


class Book(NamedTuple):
    rows: list[Row]  # by book number
    sheets: list[range]  # the book numbers of each sheet


# Reading the lent lists


def row_total(request: Request) -> int:
    return sum(rows for _, rows in request.sheets)


def read_questions(request: Request) -> list[list[int]]:
    questions = iter(request.questions)
    return [list(itertools.islice(questions, width)) for width, _ in request.sheets]


def read_book(request: Request) -> Book:
    book = Book([], [])
    codes = iter(request.codes)
    for (_, count), questions in zip(request.sheets, read_questions(request)):
        first = len(book.rows)
        book.sheets.append(range(first, first + count))
        book.rows.extend({question: next(codes) for question in questions} for _ in range(count))
    return book


def read_combinations(request: Request) -> list[Combination]:
    starts = range(0, len(request.combinations), request.m)
    return [request.combinations[start : start + request.m] for start in starts]


def living_rows(book: Book, marks: list[int]) -> set[int]:
    return {g for g in range(len(book.rows)) if marks[g // 64] >> (g % 64) & 1}


def true_counts(book: Book, living: set[int]) -> list[int]:
    return [len([g for g in rows if g in living]) for rows in book.sheets]


# Refusals: each test may be run only when all tests before it are false


def sheets_out_of_range(request: Request) -> bool:
    return not 1 <= len(request.sheets) <= 64


def width_out_of_range(request: Request) -> bool:
    return any(not 1 <= width <= 8 for width, _ in request.sheets)


def too_many_rows(request: Request) -> bool:
    return row_total(request) > MOST_ROWS


def wrong_list_length(request: Request) -> bool:
    questions = sum(width for width, _ in request.sheets)
    codes = sum(width * rows for width, rows in request.sheets)
    return len(request.questions) != questions or len(request.codes) != codes


def bad_question(request: Request) -> bool:
    too_high = any(question > 63 for question in request.questions)
    return too_high or any(len(set(asked)) < len(asked) for asked in read_questions(request))


def bad_m(request: Request) -> bool:
    return request.m not in (2, 3, 4)


def bad_combination_list(request: Request) -> bool:
    return len(request.combinations) % request.m != 0 or len(request.combinations) > 256 * request.m


def rises(numbers: list[int]) -> bool:
    return all(low < high for low, high in zip(numbers, numbers[1:]))


def bad_combination(request: Request) -> bool:
    missing = any(sheet >= len(request.sheets) for sheet in request.combinations)
    return missing or not all(rises(combination) for combination in read_combinations(request))


def connected(members: list[list[int]]) -> bool:
    """Whether the members, given by their questions, cannot be divided into two groups sharing none."""
    for in_first in itertools.product((False, True), repeat=len(members)):
        first = {q for asked, inside in zip(members, in_first) if inside for q in asked}
        second = {q for asked, inside in zip(members, in_first) if not inside for q in asked}
        if any(in_first) and not all(in_first) and not first & second:
            return False
    return True


def disconnected_combination(request: Request) -> bool:
    asked = read_questions(request)
    return not all(connected([asked[sheet] for sheet in combination]) for combination in read_combinations(request))


def too_few_marks(request: Request) -> bool:
    return len(request.marks) * 64 < row_total(request)


def supports_needed(request: Request) -> int:
    return sum(request.sheets[sheet][1] * request.m for sheet in request.combinations)


def bad_support_list(request: Request) -> bool:
    needed = supports_needed(request)
    return needed > MOST_SUPPORTS or len(request.supports) < needed


def untrue_counts(request: Request) -> bool:
    book = read_book(request)
    return request.counts != true_counts(book, living_rows(book, request.marks))


def bad_book_number(request: Request) -> bool:
    return any(g >= row_total(request) for g in request.rows)


def unequal_lists(request: Request) -> bool:
    return len(request.chosen_questions) != len(request.chosen_codes)


def bad_choice(request: Request) -> bool:
    asked = request.chosen_questions if request.call == "choose_several" else [request.question]
    return any(question > 63 for question in asked)


FAULT_TESTS: dict[int, Callable[[Request], bool]] = {
    2: sheets_out_of_range,
    3: width_out_of_range,
    4: too_many_rows,
    5: wrong_list_length,
    6: bad_question,
    7: bad_m,
    8: bad_combination_list,
    9: bad_combination,
    10: disconnected_combination,
    11: too_few_marks,
    12: bad_support_list,
    18: untrue_counts,
    13: bad_book_number,
    19: unequal_lists,
    14: bad_choice,
}

FAULTS_USED: dict[str, list[int]] = {
    "filter": [2, 3, 4, 5, 6, 7, 8, 9, 10, 11, 12, 18],
    "withdraw": [2, 3, 4, 5, 6, 7, 8, 9, 10, 11, 12, 18, 13],
    "choose": [2, 3, 4, 5, 6, 7, 8, 9, 10, 11, 12, 18, 14],
    "choose_several": [2, 3, 4, 5, 6, 7, 8, 9, 10, 11, 12, 18, 19, 14],
    "test": [2, 3, 4, 5, 6, 7, 8, 9, 10, 11],
    "compare": [2, 3, 4, 5, 6, 13],
}


def faults(request: Request) -> list[tuple[int, Callable[[Request], bool]]]:
    """The refusal numbers that the call uses, in checking order, each with its test."""
    return [(number, FAULT_TESTS[number]) for number in FAULTS_USED[request.call]]


def first_fault(request: Request) -> int:
    return next((number for number, test in faults(request) if test(request)), 0)


# Filtering


def fit(one: int, other: int) -> bool:
    """Whether two codes fit."""
    return one == other or ANY in (one, other)


def agree(one: Row, other: Row) -> bool:
    return all(fit(code, other[question]) for question, code in one.items() if question in other)


def first_clash(one: Row, other: Row) -> Optional[int]:
    """The lowest question of both rows under which their codes do not fit."""
    shared = [question for question in range(64) if question in one and question in other]
    return next((question for question in shared if not fit(one[question], other[question])), None)


def first_support(book: Book, combination: Combination, living: set[int], seeker: int) -> Optional[tuple[int, ...]]:
    """The first support of the seeker, as book numbers; the seeker stands for its own sheet."""
    members = []
    for sheet in combination:
        rows = book.sheets[sheet]
        members.append([seeker] if seeker in rows else [g for g in rows if g in living])
    for chosen in itertools.product(*members):
        if all(agree(book.rows[g], book.rows[h]) for g, h in itertools.combinations(chosen, 2)):
            return chosen
    return None


def supported(book: Book, combinations: list[Combination], living: set[int], g: int) -> bool:
    """Whether row g has a support in every combination holding its sheet."""
    own = next(sheet for sheet, rows in enumerate(book.sheets) if g in rows)
    holding = [combination for combination in combinations if own in combination]
    return all(first_support(book, combination, living, g) is not None for combination in holding)


def settled(book: Book, combinations: list[Combination], living: set[int]) -> bool:
    return all(supported(book, combinations, living, g) for g in living)


def filtered(book: Book, combinations: list[Combination], living: set[int]) -> set[int]:
    """The largest settled set inside the living rows."""
    while True:
        kept = {g for g in living if supported(book, combinations, living, g)}
        if kept == living:
            return kept
        living = kept


# What a change call leaves


def verdict(book: Book, living: set[int]) -> tuple[int, int]:
    """Kind and sheet: the lowest sheet with no living row, or settled."""
    for sheet, rows in enumerate(book.sheets):
        if not any(g in living for g in rows):
            return EMPTIED, sheet
    return SETTLED, NO_SHEET


def marks_after(book: Book, marks: list[int], kept: set[int]) -> list[int]:
    after = list(marks)
    for g in range(len(book.rows)):
        bit = 2 ** (g % 64)
        was_living = after[g // 64] // bit % 2
        after[g // 64] += bit * ((g in kept) - was_living)
    return after


def supports_of_row(book: Book, combination: Combination, kept: set[int], g: int) -> list[int]:
    if g not in kept:
        return [DEAD] * len(combination)
    chosen = first_support(book, combination, kept, g)
    return [book.sheets[sheet].index(h) for sheet, h in zip(combination, chosen)]


def supports_after(book: Book, combinations: list[Combination], supports: list[int], kept: set[int]) -> list[int]:
    needed = []
    for combination in combinations:
        for sheet in combination:
            for g in book.sheets[sheet]:
                needed += supports_of_row(book, combination, kept, g)
    return needed + supports[len(needed) :]


def struck_by_choice(book: Book, question: int, code: int) -> set[int]:
    asking = [g for g, row in enumerate(book.rows) if question in row]
    return {g for g in asking if not fit(book.rows[g][question], code)}


def struck_rows(book: Book, request: Request) -> set[int]:
    if request.call == "withdraw":
        return set(request.rows)
    if request.call == "choose":
        return struck_by_choice(book, request.question, request.code)
    if request.call == "choose_several":
        pairs = zip(request.chosen_questions, request.chosen_codes)
        return set().union(*(struck_by_choice(book, question, code) for question, code in pairs))
    return set()


# Calls


def change(request: Request) -> Reply:
    book, combinations = read_book(request), read_combinations(request)
    living = living_rows(book, request.marks)
    rest = living - struck_rows(book, request)
    kept = filtered(book, combinations, rest)
    answer = verdict(book, kept) + (len(kept), len(living) - len(rest), len(rest) - len(kept))
    supports = supports_after(book, combinations, request.supports, kept)
    return answer, marks_after(book, request.marks, kept), supports, true_counts(book, kept)


def test(request: Request) -> Answer:
    book = read_book(request)
    return int(settled(book, read_combinations(request), living_rows(book, request.marks))), 0


def compare(request: Request) -> Answer:
    book = read_book(request)
    one, other = request.rows
    clash = first_clash(book.rows[one], book.rows[other])
    return (AGREE, NO_QUESTION) if clash is None else (DIFFER, clash)


ASKING: dict[str, Callable[[Request], Answer]] = {"test": test, "compare": compare}


def reply(request: Request) -> Reply:
    """Five numbers for a change call, two for test and compare; then the marks, the supports and the counts after."""
    fault = first_fault(request)
    if fault:
        answer = (REFUSED, fault) if request.call in ASKING else (REFUSED, fault, 0, 0, 0)
    elif request.call in ASKING:
        answer = ASKING[request.call](request)
    else:
        return change(request)
    return answer, list(request.marks), list(request.supports), list(request.counts)


# The strike rule


class Expectation(NamedTuple):
    marks: list[int]
    counts: list[int]
    last_accepted: Optional[int]  # place of the last accepted call in the list
    supports: Optional[list[int]]  # that call's support list
    answer: Optional[tuple[int, int, int]]  # that call's kind, sheet and rows left
    gone: Optional[int]  # all that accepted calls withdrew and deleted


def strike_rule(shared: Request, calls: list[Request]) -> Expectation:
    """What a list of change calls on one book leaves, by one filtering of the starting rows not struck."""
    accepted = [place for place, call in enumerate(calls) if not first_fault(call)]
    if not accepted:
        return Expectation(list(shared.marks), list(shared.counts), None, None, None, None)
    book, combinations = read_book(shared), read_combinations(shared)
    struck = set().union(*(struck_rows(book, calls[place]) for place in accepted))
    starting = living_rows(book, shared.marks)
    kept = filtered(book, combinations, starting - struck)
    return Expectation(
        marks_after(book, shared.marks, kept),
        true_counts(book, kept),
        accepted[-1],
        supports_after(book, combinations, calls[accepted[-1]].supports, kept),
        verdict(book, kept) + (len(kept),),
        len(starting) - len(kept),
    )


def in_turn(shared: Request, calls: list[Request]) -> list[tuple[Request, Reply]]:
    """The calls one after the other; a call lending the starting marks and counts is given those the last one left."""
    done, marks, counts = [], shared.marks, shared.counts
    for call in calls:
        shares = (call.marks, call.counts) == (shared.marks, shared.counts)
        lent = replace(call, marks=marks, counts=counts) if shares else call
        left = reply(lent)
        done.append((lent, left))
        if shares:
            _, marks, _, counts = left
    return done


# The desk's text


class NotInForm(Exception):
    pass


def require(holds: bool) -> None:
    if not holds:
        raise NotInForm


def read_field(text: bytes, top: int) -> int:
    require(re.fullmatch(rb"0|[1-9][0-9]{0,9}", text) is not None)
    require(int(text) <= top)
    return int(text)


def read_line(lines: Iterator[bytes], count: int, top: int = 2**16 - 1) -> list[int]:
    """The next line's numbers; a missing line reads as one empty field, which is no number."""
    fields = [read_field(text, top) for text in next(lines, b"").split(b",")]
    require(len(fields) == count)
    return fields


def read_text(text: bytes, top: int = 2**32 - 1, most: int = MOST_BYTES) -> Request:
    """The book of a text whose codes are at most `top`."""
    require(len(text) <= most and text.endswith(b"\n"))
    lines = iter(text[:-1].split(b"\n"))
    sheets, m, combinations = read_line(lines, 3)
    require(1 <= sheets <= 64 and 2 <= m <= 4 and combinations <= 256)
    request = Request(m=m)
    for _ in range(sheets):
        width, rows = read_line(lines, 2)
        request.sheets.append((width, rows))
        require(1 <= width <= 8 and row_total(request) <= MOST_ROWS)
        request.questions += read_line(lines, width)
        for _ in range(rows):
            request.codes += read_line(lines, width, top)
    for _ in range(combinations):
        request.combinations += read_line(lines, m)
    require(next(lines, None) is None)
    return request


def listing_lines(request: Request) -> list[list[int]]:
    """The listing of a text in the form: all rows living and counted, the support list as long as may be needed."""
    request.marks = [2**64 - 1] * 64
    request.supports = [0] * MOST_SUPPORTS
    request.counts = [rows for _, rows in request.sheets]
    (kind, sheet, left, _, deleted), marks, _, _ = reply(request)
    lines = [[kind, sheet, left, deleted]]
    if kind != REFUSED:
        book = read_book(request)
        living = living_rows(book, marks)
        for number, rows in enumerate(book.sheets):
            lines += [[number, rows.index(g), *book.rows[g].values()] for g in rows if g in living]
    return lines


def text_of(lines: list[list[int]]) -> bytes:
    return b"".join(b",".join(b"%d" % number for number in line) + b"\n" for line in lines)


def listing(text: bytes) -> bytes:
    """The listing program's whole output for its whole input."""
    try:
        lines = listing_lines(read_text(text))
    except NotInForm:
        lines = [[REFUSED, 1, 0, 0]]
    return text_of(lines)


def write_text(request: Request) -> bytes:
    """The desk's text of lists that fit together; ranges and combinations may be at fault."""
    combinations = read_combinations(request) if request.m else []
    lines = [[len(request.sheets), request.m, len(combinations)]]
    codes = iter(request.codes)
    for (width, rows), questions in zip(request.sheets, read_questions(request)):
        lines += [[width, rows], questions]
        lines += [list(itertools.islice(codes, width)) for _ in range(rows)]
    return text_of(lines + combinations)


def rewritten(text: bytes) -> Optional[bytes]:
    """An older text, of 16-bit codes, in the form of now; none where it is not in the older form."""
    try:
        request = read_text(text, OLD_ANY, OLD_MOST_BYTES)
    except NotInForm:
        return None
    return write_text(replace(request, codes=widened(request.codes)))


# Moves


def widened(codes: list[int]) -> list[int]:
    return [ANY if code == OLD_ANY else code for code in codes]


def narrowed(codes: list[int]) -> list[int]:
    return [OLD_ANY if code == ANY else code for code in codes]


Moved = tuple[tuple[int, int], list[int]]  # the answer, and the second list


def move(request: Request, target: list[int], there: bool, whole: bool = True) -> Moved:
    """A book to the new form, or back: 0 or 2 with the refusal number, and what the second list then holds."""
    if not whole:
        return (REFUSED, 1), list(target)
    fault = next((number for number in (2, 3, 4, 5, 6) if FAULT_TESTS[number](request)), 0)
    if not fault and not there and any(OLD_ANY <= code < ANY for code in request.codes):
        fault = 23
    if not fault and len(target) < len(request.codes):
        fault = 24
    if fault:
        return (REFUSED, fault), list(target)
    codes = (widened if there else narrowed)(request.codes)
    return (0, 0), codes + target[len(codes) :]
