"""The self-test of the reference program: examples, boundaries, laws, and what the draws can tell apart."""

import functools
import itertools
import math
import random
import traceback
from dataclasses import replace
from typing import Callable, Iterable, Iterator, Optional
from unittest import mock

import book
import draw
import reach
from book import ANY, Book, Combination, Reply, Request, Row

Check = tuple[str, Callable[[], bool]]

TEXT_A = b"3,2,3 2,3 0,1 1,1 1,2 2,2 2,2 1,2 1,5 2,6 2,2 2,0 5,1 6,1 0,1 0,2 1,2 ".replace(b" ", b"\n")
LISTING_A = b"0,64,6,1 0,0,1,1 0,1,1,2 1,0,1,5 1,1,2,6 2,0,5,1 2,1,6,1 ".replace(b" ", b"\n")
NOT_IN_FORM = b"2,1,0,0\n"


# Examples


def book_a() -> Request:
    return replace(book.read_text(TEXT_A), marks=[0b1111111], supports=[0] * 28, counts=[3, 2, 2])


def triangle(m: int, combinations: list[int]) -> Request:
    rows = [0, 1, 1, 0]
    return Request(
        sheets=[(2, 2)] * 3,
        questions=[0, 1, 1, 2, 2, 0],
        codes=rows * 3,
        m=m,
        combinations=combinations,
        marks=[0b111111],
        supports=[0] * 24,
        counts=[2, 2, 2],
    )


def after(request: Request) -> Request:
    _, marks, supports, counts = book.reply(request)
    return replace(request, marks=marks, supports=supports, counts=counts)


def withdraw(request: Request, *rows: int) -> Request:
    return replace(request, call="withdraw", rows=list(rows))


def p1() -> bool:
    answer, marks, _, counts = book.reply(book_a())
    return answer == (0, 64, 6, 0, 1) and marks == [0b1111011] and counts == [2, 2, 2]


def p2() -> bool:
    return book.reply(book_a())[2][8:10] == [1, 1]


def p3() -> bool:
    answer, marks, _, counts = book.reply(withdraw(after(book_a()), 5))
    return answer == (0, 64, 3, 1, 2) and marks == [0b1010010] and counts == [1, 1, 1]


def p4() -> bool:
    reply = book.reply(withdraw(after(withdraw(after(book_a()), 5)), 6))
    return reply == ((1, 0, 0, 1, 2), [0], [65535] * 28, [0, 0, 0])


def p5() -> bool:
    answer, marks, _, counts = book.reply(withdraw(book_a(), 5))
    return answer == (0, 64, 3, 1, 3) and marks == [0b1010010] and counts == [1, 1, 1]


def p6() -> bool:
    answer, marks, _, counts = book.reply(triangle(2, [0, 1, 0, 2, 1, 2]))
    return answer == (0, 64, 6, 0, 0) and marks == [0b111111] and counts == [2, 2, 2]


def p7() -> bool:
    answer, marks, _, counts = book.reply(triangle(3, [0, 1, 2]))
    return answer == (1, 0, 0, 0, 6) and marks == [0] and counts == [0, 0, 0]


def p8() -> bool:
    request = Request(sheets=[(1, 1), (1, 0)], questions=[0, 0], codes=[0], marks=[1], counts=[1, 0])
    return book.reply(request) == ((1, 1, 1, 0, 0), [1], [], [1, 0])


def p9() -> bool:
    answer, marks, _, counts = book.reply(replace(book_a(), call="choose", question=2, code=6))
    return answer == (0, 64, 3, 2, 2) and marks == [0b1010010] and counts == [1, 1, 1]


def choose_several(request: Request, *pairs: tuple[int, int]) -> Request:
    questions, codes = [question for question, _ in pairs], [code for _, code in pairs]
    return replace(request, call="choose_several", chosen_questions=questions, chosen_codes=codes)


def several_by_hand() -> bool:
    """On fresh A: pairs by place, whichever comes first; contrary codes leave no row but with any; no pair is a filter."""
    asked = [((1, 2), (2, 6)), ((2, 6), (1, 2)), ((2, 5), (1, 1)), ((1, 1), (1, 2)), ((9, 1), (1, ANY)), ()]
    replies = [book.reply(choose_several(book_a(), *pairs)) for pairs in asked]
    left = [(answer, marks, counts) for answer, marks, _, counts in replies]
    same, filtered = ((0, 64, 3, 3, 1), [0b1010010], [1, 1, 1]), ((0, 64, 6, 0, 1), [0b1111011], [2, 2, 2])
    emptied = ((1, 0, 0, 5, 2), [0], [0, 0, 0])
    beside = book.reply(choose_several(beside_any(), (0, 1), (0, 2)))
    return left == [same, same, ((0, 64, 3, 4, 0), [0b101001], [1, 1, 1]), emptied, filtered, filtered] and beside[0][3] == 5


def several_refused() -> bool:
    """19 before 14, behind 18; and both lists empty are as long."""
    lists = [([0], []), ([], [0]), ([64], []), ([64], [0]), ([63], [0]), ([0, 64], [0, 0]), ([], [])]
    asked = [replace(book_a(), call="choose_several", chosen_questions=xs, chosen_codes=vs) for xs, vs in lists]
    untrue = replace(asked[0], counts=[3, 2, 1])
    return [book.first_fault(request) for request in asked + [untrue]] == [19, 19, 19, 14, 0, 14, 0, 18]


def counts_by_hand() -> bool:
    """On filtered A: the counts of fresh A are refused and so is a count more, a count less, another sum or no count at all; a call
    refused for another fault does not say so, and test and compare do not look."""
    left = after(book_a())
    others = ([3, 2, 2], [2, 2, 3], [1, 3, 2], [2, 1, 2], [2, 2], [2, 2, 2, 0], [], [258, 2, 2])
    refused = [book.reply(replace(left, counts=counts)) for counts in others]
    untrue = replace(left, counts=[3, 2, 2], rows=[9, 0], question=64)
    asked = [replace(untrue, call=call) for call in draw.CALLS] + [replace(untrue, supports=[])]
    told = [book.first_fault(request) for request in asked]
    whole = [reply == ((2, 18, 0, 0, 0), left.marks, left.supports, counts) for reply, counts in zip(refused, others)]
    return all(whole) and told == [18, 18, 18, 18, 0, 13, 12] and book.first_fault(left) == 0


def input_a() -> bool:
    return book.listing(TEXT_A) == LISTING_A


def test_and_compare() -> bool:
    fresh = replace(book_a(), call="test")
    filtered = replace(after(book_a()), call="test")
    answers = [book.reply(request)[0] for request in (fresh, filtered)]
    for rows in ([0, 3], [3, 0], [0, 4], [2, 2], [0, 1]):
        answers.append(book.reply(replace(book_a(), call="compare", rows=rows))[0])
    return answers == [(0, 0), (1, 0), (1, 64), (1, 64), (0, 1), (1, 64), (0, 1)]


def lowest_clash() -> bool:
    """Shared questions in falling order and in other places: the lowest clash is named, whichever is met first."""
    crossed = Request(
        call="compare",
        sheets=[(3, 2), (3, 3)],
        questions=[9, 4, 1, 4, 9, 2],
        codes=[5, 6, 7, 5, 6, 8, 6, 5, 7, 1, 2, 3, 6, 2, 3],
    )
    answers = [book.reply(replace(crossed, rows=rows))[0] for rows in ([0, 2], [0, 3], [3, 0], [0, 4], [0, 1], [0, 5])]
    return answers == [(1, 64), (0, 4), (0, 4), (0, 9), (0, 1), (2, 13)]


def beside_any() -> Request:
    """Three sheets that ask question 0, the first two of them question 1 too."""
    return Request(
        sheets=[(2, 2), (2, 4), (1, 2)],
        questions=[0, 1, 1, 0, 0],
        codes=[1, 7, 3, 7, 7, ANY, ANY, 2, ANY, ANY, 8, ANY, 2, 1],
        m=3,
        combinations=[0, 1, 2],
        marks=[0b11111111],
        supports=[0] * 24,
        counts=[2, 4, 2],
    )


def any_is_no_chain() -> bool:
    """Row 1 agrees with row 2, and row 2 by its any with both rows of the last sheet; but row 1 with neither of these. It falls."""
    answer, marks, supports, _ = book.reply(beside_any())
    return answer == (0, 64, 4, 0, 4) and marks == [0b10010101] and supports[:6] == [0, 0, 1] + [65535] * 3


def any_compared() -> bool:
    """Any fits on either side and on both, and hides no clash under another question."""
    pairs = ([0, 2], [2, 0], [0, 4], [4, 5], [0, 3], [3, 7], [0, 5], [5, 0])
    answers = [book.reply(replace(beside_any(), call="compare", rows=rows))[0] for rows in pairs]
    return answers == [(1, 64)] * 4 + [(0, 0)] * 2 + [(0, 1)] * 2


def any_chosen() -> bool:
    """Choosing any strikes nothing; choosing a code leaves the rows with any there."""
    choices = ((0, ANY), (1, 8), (0, 1), (0, draw.TOP))
    asked = [replace(beside_any(), call="choose", question=question, code=code) for question, code in choices]
    struck = [book.struck_rows(book.read_book(request), request) for request in asked]
    return struck == [set(), {0, 1, 2}, {1, 3, 6}, {0, 1, 3, 6, 7}]


def clash_unless_agreeing() -> bool:
    """A question is named exactly where two rows do not agree; they differ under it and agree under all lower ones."""
    for request, _ in sample("clashing", 300):
        rows = book.read_book(request).rows
        for one, other in itertools.combinations(rows, 2):
            clash = book.first_clash(one, other)
            if (clash is None) != book.agree(one, other) or clash != book.first_clash(other, one):
                return False
            lower = {question: code for question, code in one.items() if clash is None or question < clash}
            if not book.agree(lower, other) or clash is not None and one[clash] in (other[clash], ANY):
                return False
    return True


def spare_and_missing_words() -> bool:
    """Spare bits, spare words and spare supports stay; a mark word too few is refused."""
    lent = replace(book_a(), marks=[2**64 - 1, 5], supports=[7] * 30)
    _, marks, supports, _ = book.reply(lent)
    kept = marks == [2**64 - 1 - 0b100, 5] and supports[28:] == [7, 7]
    return kept and book.reply(replace(lent, marks=[])) == ((2, 11, 0, 0, 0), [], [7] * 30, [3, 2, 2])


# Boundaries


def edge_holds(number: int) -> bool:
    edge = draw.EDGES[number]
    for call in draw.CALLS:
        inside = draw.lend(random.Random(1), edge.network(edge.last_accepted), call)
        outside = draw.lend(random.Random(1), edge.network(edge.first_refused), call)
        refused = number if number in book.FAULTS_USED[call] else 0
        if book.first_fault(inside) != 0 or book.first_fault(outside) != refused:
            return False
    return True


def choice_edge() -> bool:
    asked = [replace(book_a(), call="choose", question=question) for question in (63, 64)]
    return [book.first_fault(request) for request in asked] == [0, 14]


def book_number_edge() -> bool:
    asked = [withdraw(book_a(), g) for g in (6, 7)]
    asked += [replace(book_a(), call="compare", rows=rows) for rows in ([6, 0], [0, 7], [7, 0])]
    return [book.first_fault(request) for request in asked] == [0, 13, 0, 13, 13]


def faults_not_used() -> bool:
    """What a call does not use is no reason to refuse it."""
    bare = replace(book_a(), rows=[0, 1], m=5, combinations=[9], marks=[], supports=[], counts=[])
    asked = [
        replace(book_a(), call="filter", rows=[7], question=64),
        replace(book_a(), call="withdraw", question=64),
        replace(book_a(), call="choose", rows=[7], chosen_questions=[64]),
        replace(book_a(), call="choose_several", rows=[7], question=64),
        replace(book_a(), call="test", supports=[], counts=[], rows=[7], question=64),
        replace(bare, call="compare", question=64),
    ]
    return all(book.first_fault(request) == 0 for request in asked)


def list_edges() -> bool:
    """Every list one entry short or long."""
    fresh = book_a()
    lent = [
        (5, replace(fresh, questions=fresh.questions + [3])),
        (5, replace(fresh, questions=fresh.questions[:-1])),
        (5, replace(fresh, codes=fresh.codes + [3])),
        (5, replace(fresh, codes=fresh.codes[:-1])),
        (8, replace(fresh, combinations=fresh.combinations + [0])),
        (8, replace(fresh, combinations=fresh.combinations[:-1])),
        (12, replace(fresh, supports=fresh.supports[:-1])),
        (18, replace(fresh, counts=fresh.counts + [0])),
        (18, replace(fresh, counts=fresh.counts[:-1])),
        (0, replace(fresh, supports=fresh.supports + [0])),
        (0, replace(fresh, combinations=[], supports=[])),
    ]
    return all(book.first_fault(request) == number for number, request in lent)


def whole_supports() -> bool:
    """Where 32,768 numbers are needed, all are written."""
    request = draw.lend(random.Random(1), draw.edge_supports(64), "filter")
    request.marks, request.counts = [2**64 - 1], [32, 32]
    answer, _, supports, _ = book.reply(request)
    return answer == (0, 64, 64, 0, 0) and max(supports[:32768]) == 31


def text_edges() -> bool:
    """32,768 bytes, 4,096 rows, and number 12 where a text needs more than 32,768 supports."""
    sizes = [book.listing(draw.text_of_length(length))[:5] for length in (32768, 32769)]
    rows = [book.listing(draw.text_of_rows(total))[:5] for total in (4096, 4097)]
    needs = [draw.write_text(draw.write_network(draw.edge_supports(total), "filter")) for total in (64, 65)]
    refusals = [book.listing(text)[:5] for text in needs]
    return sizes + rows + refusals == [b"0,64,", b"2,1,0", b"0,64,", b"2,1,0", b"0,64,", b"2,12,"]


def texts_not_in_form() -> bool:
    changed = [b"", b"\n", TEXT_A[:-1], TEXT_A + b"\n", b"\n" + TEXT_A, TEXT_A + b"0\n"]
    changed += [TEXT_A.replace(b"\n", b"\r\n"), TEXT_A.replace(b",", b", "), TEXT_A.replace(b",", b";")]
    for field in (b"01", b"00", b"", b"-0", b"+1", b" 1", b"1 ", b"4294967296", b"1" * 5000, b"\xb2", b"1_0"):
        changed.append(TEXT_A.replace(b"1,5\n", b"1," + field + b"\n"))
    changed += [TEXT_A.replace(b"2,0\n", b"2,65536\n", 1), TEXT_A[:-4] + b"1,65536\n"]
    for line in b"0,2,0 65,2,3 3,1,3 3,5,3 3,2,257 3,2,2 3,2,4 2,2,3 3,2 3,2,3,0".split():
        changed.append(TEXT_A.replace(b"3,2,3", line, 1))
    for line in b"0,3 9,3 3,3 2,2 2,4 2,4093".split():
        changed.append(TEXT_A.replace(b"2,3\n", line + b"\n", 1))
    return all(book.listing(text) == NOT_IN_FORM for text in changed)


def texts_refused() -> bool:
    questions = [book.listing(TEXT_A.replace(b"2,0\n", line, 1)) for line in (b"2,64\n", b"2,2\n")]
    combinations = [book.listing(TEXT_A[:-4] + line) for line in (b"1,3\n", b"2,1\n", b"1,1\n")]
    apart = book.listing(TEXT_A.replace(b"2,0\n", b"3,4\n", 1))
    return questions + combinations + [apart] == [b"2,6,0,0\n"] * 2 + [b"2,9,0,0\n"] * 3 + [b"2,10,0,0\n"]


# Moves


def moves_by_hand() -> bool:
    """65,535 and any; 23 before 24 and after 6; what is past the codes stays."""
    old, new, wide = [7, 65534, 65535], [7, 65534, 4294967295], [7, 4294967294]

    def column(codes: list[int], question: int = 0) -> Request:
        return Request(sheets=[(1, len(codes))], questions=[question], codes=codes)

    return [
        book.move(column(old), [1, 2, 3, 4], True),
        book.move(column(new), [1, 2, 3, 4], False),
        book.move(column(old), [1], False),
        book.move(column(wide), [1, 2], False),
        book.move(column(old), [1, 2], True),
        book.move(column(old, 64), [], False),
    ] == [((0, 0), new + [4]), ((0, 0), old + [4]), ((2, 23), [1]), ((2, 23), [1, 2]), ((2, 24), [1, 2]), ((2, 6), [])]


def moves_return() -> bool:
    """A move that was done, and the move back: done too, and the same codes."""
    done = [move for move in draw.moves(1, 400) if not book.move(move.request, move.target, move.there)[0][0]]
    for there, request, target, _ in done:
        _, moved = book.move(request, target, there)
        back = replace(request, codes=moved[: len(request.codes)])
        answer, again = book.move(back, [9] * (len(request.codes) + 1), not there)
        if answer != (0, 0) or again != request.codes + [9]:
            return False
    return {move.there for move in done} == {True, False}


def code_lists(request: Request) -> tuple[list[int], list[int], list[int]]:
    """The codes of the book, the one chosen, and those of pairs."""
    return request.codes, [request.code], request.chosen_codes


def with_codes(request: Request, codes: list[int], code: list[int], pairs: list[int]) -> Request:
    return replace(request, codes=codes, code=code[0], chosen_codes=pairs)


def moved_means_the_same() -> bool:
    """A widened book gets the replies that the old one gets where 65,535 is any."""
    for request, _ in sample("any", 300) + sample("coded", 100):
        codes, code, pairs = ([book.OLD_ANY if c == ANY else c % book.OLD_ANY for c in cs] for cs in code_lists(request))
        with mock.patch.object(book, "fit", fit_old_any):
            meant = book.reply(with_codes(request, codes, code, pairs))
        if book.reply(with_codes(request, *map(book.widened, (codes, code, pairs)))) != meant:
            return False
    return True


def older_texts() -> bool:
    """An older text that is rewritten lists what it listed, but for the numbers of any."""
    texts = [text for text in draw.older_texts(2, 150) if book.rewritten(text) is not None]
    same = [text for text in texts if book.rewritten(text) == text]
    with mock.patch.object(book, "fit", fit_old_any):
        before = [book.listing(text) for text in texts]
    after = [book.listing(book.rewritten(text)).replace(b"4294967295", b"65535") for text in texts]
    return before == after and 0 < len(same) < len(texts)


# Laws that every draw keeps


Replied = list[tuple[Request, Reply]]


@functools.lru_cache(maxsize=None)
def sample(size: str, count: int) -> Replied:
    calls = draw.CHANGES if size == "full" else draw.CALLS
    return [(request, book.reply(request)) for request in draw.requests(1, count, calls, size)]


def changes_accepted(size: str, count: int) -> Replied:
    asked = [pair for pair in sample(size, count) if pair[0].call in draw.CHANGES]
    return [(request, reply) for request, reply in asked if reply[0][0] != book.REFUSED]


def counts_add_up() -> bool:
    """Those of the answer come to the rows that lived; those of the sheets are true before and after, and come to the rows left."""
    for request, (answer, marks, _, counts) in changes_accepted("small", 600) + changes_accepted("wide", 60):
        whole = book.read_book(request)
        living = len(book.living_rows(whole, request.marks))
        if sum(answer[2:]) != living or answer[2] != len(book.living_rows(whole, marks)) or sum(counts) != answer[2]:
            return False
        if [request.counts, counts] != [reach.counted(request, lent) for lent in (request.marks, marks)]:
            return False
    return True


def old_counts_refused() -> bool:
    """After a call the counts lent to it go with the marks that it left only where no row fell."""
    seen = set()
    for request, (answer, marks, supports, counts) in changes_accepted("small", 600):
        again = replace(request, marks=marks, supports=supports)
        fell = answer[3] + answer[4] > 0
        seen.add(fell)
        if [book.first_fault(again), book.first_fault(replace(again, counts=counts))] != [18 if fell else 0, 0]:
            return False
    return seen == {False, True}


def filtering_repeats() -> bool:
    """A filter after a change call, or the same call once more, changes nothing and writes the same supports over whatever it is lent;
    and its marks test settled."""
    rng = random.Random(1)
    for request, (answer, marks, supports, counts) in changes_accepted("small", 600) + changes_accepted("wide", 60):
        needed = book.supports_needed(request)
        for call in {"filter", request.call}:
            lent = rng.choice((supports, draw.garbage(rng, needed)))
            again = replace(request, call=call, marks=marks, supports=lent, counts=counts)
            if book.reply(again) != (answer[:3] + (0, 0), marks, supports[:needed] + lent[needed:], counts):
                return False
        if book.reply(replace(again, call="test"))[0] != (1, 0):
            return False
    return True


def spare_stays() -> bool:
    for request, (_, marks, supports, _) in changes_accepted("small", 600) + changes_accepted("wide", 60):
        words, bits = divmod(book.row_total(request), 64)
        needed = book.supports_needed(request)
        lent, left = request.marks[words:], marks[words:]
        spare_bits = [word >> bits for word in lent[:1]] == [word >> bits for word in left[:1]]
        if not spare_bits or lent[1:] != left[1:] or request.supports[needed:] != supports[needed:]:
            return False
    return True


def refusals_change_nothing() -> bool:
    refused = [pair for pair in sample("damaged", 600) if pair[1][0][0] == book.REFUSED]
    unchanged = [reply[1:] == (request.marks, request.supports, request.counts) for request, reply in refused]
    return len(refused) == 600 and all(unchanged)


def largest_by_all_subsets() -> bool:
    """The rows kept are the union of all settled subsets."""
    seen = 0
    for request, (_, marks, _, _) in changes_accepted("small", 600):
        whole, combinations = book.read_book(request), book.read_combinations(request)
        rest = sorted(book.living_rows(whole, request.marks) - book.struck_rows(whole, request))
        if len(rest) > 8 or not combinations:
            continue
        seen += 1
        subsets = (set(some) for size in range(len(rest) + 1) for some in itertools.combinations(rest, size))
        largest = set().union(*(some for some in subsets if book.settled(whole, combinations, some)))
        if largest != book.living_rows(whole, marks):
            return False
    return seen > 50


def codes_to_try(whole: Book, question: int) -> list[int]:
    """The codes other than any that rows have under the question, and one that none has, which stands for all others."""
    own = {row[question] for row in whole.rows if question in row} - {ANY}
    return [*own, min(set(range(len(own) + 1)) - own)]


def questions_of(whole: Book, sheets: Iterable[int]) -> list[int]:
    return sorted({question for sheet in sheets for g in whole.sheets[sheet] for question in whole.rows[g]})


def order_count(whole: Book, sheets: Iterable[int]) -> int:
    return math.prod(len(codes_to_try(whole, question)) for question in questions_of(whole, sheets))


def orders_over(whole: Book, sheets: Iterable[int], living: set[int]) -> Iterator[tuple[int, ...]]:
    """The codes other than any, one for each question of the sheets, such that each sheet has a living row that fits them."""
    asked = questions_of(whole, sheets)
    for codes in itertools.product(*(codes_to_try(whole, question) for question in asked)):
        order = dict(zip(asked, codes))
        if all(any(g in living and book.agree(whole.rows[g], order) for g in whole.sheets[sheet]) for sheet in sheets):
            yield codes


def no_order_lost() -> bool:
    """Of books with any and without."""
    found = {False: 0, True: 0}
    for request, (answer, marks, _, _) in changes_accepted("small", 600) + changes_accepted("any", 300):
        whole = book.read_book(request)
        sheets = range(len(whole.sheets))
        if order_count(whole, sheets) > 500:
            continue
        rest = book.living_rows(whole, request.marks) - book.struck_rows(whole, request)
        orders, left = (set(orders_over(whole, sheets, living)) for living in (rest, book.living_rows(whole, marks)))
        found[ANY in request.codes] += len(orders)
        if orders != left or answer[0] == book.EMPTIED and orders:
            return False
    return min(found.values()) > 50


def seekers(whole: Book, combinations: list[Combination], living: set[int]) -> Iterator[tuple[Combination, int, set[int]]]:
    """Each living row in each combination that has few orders, with the living rows of all other sheets."""
    for combination in combinations:
        if order_count(whole, combination) <= 100:
            for rows in (set(whole.sheets[sheet]) for sheet in combination):
                yield from ((combination, g, living - rows) for g in living & rows)


def supports_by_orders() -> bool:
    """A row has a support exactly if codes other than any, one for each question, fit it and a living row of every other member."""
    seen = set()
    for request, _ in changes_accepted("any", 300):
        whole = book.read_book(request)
        living = book.living_rows(whole, request.marks) if len(whole.rows) <= 30 else set()
        for combination, g, others in seekers(whole, book.read_combinations(request), living):
            by_orders = any(True for _ in orders_over(whole, combination, others | {g}))
            seen.add((by_orders, request.m, ANY in whole.rows[g].values()))
            if by_orders != (book.first_support(whole, combination, living, g) is not None):
                return False
    return seen == set(itertools.product((False, True), (2, 3, 4), (False, True)))


def choices_leave_any() -> bool:
    """Choosing any is a filter; choosing another code strikes exactly the rows that have a third code under the question."""
    for request, _ in changes_accepted("any", 300):
        whole = book.read_book(request)
        if book.reply(replace(request, call="choose", code=ANY)) != book.reply(replace(request, call="filter")):
            return False
        for code in set(request.codes) - {ANY}:
            struck = book.struck_rows(whole, replace(request, call="choose", code=code))
            if struck != {g for g, row in enumerate(whole.rows) if row.get(request.question, ANY) not in (code, ANY)}:
                return False
    return True


def pairs_of(request: Request) -> list[tuple[int, int]]:
    return list(zip(request.chosen_questions, request.chosen_codes))


def one_by_one(request: Request, pairs: Iterable[tuple[int, int]]) -> tuple[list[int], Reply]:
    """The kinds of the answers of choosing the pairs in turn, each call lent what the last one left, and what is left in the end."""
    kinds, left = [], ((), request.marks, request.supports, request.counts)
    for question, code in pairs:
        _, marks, supports, counts = left
        left = book.reply(replace(request, call="choose", question=question, code=code, marks=marks, supports=supports, counts=counts))
        kinds.append(left[0][0])
    return kinds, left


@functools.lru_cache(maxsize=None)
def several(count: int) -> Replied:
    drawn = draw.requests(3, count, ["choose_several"], "several")
    return [(request, book.reply(request)) for request in drawn]


def several_are_singles() -> bool:
    """With a pair, an accepted choice of several leaves the marks, supports and counts of the pairs chosen one by one: in every order of
    up to four pairs, and in some of more; and each choice is accepted. Without one it is a filter."""
    rng, orders = random.Random(1), 0
    for request, reply in several(300):
        pairs = pairs_of(request)
        if reply[0][0] == book.REFUSED or len(pairs) > 9:
            continue
        if not pairs and reply != book.reply(replace(request, call="filter")):
            return False
        every = list(itertools.permutations(pairs)) if len(pairs) < 4 else [rng.sample(pairs, len(pairs)) for _ in range(4)]
        for order in every if pairs else []:
            orders += 1
            kinds, left = one_by_one(request, order)
            if book.REFUSED in kinds or left[1:] != reply[1:] or left[0][:3] != reply[0][:3]:
                return False
    return orders > 300


def contrary_leave_any() -> bool:
    """Of two different codes for a question, neither any, the rows left that have the question have any there."""
    seen = set()
    for request, reply in several(300):
        if reply[0][0] == book.REFUSED:
            continue
        whole = book.read_book(request)
        left = [whole.rows[g] for g in book.living_rows(whole, reply[1])]
        for question in set(request.chosen_questions):
            if len({code for asked, code in pairs_of(request) if asked == question} - {ANY}) > 1:
                codes = {row[question] for row in left if question in row}
                seen.add(bool(codes))
                if codes - {ANY}:
                    return False
    return seen == {False, True}


def any_keeps_more() -> bool:
    """With any in place of a code no row falls that stayed before."""
    rng, more = random.Random(1), 0
    for request, _ in changes_accepted("small", 600):
        whole, combinations = book.read_book(request), book.read_combinations(request)
        living = book.living_rows(whole, request.marks)
        looser = [{question: ANY if draw.chance(rng, 10) else code for question, code in row.items()} for row in whole.rows]
        before, behind = (book.filtered(Book(rows, whole.sheets), combinations, living) for rows in (whole.rows, looser))
        more += before != behind
        if not before <= behind:
            return False
    return more > 20


def joined_by_spreading(members: list[list[int]]) -> bool:
    reached = {0}
    for _ in members:
        questions = {question for place in reached for question in members[place]}
        reached |= {place for place, asked in enumerate(members) if questions & set(asked)}
    return len(reached) == len(members)


def connected_by_spreading() -> bool:
    seen = set()
    for request, _ in sample("small", 600):
        asked = book.read_questions(request)
        for members in itertools.combinations(asked, request.m):
            seen.add(book.connected(list(members)))
            if book.connected(list(members)) != joined_by_spreading(list(members)):
                return False
    return seen == {False, True}


def listing_as_filter() -> bool:
    """The listing of a network says what a filter of all its rows says."""
    for request, _ in sample("small", 600):
        living = replace(request, call="filter", marks=[2**64 - 1], counts=[rows for _, rows in request.sheets])
        kind, sheet, left, _, deleted = book.reply(living)[0]
        lines = book.listing(draw.write_text(living)).splitlines()
        if lines[0] != b"%d,%d,%d,%d" % (kind, sheet, left, deleted) or len(lines) != 1 + left:
            return False
    return True


# Bigger combinations


def connected_combinations(request: Request, m: int, most: int) -> list[Combination]:
    """All of m sheets with at most so many choices of a row from each."""
    asked = book.read_questions(request)
    found = []
    for members in itertools.combinations(range(len(asked)), m):
        few = math.prod(request.sheets[sheet][1] for sheet in members) <= most
        if few and book.connected([asked[sheet] for sheet in members]):
            found.append(list(members))
    return found


def around(small: list[Combination], large: list[Combination]) -> list[list[Combination]]:
    """For each small combination the large ones that it lies inside."""
    return [[members for members in large if set(one) <= set(members)] for one in small]


def with_bigger(rng: random.Random, request: Request) -> Optional[Request]:
    """The request over a combination around each of its own and some more, in any order and with repeats; none where there is none."""
    m = rng.choice([m for m in (2, 3, 4) if m >= request.m])
    large = connected_combinations(request, m, 2000)
    holding = around(book.read_combinations(request), large)
    if not large or not all(holding):
        return None
    members = [rng.choice(some) for some in holding] + rng.choices(large, k=rng.randrange(3))
    bigger = replace(request, m=m, combinations=[sheet for some in rng.sample(members, len(members)) for sheet in some])
    bigger.supports = draw.garbage(rng, book.supports_needed(bigger))
    return None if book.first_fault(bigger) else bigger


def few_sheets(size: str, count: int) -> list[Request]:
    return [request for request, _ in changes_accepted(size, count) if len(request.sheets) <= 8]


Tightening = tuple[bool, set]  # whether the law holds, and what the draw shows where fewer rows are left


def over_bigger() -> Iterator[Tightening]:
    """Over bigger combinations no row stays that fell; as many are withdrawn, and the other counts follow."""
    rng = random.Random(1)
    for request in few_sheets("small", 600) + few_sheets("any", 300):
        bigger = with_bigger(rng, request)
        if bigger is None:
            continue
        (answer, marks, _, counts), (tighter, left, _, fewest) = book.reply(request), book.reply(bigger)
        whole = book.read_book(request)
        inside = book.living_rows(whole, left) <= book.living_rows(whole, marks)
        counted = tighter[2] <= answer[2] and tighter[3] == answer[3] and tighter[4] >= answer[4]
        by_sheet = all(few <= most for most, few in zip(counts, fewest))
        seen = {(request.m, bigger.m), ANY in request.codes, request.call} if left != marks else set()
        yield inside and counted and by_sheet, seen


def over_all_connected() -> Iterator[Tightening]:
    """Filtering over all connected combinations of m leaves nothing that filtering over those of m - 1 strikes, where each of these
    lies in one of m."""
    for request in few_sheets("small", 600) + few_sheets("any", 300):
        whole = book.read_book(request)
        living = book.living_rows(whole, request.marks)
        for m in (3, 4):
            small, large = (connected_combinations(request, size, 10000) for size in (m - 1, m))
            if small and all(around(small, large)):
                more, less = (book.filtered(whole, members, living) for members in (small, large))
                yield less <= more, {m, ANY in request.codes} if less != more else set()


def always_holds(drawn: Callable[[], Iterator[Tightening]], wanted: set) -> bool:
    """Whether the law holds of every draw, and the draws show all that is wanted."""
    results = list(drawn())
    return all(holds for holds, _ in results) and set().union(*(seen for _, seen in results)) >= wanted


def only_tightens() -> bool:
    return always_holds(over_bigger, {(2, 2), (2, 3), (2, 4), (3, 3), (3, 4), False, True, *draw.CHANGES})


def all_connected_tighten() -> bool:
    return always_holds(over_all_connected, {3, 4, False, True})


def sheet_beside_extends() -> bool:
    """A connected combination lies in one of a sheet more exactly if a sheet outside it asks a question of one of its members."""
    seen = set()
    for request in few_sheets("small", 600):
        asked = [set(questions) for questions in book.read_questions(request)]
        for m in (2, 3):
            small, large = (connected_combinations(request, size, 10**9) for size in (m, m + 1))
            for members, holding in zip(small, around(small, large)):
                own = set().union(*(asked[sheet] for sheet in members))
                beside = any(own & asked[sheet] for sheet in range(len(asked)) if sheet not in members)
                seen.add((m, beside))
                if beside != bool(holding):
                    return False
    return seen == set(itertools.product((2, 3), (False, True)))


def breaks(drawn: Callable[[], Iterator[Tightening]], place: str, variant: object) -> bool:
    """Whether the law fails of a wrong variant on some draw."""
    with mock.patch.object(book, place, variant), mock.patch.object(book, "supports_after"):
        return any(not holds for holds, _ in drawn())


# The strike rule


@functools.lru_cache(maxsize=None)
def drawn_lists() -> list[tuple[Request, list[Request]]]:
    return draw.lists_of_calls(1, 400) + draw.lists_of_calls(1, 100, "any")


def list_agrees(shared: Request, calls: list[Request]) -> bool:
    expected = book.strike_rule(shared, calls)
    done = book.in_turn(shared, calls)
    accepted = [place for place, (_, reply) in enumerate(done) if reply[0][0] != book.REFUSED]
    refused = [(call, reply) for call, reply in done if reply[0][0] == book.REFUSED]
    unchanged = all(reply[1:] == (call.marks, call.supports, call.counts) for call, reply in refused)
    if not accepted:
        return expected == (shared.marks, shared.counts, None, None, None, None) and unchanged
    answer, marks, supports, counts = done[accepted[-1]][1]
    gone = sum(sum(done[place][1][0][3:]) for place in accepted)
    starting = len(book.living_rows(book.read_book(shared), shared.marks))
    left = (marks, counts, accepted[-1], supports, answer[:3], gone)
    return left == expected and starting == answer[2] + gone and sum(counts) == answer[2] and unchanged


def lists_agree() -> bool:
    return all(list_agrees(shared, calls) for shared, calls in drawn_lists())


def other_counts(shared: Request, done: Replied) -> Iterator[tuple]:
    """Untrue counts at the start, of one call and of more; a refused call's own ones on the shared book, and whether counts have
    changed before it."""
    if book.first_fault(shared):
        yield "untrue start", len(done) > 1
        return
    changed = False
    for request, reply in done:
        own = (request.sheets, request.marks) == (shared.sheets, shared.marks) and request.counts != shared.counts
        if own and reply[0][0] == book.REFUSED:
            yield "own counts", reply[0][1], "after" if changed else "before"
        changed = changed or reply[3] != request.counts


def lists_are_varied() -> bool:
    """Lists with no accepted call, with other lists lent, with struck dead rows, ending settled and emptied; from untrue counts and with
    counts of a call's own, alone and beside another fault, before an accepted call and after one that changed some; with any chosen,
    with codes chosen beside any, and with any that decides what is left."""
    seen = set()
    for shared, calls in drawn_lists():
        done = book.in_turn(shared, calls)
        kinds = [reply[0][0] for _, reply in done]
        accepted = [kind for kind in kinds if kind != book.REFUSED]
        seen.add(("last", accepted[-1] if accepted else None))
        seen.add(("other book", any(call.sheets != shared.sheets for call in calls)))
        seen.add(("other marks", any(call.marks != shared.marks for call in calls)))
        seen.update(other_counts(shared, done))
        seen.add(("refused first", kinds[0] == book.REFUSED and bool(accepted)))
        seen.add(("refused last", kinds[-1] == book.REFUSED and bool(accepted)))
        for request, reply in done:
            if ANY in request.codes and reply[0][0] != book.REFUSED:
                seen.update((label, True) for label in reach.of_any(request, reply))
    wanted = {("last", kind) for kind in (book.SETTLED, book.EMPTIED, None)}
    wanted |= {(label, True) for label in reach.ANY_LISTS}
    wanted |= {(name, True) for name in ("other book", "other marks", "refused first", "refused last")}
    wanted |= {("own counts", fault, when) for fault in (12, 18) for when in ("before", "after")}
    wanted |= {("untrue start", longer) for longer in (False, True)}
    return wanted <= seen


def sheets_in_reach(combinations: list[Combination], sheets: set[int]) -> set[int]:
    for _ in combinations:
        touched = [set(combination) for combination in combinations if sheets & set(combination)]
        sheets = sheets.union(*touched)
    return sheets


def sheets_out_of_reach_keep_rows() -> bool:
    """From settled marks, a sheet that no chain joins to a struck starting row keeps exactly its rows, and its count."""
    kept_sheets = 0
    for shared, calls in drawn_lists():
        whole, combinations = book.read_book(shared), book.read_combinations(shared)
        starting = book.living_rows(whole, shared.marks)
        if not book.settled(whole, combinations, starting):
            continue
        accepted = [call for call in calls if not book.first_fault(call)]
        struck = starting & set().union(*(book.struck_rows(whole, call) for call in accepted))
        holding = {sheet for sheet, rows in enumerate(whole.sheets) if struck & set(rows)}
        expected = book.strike_rule(shared, calls)
        left = book.living_rows(whole, expected.marks)
        for sheet in set(range(len(whole.sheets))) - sheets_in_reach(combinations, holding):
            kept_sheets += bool(struck)
            same_count = shared.counts[sheet : sheet + 1] == expected.counts[sheet : sheet + 1]
            if starting & set(whole.sheets[sheet]) != left & set(whole.sheets[sheet]) or not same_count:
                return False
    return kept_sheets > 50


# What the draws hold


def fault_alone(number: int) -> bool:
    """Every call that uses the number gives it where that one fault is drawn."""
    rng = random.Random(number)
    calls = [call for call in draw.CALLS if number in book.FAULTS_USED[call]]
    return all(book.first_fault(draw.request_with_faults(rng, call, [number])) == number for call in calls * 8)


def first_of_several() -> bool:
    rng = random.Random(1)
    for call in draw.CALLS * 40:
        used = book.FAULTS_USED[call]
        numbers = rng.sample(used, 3)
        if book.first_fault(draw.request_with_faults(rng, call, numbers)) != min(numbers, key=used.index):
            return False
    return True


def refusals_occur() -> bool:
    drawn = {reply[0][1] for _, reply in sample("damaged", 600)}
    listed = [book.listing(text) for text in draw.texts(1, 300)]
    in_texts = {int(output.split(b",")[1]) for output in listed if output.startswith(b"2,")}
    return drawn == {*range(2, 15), 18, 19} and in_texts == {1, 6, 9, 10, 12}


def any_in_texts() -> bool:
    """Any decides some of the listings that are not refused."""
    listed = [book.read_text(text) for text in draw.texts(31, 300) if not book.listing(text).startswith(b"2,")]
    lent = {"marks": [2**64 - 1] * 64, "supports": [0] * book.MOST_SUPPORTS}
    asked = [replace(asked, counts=[rows for _, rows in asked.sheets], **lent) for asked in listed if ANY in asked.codes]
    return sum(reach.any_decides(request, book.reply(request)) for request in asked) > 2


def answers_occur() -> bool:
    """Settled and emptied, each with and without withdrawn and deleted rows; yes and no; agree and several questions."""
    changed = {(answer[0], answer[3] > 0, answer[4] > 0) for _, (answer, *_) in changes_accepted("small", 600)}
    asked = {(request.call, reply[0]) for request, reply in sample("small", 600) if request.call not in draw.CHANGES}
    both = {("test", (0, 0)), ("test", (1, 0)), ("compare", (1, 64))}
    named = {answer[1] for call, answer in asked if call == "compare" and answer[0] == book.DIFFER}
    return changed == set(itertools.product((0, 1), (False, True), (False, True))) and both <= asked and len(named) > 5


def shapes_occur() -> bool:
    """Every m, equal rows, empty sheets, repeated combinations, sheets in none, several mark words."""
    seen = set()
    for request, _ in sample("small", 600) + sample("wide", 60):
        combinations = [tuple(combination) for combination in book.read_combinations(request)]
        whole = book.read_book(request)
        sheets = [[tuple(whole.rows[g].values()) for g in rows] for rows in whole.sheets]
        seen.add(("m", request.m if combinations else 0))
        seen.add(("equal rows", any(len(set(rows)) < len(rows) for rows in sheets)))
        seen.add(("empty sheet", [] in sheets))
        seen.add(("repeat", len(set(combinations)) < len(combinations)))
        seen.add(("alone", bool(combinations) and len(set(request.combinations)) < len(sheets)))
        seen.add(("words", min(-(-len(whole.rows) // 64), 3)))
    wanted = {(name, True) for name in ("equal rows", "empty sheet", "repeat", "alone")}
    return seen >= wanted | {("m", m) for m in (0, 2, 3, 4)} | {("words", count) for count in (1, 2, 3)}


def same_seed_same_draws() -> bool:
    sizes = (("mixed", 50), ("crowded", 4), ("alike", 4))
    requests = [[draw.requests(7, count, draw.CALLS, size) for size, count in sizes] for _ in range(2)]
    lists = [draw.lists_of_calls(7, 20) for _ in range(2)]
    texts = [draw.texts(7, 50) for _ in range(2)]
    return all(first == second for first, second in (requests, lists, texts))


# Wrong variants, each put in the place of one function

all_supported, all_struck = book.supported, book.struck_rows
whole_change, whole_reply = book.change, book.reply


def support_by_seeker_only(
    whole: Book, combination: Combination, living: set[int], seeker: int
) -> Optional[tuple[int, ...]]:
    chosen = []
    for sheet in combination:
        candidates = [g for g in whole.sheets[sheet] if g in living and book.agree(whole.rows[g], whole.rows[seeker])]
        own = seeker in whole.sheets[sheet]
        if not own and not candidates:
            return None
        chosen.append(seeker if own else candidates[0])
    return tuple(chosen)


def supported_from_sheet_one(whole: Book, combinations: list[Combination], living: set[int], g: int) -> bool:
    return g in whole.sheets[0] or all_supported(whole, combinations, living, g)


def supported_from_member_one(whole: Book, combinations: list[Combination], living: set[int], g: int) -> bool:
    return all_supported(whole, [c for c in combinations if g not in whole.sheets[c[0]]], living, g)


def supported_from_row_one(whole: Book, combinations: list[Combination], living: set[int], g: int) -> bool:
    return g in [rows[0] for rows in whole.sheets if rows] or all_supported(whole, combinations, living, g)


def verdict_from_sheet_one(whole: Book, living: set[int]) -> tuple[int, int]:
    for sheet, rows in list(enumerate(whole.sheets))[1:]:
        if not living & set(rows):
            return book.EMPTIED, sheet
    return book.SETTLED, book.NO_SHEET


def agree_by_place(one: Row, other: Row) -> bool:
    places = zip(one.items(), other.items())
    return not any(q == r and not book.fit(code, other_code) for (q, code), (r, other_code) in places)


def agree_in_codes_by_place(one: Row, other: Row) -> bool:
    places = zip(one.items(), other.values())
    return all(book.fit(code, other_code) for (question, code), other_code in places if question in other)


def agree_from_column_one(one: Row, other: Row) -> bool:
    return all(book.fit(code, other[question]) for question, code in list(one.items())[1:] if question in other)


def fit_in_remainders(one: int, other: int) -> bool:
    """Takes codes for equal that the library's value index does not tell apart."""
    return (one - other) % reach.BUCKETS == 0 or ANY in (one, other)


def unlike(one: Row, other: Row) -> list[int]:
    """The questions under which two rows differ, as the columns of the first stand."""
    return [question for question, code in one.items() if question in other and not book.fit(code, other[question])]


def clash_first_met(one: Row, other: Row) -> Optional[int]:
    return next(iter(unlike(one, other)), None)


def clash_highest(one: Row, other: Row) -> Optional[int]:
    return max(unlike(one, other), default=None)


def clash_from_column_one(one: Row, other: Row) -> Optional[int]:
    return min(unlike(dict(list(one.items())[1:]), other), default=None)


def clash_by_place(one: Row, other: Row) -> Optional[int]:
    places = zip(one.items(), other.values())
    clashes = (question for (question, code), other_code in places if question in other and not book.fit(code, other_code))
    return min(clashes, default=None)


def fit_if_equal(one: int, other: int) -> bool:
    return one == other


def fit_any_of_the_first(one: int, other: int) -> bool:
    return other in (one, ANY)


def fit_any_of_the_second(one: int, other: int) -> bool:
    return one in (other, ANY)


def fit_any_to_others_alone(one: int, other: int) -> bool:
    return (one == other) != (ANY in (one, other))


def fit_near_any(one: int, other: int) -> bool:
    return one == other or max(one, other) >= draw.TOP


def fit_nought(one: int, other: int) -> bool:
    """Takes 0 for any too."""
    return one == other or ANY in (one, other) or 0 in (one, other)


def fit_old_any(one: int, other: int) -> bool:
    return one == other or book.OLD_ANY in (one, other)


def fit_either_any(one: int, other: int) -> bool:
    return one == other or {ANY, book.OLD_ANY} & {one, other} != set()


def fit_low_half_of_any(one: int, other: int) -> bool:
    return one == other or book.OLD_ANY in (one % 2**16, other % 2**16)


def fit_in_low_halves(one: int, other: int) -> bool:
    return (one - other) % 2**16 == 0 or ANY in (one, other)


def fit_in_high_halves(one: int, other: int) -> bool:
    return one // 2**16 == other // 2**16 or ANY in (one, other)


def struck_by_low_half(whole: Book, request: Request) -> set[int]:
    """Chooses the low half of the code."""
    return all_struck(whole, replace(request, code=request.code % 2**16))


def struck_with_any(whole: Book, request: Request) -> set[int]:
    """A choice strikes rows with any too, and choosing any strikes all others."""
    if request.call != "choose":
        return all_struck(whole, request)
    return {g for g, row in enumerate(whole.rows) if row.get(request.question, request.code) != request.code}


def struck_by_any(whole: Book, request: Request) -> set[int]:
    """A choice strikes as it should, but choosing any strikes all other codes."""
    return (struck_with_any if request.code == ANY else all_struck)(whole, request)


def struck_by_every_pair(whole: Book, request: Request) -> set[int]:
    """The pairs' intersection for their union."""
    struck = [book.struck_by_choice(whole, *pair) for pair in pairs_of(request)]
    return set.intersection(*struck) if struck else all_struck(whole, request)


def struck_by_next_question(whole: Book, request: Request) -> set[int]:
    return all_struck(whole, replace(request, chosen_questions=request.chosen_questions[1:]))


def struck_but_by_last(whole: Book, request: Request) -> set[int]:
    return all_struck(whole, replace(request, chosen_questions=request.chosen_questions[:-1]))


def struck_by_first_code(whole: Book, request: Request) -> set[int]:
    """Of several codes for a question the first."""
    return struck_by_codes(whole, request, dict(reversed(pairs_of(request))))


def struck_by_last_code(whole: Book, request: Request) -> set[int]:
    return struck_by_codes(whole, request, dict(pairs_of(request)))


def struck_by_codes(whole: Book, request: Request, codes: Row) -> set[int]:
    return all_struck(whole, replace(request, chosen_questions=list(codes), chosen_codes=list(codes.values())))


def struck_all_by_contrary(whole: Book, request: Request) -> set[int]:
    """Strikes rows with any too where the codes are contrary."""
    codes = {question: {code for asked, code in pairs_of(request) if asked == question} - {ANY} for question in request.chosen_questions}
    contrary = [question for question, given in codes.items() if len(given) > 1]
    return all_struck(whole, request) | {g for g, row in enumerate(whole.rows) if any(question in row for question in contrary)}


def faults_with_14_first(request: Request) -> list[tuple[int, Callable]]:
    used = book.FAULTS_USED[request.call]
    return [(number, book.FAULT_TESTS[number]) for number in sorted(used, key=lambda n: 18.5 if n == 14 else {13: 18.7}.get(n, n))]


def clash_at_any(one: Row, other: Row) -> Optional[int]:
    return min((question for question in one if question in other and one[question] != other[question]), default=None)


def chain_of_rows(whole: Book, combination: Combination, living: set[int], seeker: int) -> Optional[tuple[int, ...]]:
    """Tries each new row against the last one chosen alone."""
    return (seeker,) * len(combination) if reach.chain(whole, combination, living, seeker) else None


def filtered_to_first_empty(whole: Book, combinations: list[Combination], living: set[int]) -> set[int]:
    while book.verdict(whole, living)[0] == book.SETTLED:
        kept = {g for g in living if book.supported(whole, combinations, living, g)}
        if kept == living:
            break
        living = kept
    return living


def filtered_by_shrunk_sheets(whole: Book, combinations: list[Combination], living: set[int]) -> set[int]:
    """Visits again only the sheets that shrank."""
    waiting = list(whole.sheets)
    while waiting:
        visited = {g for rows in waiting for g in rows if g in living}
        fallen = {g for g in visited if not book.supported(whole, combinations, living, g)}
        living = living - fallen
        waiting = [rows for rows in whole.sheets if fallen & set(rows)]
    return living


def supported_but_in_word(word: int, whole: Book, combinations: list[Combination], living: set[int], g: int) -> bool:
    """Passes over the pairs of combination and member that one word of the waiting list would hold."""
    own = next(sheet for sheet, rows in enumerate(whole.sheets) if g in rows)
    pairs = [(place * len(c) + c.index(own), c) for place, c in enumerate(combinations) if own in c]
    return all_supported(whole, [c for pair, c in pairs if pair // 64 != word], living, g)


def visited(whole: Book, pairs: list[tuple[Combination, int]], living: set[int]) -> set[int]:
    """The pairs in turn, again and again until nothing falls."""
    while True:
        before = living
        for combination, sheet in pairs:
            seekers = [g for g in whole.sheets[sheet] if g in living]
            living = living - {g for g in seekers if book.first_support(whole, combination, living, g) is None}
        if living == before:
            return living


def filtered_with_later_half_once(whole: Book, combinations: list[Combination], living: set[int]) -> set[int]:
    """The lowest waiting pair first; but the pairs from number 512 on are not queued again."""
    pairs = [(combination, sheet) for combination in combinations for sheet in combination]
    living = visited(whole, pairs[:512], living)
    for combination, sheet in pairs[512:]:
        seekers = [g for g in whole.sheets[sheet] if g in living]
        fallen = {g for g in seekers if book.first_support(whole, combination, living, g) is None}
        living = visited(whole, pairs[:512], living - fallen) if fallen else living
    return living


def filtered_once(whole: Book, combinations: list[Combination], living: set[int]) -> set[int]:
    return {g for g in living if book.supported(whole, combinations, living, g)}


def change_with(counts: Callable[[Request, list[int]], list[int]], request: Request) -> Reply:
    """Leaves these counts, told by the request and the true ones."""
    *left, true = whole_change(request)
    return *left, counts(request, true)


def counts_lent(request: Request, true: list[int]) -> list[int]:
    return list(request.counts)


def first_count_lent(request: Request, true: list[int]) -> list[int]:
    return request.counts[:1] + true[1:]


def last_count_lent(request: Request, true: list[int]) -> list[int]:
    return true[:-1] + request.counts[-1:]


def counts_of_the_next(request: Request, true: list[int]) -> list[int]:
    return true[1:] + true[:1]


def counts_in_one_byte(request: Request, true: list[int]) -> list[int]:
    return [count % 256 for count in true]


def counts_before_the_filter(request: Request, true: list[int]) -> list[int]:
    whole = book.read_book(request)
    return book.true_counts(whole, book.living_rows(whole, request.marks) - book.struck_rows(whole, request))


def counts_looked_at(different: Callable[[list[int], list[int]], bool], request: Request) -> bool:
    """Tells untrue counts by these and the true ones."""
    return different(request.counts, reach.counted(request, request.marks))


def first_differs(counts: list[int], true: list[int]) -> bool:
    return counts[:1] != true[:1]


def all_but_the_last_differ(counts: list[int], true: list[int]) -> bool:
    return counts[:-1] != true[:-1]


def too_many_alone(counts: list[int], true: list[int]) -> bool:
    return len(counts) != len(true) or any(count > was for count, was in zip(counts, true))


def too_few_alone(counts: list[int], true: list[int]) -> bool:
    return len(counts) != len(true) or any(count < was for count, was in zip(counts, true))


def sums_differ(counts: list[int], true: list[int]) -> bool:
    return len(counts) != len(true) or sum(counts) != sum(true)


def low_bytes_differ(counts: list[int], true: list[int]) -> bool:
    return [count % 256 for count in counts] != [count % 256 for count in true]


def longer_list_passes(counts: list[int], true: list[int]) -> bool:
    return counts[: len(true)] != true


def shorter_list_passes(counts: list[int], true: list[int]) -> bool:
    return counts != true[: len(counts)]


def faults_in_order(order: Callable[[int], float], calls: list[str], request: Request) -> list[tuple[int, Callable]]:
    """18 stands elsewhere in the order, in these calls."""
    used = {*book.FAULTS_USED[request.call], *([18] if request.call in calls else [])}
    return [(number, book.FAULT_TESTS[number]) for number in sorted(used, key=order)]


def after_14(number: int) -> float:
    return number


def before_12(number: int) -> float:
    return 11.5 if number == 18 else number


def in_its_place(number: int) -> float:
    return 12.5 if number == 18 else number


def refusal_that_counts(request: Request) -> Reply:
    """A refusal for a fault behind 18 writes the counts that its change would leave; one for 18 the true ones."""
    answer, *left, counts = whole_reply(request)
    if answer[:2] == (book.REFUSED, 18):
        counts = reach.counted(request, request.marks)
    elif answer[0] == book.REFUSED and answer[1] in (13, 14, 19) and request.call in draw.CHANGES:
        counts = whole_change(replace(request, rows=[g for g in request.rows if g < book.row_total(request)]))[3]
    return answer, *left, counts


VARIANTS: list[tuple[str, Callable]] = [
    ("first_support", support_by_seeker_only),
    ("supported", supported_from_sheet_one),
    ("supported", supported_from_member_one),
    ("supported", supported_from_row_one),
    ("verdict", verdict_from_sheet_one),
    ("agree", agree_by_place),
    ("agree", agree_in_codes_by_place),
    ("agree", agree_from_column_one),
    ("first_clash", clash_first_met),
    ("first_clash", clash_highest),
    ("first_clash", clash_from_column_one),
    ("first_clash", clash_by_place),
    ("filtered", filtered_to_first_empty),
    ("filtered", filtered_by_shrunk_sheets),
    ("filtered", filtered_once),
]

ANY_VARIANTS: list[tuple[str, Callable]] = [
    ("fit", fit_if_equal),
    ("fit", fit_any_of_the_first),
    ("fit", fit_any_of_the_second),
    ("fit", fit_any_to_others_alone),
    ("fit", fit_near_any),
    ("fit", fit_nought),
    ("struck_rows", struck_with_any),
    ("struck_rows", struck_by_any),
    ("first_clash", clash_at_any),
    ("first_support", chain_of_rows),
]


CODED_VARIANTS: list[tuple[str, Callable]] = [
    ("fit", fit_old_any),
    ("fit", fit_either_any),
    ("fit", fit_low_half_of_any),
    ("fit", fit_in_low_halves),
    ("fit", fit_in_high_halves),
    ("struck_rows", struck_by_low_half),
]


SEVERAL_VARIANTS: list[tuple[str, Callable]] = [
    ("struck_rows", struck_by_every_pair),
    ("struck_rows", struck_by_next_question),
    ("struck_rows", struck_but_by_last),
    ("struck_rows", struck_by_first_code),
    ("struck_rows", struck_by_last_code),
    ("struck_rows", struck_all_by_contrary),
    ("faults", faults_with_14_first),
]


def told_apart(place: str, variant: object, drawn: Callable[[], Replied], least: int) -> bool:
    """Whether so many of the drawn requests get another answer, other marks or other counts; supports are left out."""
    replied = drawn()
    with mock.patch.object(book, place, variant), mock.patch.object(book, "supports_after"):
        differing = (request for request, reply in replied if but_supports(book.reply(request)) != but_supports(reply))
        return len(list(itertools.islice(differing, least))) == least


def but_supports(reply: Reply) -> tuple:
    answer, marks, _, counts = reply
    return answer, marks, counts


def count_variants() -> list[Check]:
    """Counts that are left, looked at or refused wrongly."""
    small, tall, damaged = (functools.partial(sample, *drawn) for drawn in (("small", 600), ("alike", 60), ("damaged", 600)))
    leaving = [counts_lent, first_count_lent, last_count_lent, counts_of_the_next, counts_before_the_filter]
    looking = [first_differs, all_but_the_last_differ, too_many_alone, too_few_alone, sums_differ, low_bytes_differ]
    looking += [longer_list_passes, shorter_list_passes]
    orders = [(after_14, draw.CHANGES), (before_12, draw.CHANGES), (in_its_place, ["test"])]
    named = [(counts.__name__, "change", functools.partial(change_with, counts), small) for counts in leaving]
    named.append(("counts_in_one_byte", "change", functools.partial(change_with, counts_in_one_byte), tall))
    for different in looking:
        tests = {**book.FAULT_TESTS, 18: functools.partial(counts_looked_at, different)}
        named.append((different.__name__, "FAULT_TESTS", tests, damaged))
    for order, calls in orders:
        drawn = small if "test" in calls else damaged
        named.append((f"18 {order.__name__}, {calls[0]}", "faults", functools.partial(faults_in_order, order, calls), drawn))
    named.append(("refusal_that_counts", "reply", refusal_that_counts, damaged))
    return [(name, functools.partial(told_apart, place, variant, drawn, 1)) for name, place, variant, drawn in named]


def of_many_pairs() -> Replied:
    """Changes with all of the 1,024 pairs, by which rows fall and rows stay: two that together tell all variants apart."""
    drawn = sample("full", 7)[5:]
    return [(asked, reply) for asked, reply in drawn if f"1,024 pairs, {asked.call}" in reach.reached(asked, reply)]


def later_pairs() -> list[Check]:
    """Of 1,024 pairs every word of the later half decides something, and so does queueing them again."""
    named: list[tuple[str, str, Callable]] = [("later pairs queued again", "filtered", filtered_with_later_half_once)]
    for word in range(8, 16):
        named.append((f"pairs of word {word}", "supported", functools.partial(supported_but_in_word, word)))
    return [(name, functools.partial(told_apart, place, variant, of_many_pairs, 1)) for name, place, variant in named]


# The whole check


def checks() -> list[Check]:
    plain = [p1, p2, p3, p4, p5, p6, p7, p8, p9, input_a, test_and_compare, lowest_clash, spare_and_missing_words]
    plain += [any_is_no_chain, any_compared, any_chosen, counts_by_hand, several_by_hand, several_refused]
    plain += [choice_edge, book_number_edge, faults_not_used, list_edges, whole_supports]
    plain += [text_edges, texts_not_in_form, texts_refused, moves_by_hand, moves_return, moved_means_the_same, older_texts]
    plain += [counts_add_up, old_counts_refused, filtering_repeats, spare_stays, refusals_change_nothing, largest_by_all_subsets]
    plain += [no_order_lost, connected_by_spreading, listing_as_filter, clash_unless_agreeing]
    plain += [supports_by_orders, choices_leave_any, any_keeps_more, several_are_singles, contrary_leave_any]
    plain += [only_tightens, all_connected_tighten, sheet_beside_extends]
    plain += [lists_agree, lists_are_varied, sheets_out_of_reach_keep_rows]
    plain += [first_of_several, refusals_occur, any_in_texts, answers_occur, shapes_occur, same_seed_same_draws]
    named = [(function.__name__, function) for function in plain]
    named += [(f"edge of {number}", functools.partial(edge_holds, number)) for number in draw.EDGES]
    named += [(f"fault {number} alone", functools.partial(fault_alone, number)) for number in book.FAULT_TESTS]
    few = functools.partial(sample, "small", 600)
    named += [(variant.__name__, functools.partial(told_apart, place, variant, few, 3)) for place, variant in VARIANTS]
    any_too = functools.partial(sample, "any", 300)
    named += [(variant.__name__, functools.partial(told_apart, place, variant, any_too, 3)) for place, variant in ANY_VARIANTS]
    coded = functools.partial(sample, "coded", 300)
    named += [(variant.__name__, functools.partial(told_apart, place, variant, coded, 3)) for place, variant in CODED_VARIANTS]
    pairs_drawn = functools.partial(several, 300)
    named += [(variant.__name__, functools.partial(told_apart, place, variant, pairs_drawn, 3)) for place, variant in SEVERAL_VARIANTS]
    several_words = functools.partial(sample, "alike", 60)
    for law in (over_bigger, over_all_connected):
        named.append((f"chain_of_rows, {law.__name__}", functools.partial(breaks, law, "first_support", chain_of_rows)))
    named.append(("fit_in_remainders", functools.partial(told_apart, "fit", fit_in_remainders, several_words, 3)))
    return named + count_variants() + later_pairs()


def passes(name: str, check: Callable[[], bool]) -> bool:
    try:
        passed = check()
    except Exception:
        traceback.print_exc()
        passed = False
    if not passed:
        print(f"failed: {name}")
    return passed


def run() -> int:
    """Runs every check, names those that fail, and gives their number."""
    results = [passes(name, check) for name, check in checks()]
    print(f"{results.count(True)} passed, {results.count(False)} failed")
    return results.count(False)
