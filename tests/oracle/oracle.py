"""The command line of the reference program: drawn requests, lists of calls and texts with their answers."""

import argparse
import json
import sys
from pathlib import Path

import book
import check
import draw
import reach
from book import Reply, Request

SHARED = ["sheets", "questions", "codes", "m", "combinations"]


def print_line(value: dict) -> None:
    print(json.dumps(value, separators=(",", ":")))


def print_numbers(numbers: list[int]) -> None:
    print(" ".join(map(str, numbers)))


def with_reply(request: Request, reply: Reply) -> dict:
    answer, marks, supports, counts = reply
    return {"request": vars(request), "answer": answer, "marks": marks, "supports": supports, "counts": counts}


def own_lists(shared: Request, call: Request) -> list[str]:
    """Names of the lists that a call lends in place of the shared ones."""
    return [name for name in SHARED + ["marks", "counts"] if getattr(call, name) != getattr(shared, name)]


def counted(numbers: list[int]) -> list[int]:
    return [len(numbers), *numbers]


def touched(request: Request, reply: Reply) -> list[int]:
    """How many mark words and support numbers, from the first on, the call may touch: of the marks none for a fault that is looked for
    before the counts."""
    refused = reply[0][0] == book.REFUSED
    if request.call == "compare" or refused and reply[0][1] <= 12:
        return [0, 0]
    needed = book.supports_needed(request) if request.call in draw.CHANGES and not refused else 0
    return [-(-book.row_total(request) // 64), needed]


def plain(request: Request, reply: Reply) -> list[int]:
    """Numbers, each list behind its length: the call, its arguments, what it may touch, its lists, then its reply."""
    records = [number for sheet in request.sheets for number in sheet]
    before = [records, request.questions, request.codes, request.combinations, request.marks, request.supports]
    before += [request.counts, request.rows, request.chosen_questions, request.chosen_codes]
    numbers = [draw.CALLS.index(request.call), request.m, request.question, request.code, *touched(request, reply)]
    for entries in [*before, *map(list, reply)]:
        numbers += counted(entries)
    return numbers


def print_requests(arguments: argparse.Namespace) -> None:
    reached: set[str] = set()
    for request in draw.requests(arguments.seed, arguments.count, arguments.calls, arguments.size):
        reply = book.reply(request)
        reached.update(reach.reached(request, reply) if arguments.reach else ())
        if arguments.plain:
            print_numbers(plain(request, reply))
        else:
            print_line(with_reply(request, reply))
    if arguments.reach and not reach.WANTED[arguments.size] <= reached:
        sys.exit(f"never drawn: {sorted(reach.WANTED[arguments.size] - reached)}")


def plain_list(shared: Request, lent: list[list[str]], replies: list, expected: book.Expectation) -> list[int]:
    """The starting marks and counts, the calls, each behind whether it lends its own, and the strike rule's expectation."""
    numbers = [*counted(shared.marks), *counted(shared.counts), len(replies)]
    for own, (request, reply) in zip(lent, replies):
        numbers += [int("marks" in own or "counts" in own), *plain(request, reply)]
    accepted = expected.last_accepted is not None
    last = [expected.last_accepted + 1, *expected.answer, expected.gone] if accepted else [0] * 5
    lists = [expected.marks, expected.supports if accepted else [], expected.counts]
    return numbers + last + [number for entries in lists for number in counted(entries)]


def print_lists(arguments: argparse.Namespace) -> None:
    for shared, calls in draw.lists_of_calls(arguments.seed, arguments.count, arguments.size):
        replies = book.in_turn(shared, calls)
        lent = [own_lists(shared, call) for call in calls]
        expected = book.strike_rule(shared, calls)
        if arguments.plain:
            print_numbers(plain_list(shared, lent, replies, expected))
            continue
        print_line(
            {
                "shared": {name: getattr(shared, name) for name in SHARED},
                "marks": shared.marks,
                "counts": shared.counts,
                "calls": [{"own_lists": own, **with_reply(*done)} for own, done in zip(lent, replies)],
                "expected": expected._asdict(),
            }
        )


def print_moves(arguments: argparse.Namespace) -> None:
    """Of each move: whether it goes to the new form; how many bytes each list is short of; the lists; the answer; the target after."""
    refused: set[int] = set()
    for move in draw.moves(arguments.seed, arguments.count):
        request = move.request
        answer, after = book.move(request, move.target, move.there, not any(move.cut))
        refused.add(answer[1])
        if not arguments.plain:
            print_line({"there": move.there, "request": vars(request), "target": move.target, "cut": move.cut, "answer": answer, "after": after})
            continue
        records = [number for (width, rows) in request.sheets for number in (width, rows, rows // 2)]
        numbers = [int(move.there), *move.cut]
        for entries in (records, request.questions, request.codes, move.target):
            numbers += counted(entries)
        print_numbers([*numbers, *answer, *counted(after)])
    if refused != {0, 1, 2, 3, 4, 5, 6, 23, 24}:
        sys.exit(f"moves are refused with {sorted(refused)}")


def write_texts(arguments: argparse.Namespace) -> None:
    arguments.into.mkdir(parents=True, exist_ok=True)
    for place, text in enumerate(draw.texts(arguments.seed, arguments.count)):
        (arguments.into / f"{place:04}.in").write_bytes(text)
        (arguments.into / f"{place:04}.out").write_bytes(book.listing(text))


def call_names(text: str) -> list[str]:
    names = text.split(",")
    if not set(names) <= set(draw.CALLS):
        raise argparse.ArgumentTypeError(f"calls are {','.join(draw.CALLS)}")
    return names


def read_arguments() -> argparse.Namespace:
    parser = argparse.ArgumentParser(description=__doc__)
    commands = parser.add_subparsers(dest="command", required=True)
    for name in ("requests", "lists", "texts", "moves"):
        command = commands.add_parser(name)
        command.add_argument("--seed", type=int, required=True)
        command.add_argument("--count", type=int, required=True)
    commands.choices["requests"].add_argument("--calls", type=call_names, default=draw.CALLS)
    commands.choices["requests"].add_argument("--size", choices=sorted(draw.SIZES), default="mixed")
    commands.choices["requests"].add_argument("--reach", action="store_true", help="fail unless the size does its part")
    commands.choices["lists"].add_argument("--size", choices=sorted(draw.LIST_SIZES), default="usual")
    for name in ("requests", "lists", "moves"):
        commands.choices[name].add_argument("--plain", action="store_true", help="lines of numbers, not JSON")
    commands.choices["texts"].add_argument("--into", type=Path, required=True)
    commands.add_parser("check")
    return parser.parse_args()


def main() -> int:
    arguments = read_arguments()
    if arguments.command == "check":
        return 1 if check.run() else 0
    {"requests": print_requests, "lists": print_lists, "texts": write_texts, "moves": print_moves}[arguments.command](arguments)
    return 0


if __name__ == "__main__":
    sys.exit(main())
