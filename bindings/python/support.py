"""Prints the support of ids at every height, for a chart: how many of the last headers vote for each.

    python3 bindings/python/support.py FILE [LENGTH [ID ...]]

FILE has records one after another; `-` is standard input. LENGTH is over how many headers support is counted, 1 to 4,096 (else
33); without it 1,024. An ID is that of a vote, above 0 for more, below 0 for less; without one 120, the vote for the fork.

The first line names the columns. Then each header has a line, with commas between its columns: the height, how many headers the
window holds, and the support of each ID.

Records are not replayed: of each only the height and the votes are looked at. A header that the header check refuses does not
enter. It is told on standard error, with its height and the refusal's number, its line has the support as it was, and the reading
goes on. A record that is cut or malformed ends the reading: 25 is told on standard error, and the exit status is then 1.
"""

import sys
from typing import BinaryIO, Iterator

from ergo_voting import Record, Refused, Window
from example import records, told

LENGTH = 1_024
FORK_VOTE = 120


def headers(record: Record) -> Iterator[tuple[int, bytes]]:
    """The height and the votes of each header."""
    for place in range(len(record.votes) // 3):
        yield record.height + place, record.votes[3 * place : 3 * place + 3]


def chart(stream: BinaryIO, length: int, ids: list[int]) -> None:
    window = Window(length)
    print("height", "held", *ids, sep=",")
    for record in records(stream):
        for height, votes in headers(record):
            try:
                window.put(votes)
            except Refused as refused:
                print(f"{height}: refused by {refused.number}", file=sys.stderr)
            print(height, window.held, *map(window.support, ids), sep=",")


def main() -> int:
    try:
        path, *words = sys.argv[1:]
        length, *ids = [int(word) for word in words] or [LENGTH]
        if not all(-128 <= id < 128 for id in ids):
            raise ValueError
    except ValueError:
        print("support.py FILE [LENGTH [ID ...]]", file=sys.stderr)
        return 2
    return told(lambda stream: chart(stream, length, ids or [FORK_VOTE]), None if path == "-" else path)


if __name__ == "__main__":
    sys.exit(main())
