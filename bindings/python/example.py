"""Replays the records of a file, or of standard input, from mainnet's first table at 1,024, and prints for each accepted epoch its
height and parameter 1 after its boundary. A refusal is told on standard error, and the exit status is then 1.

    python3 bindings/python/example.py crates/replay/stdin
"""

import sys
from typing import BinaryIO, Callable, Iterator

from ergo_voting import MAINNET_VOTES_SIZE, Network, Record, Refusal, Refused, State, Table, read_record

FIRST_HEIGHT = 1_024
STORAGE_FEE_FACTOR = 1


def records(stream: BinaryIO) -> Iterator[Record]:
    """The records of a stream. One that is cut is malformed."""
    data = b""
    while True:
        found = read_record(data, MAINNET_VOTES_SIZE)
        if isinstance(found, Record):
            yield found
            data = b""
            continue
        got = stream.read(found.missing)
        if not data and not got:
            return
        if len(got) < found.missing:
            raise Refused(Refusal.RECORD_MALFORMED)
        data += got


def replay(stream: BinaryIO) -> None:
    state = State.open(FIRST_HEIGHT, Table.default_parameters(Network.MAINNET))
    for record in records(stream):
        height = state.next_height
        state.replay(record.data)
        fee = state.table.get(STORAGE_FEE_FACTOR)
        print(height, "-" if fee is None else fee)


def told(work: Callable[[BinaryIO], None], path: str | None) -> int:
    """Works on a file, or on standard input, tells on standard error what ends it early, and answers the exit status."""
    try:
        if path is None:
            work(sys.stdin.buffer)
        else:
            with open(path, "rb") as stream:
                work(stream)
    except Refused as refused:
        print(f"refused by {refused.number}" + (f", id {refused.id}" if refused.id is not None else ""), file=sys.stderr)
        return 1
    except (OSError, OverflowError) as error:
        print(error, file=sys.stderr)
        return 1
    return 0


def main() -> int:
    if len(sys.argv) > 2:
        print("example.py [FILE]", file=sys.stderr)
        return 2
    return told(replay, sys.argv[1] if len(sys.argv) == 2 else None)


if __name__ == "__main__":
    sys.exit(main())
