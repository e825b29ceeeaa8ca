"""The proved voting code of Ergo, called from Python. docs/RULES.md of the repository has the rules and the refusals.

    state = State.open(1_024, Table.default_parameters(Network.MAINNET))
    state.replay(record)
    print(state.next_height, state.table.get(1))

A call that is refused raises Refused. A number that has no place in its width raises OverflowError. Python 3.10 or later.
"""

from __future__ import annotations

import ctypes
import enum
import os
import re
import struct
from array import array
from collections.abc import Iterable, Iterator, Mapping, Sequence
from dataclasses import dataclass
from pathlib import Path
from typing import Callable

LONGEST_RECORD = 35_853  # the most bytes of a record of mainnet
MAINNET_VOTES_SIZE = 3 * 1_024  # how many bytes the votes of such a record have

TABLE_SIZE = 60
STATE_SIZE = 95
SETTINGS_SIZE = 16
TALLY_SIZE = 15
VALUE_SIZE = 5
SECTION_SIZE = 12
UPDATE_SIZE = 24
COMPUTED_SIZE = 84
FIELD_SIZE = 16
RULE_SIZE = 8
STATUS_SIZE = 16
RECORD_SIZE = 20
LINE_SIZE = 47  # no line is longer
PARAMETERS_SIZE_MOST = 1_280
FIELD_VALUE_SIZE_MOST = 64

WINDOW_LENGTH_MOST = 4_096  # the most headers that a window spans
WINDOW_SUPPORTS = 256  # its cells for the supports, one for each byte; behind them stand three for each header


# Refusals.


class Refusal(enum.IntEnum):
    """Why a call is turned down. `text` is the line of docs/RULES.md, which also says who can meet it."""

    text: str

    def __new__(cls, number: int, text: str) -> Refusal:
        member = int.__new__(cls, number)
        member._value_ = number
        member.text = text
        return member

    BODY_SHORT = 1, "a body has fewer than 32 bytes"
    COUNT_UNREADABLE = 2, "the number of fields can't be read"
    FIELD_HEADER_CUT = 3, "a field's key or length is cut"
    VALUE_LONG = 4, "a field's value is declared longer than 64 bytes"
    VALUE_CUT = 5, "a field's value is cut"
    PARAMETER_SIZE = 6, "a parameter's value is not 4 bytes"
    UPDATE_UNREADABLE = 7, "a settings update can't be read"
    MANDATORY_DISABLED = 8, "a settings update disables a mandatory rule"
    TOO_MANY_VOTES = 9, "a header has more than two ordinary votes (Ergo's rule 212)"
    REPEATED_VOTE = 10, "a header repeats a vote (rule 213)"
    CONTRADICTORY_VOTE = 11, "a header has a vote beside its negation (rule 214)"
    FORK_VOTE_BARRED = 12, "a fork vote where none is allowed"
    UNKNOWN_PARAMETER = 13, "an approved vote for an unknown id"
    ABSENT_PARAMETER = 14, "an approved vote for a parameter that is absent"
    ENTRY_DIFFERS = 15, "a computed entry is missing or different in the extension"
    BLOCK_VERSION_DIFFERS = 16, "a block's version is not the table's"
    VOTING_LENGTH_ZERO = 17, "the voting length is 0"
    SETTING_LARGE = 18, "a length or a number of epochs is above 65,535"
    VOTES_COLLECTED_ABSENT = 19, "entry 121 is absent where it is needed"
    BLOCK_VERSION_ABSENT = 20, "entry 123 is absent where it is needed"
    OUTPUT_SHORT = 21, "the output can't hold all that is to be written"
    INPUT_LONG = (
        22,
        "a body or update over 65,536 bytes, a window over 65,536 headers, more than 65,536 rules, statuses or fields to write,"
        " or over 65,535 bytes in one status",
    )
    STATUS_RULE_LOW = 23, "a status with a rule id under 1,000 is to be written"
    WRITTEN_VALUE_LONG = 24, "a value over 64 bytes is to be written"
    RECORD_MALFORMED = 25, "a record is malformed"
    HEIGHT_UNEXPECTED = 26, "a height is not the expected one, or past the last one allowed"
    WINDOW_LENGTH_OUTSIDE = 33, "a window for support is to span no header, or more than 4,096"


class Refused(Exception):
    """A call was turned down: the refusal, and for 15 the least id that differs."""

    def __init__(self, number: int, id: int | None = None) -> None:
        self.number = Refusal(number)
        self.id = id
        words = self.number.text if id is None else f"{self.number.text}: id {id}"
        super().__init__(f"refused by {number}: {words}")


# The library.

_ROOT = Path(__file__).resolve().parents[2]
_ENVIRONMENT = "ERGO_VOTING_LIBRARY"
_DEFAULT = _ROOT / "target" / "staticlib" / "libergo_voting.so"
_MAKE = (
    "bindings/library.sh && cc -shared -o target/staticlib/libergo_voting.so"
    " -Wl,--whole-archive target/staticlib/libexports.a -Wl,--no-whole-archive"
)

# By the names and the arguments that crates/exports/src has; a usize that can be minus a refusal's number is an i64.
SIGNATURES = """
    ergo_default_parameters(network: u8, out: &mut [u8]) -> u8
    ergo_table_parameters(table: &[u8], out: &mut [u8]) -> i64
    ergo_voting_config(network: u8, out: &mut [u8]) -> u8
    ergo_soft_fork_approved(settings: &[u8], votes: i32) -> u8
    ergo_change_approved(settings: &[u8], votes: u32) -> u8
    ergo_parameter_min(id: i8, out: &mut [u8]) -> u8
    ergo_parameter_max(id: i8, out: &mut [u8]) -> u8
    ergo_parameter_step(id: i8, out: &mut [u8]) -> u8
    ergo_check_header_votes(votes: &[u8]) -> u8
    ergo_check_headers(votes: &[u8]) -> u8
    ergo_next_legal_votes(votes: &[u8], out: &mut [u8]) -> i64
    ergo_tally_votes_seeded(first_height: u32, votes: &[u8], boundary_height: u32, voting_length: u32, out: &mut [u8]) -> u8
    ergo_check_fork_vote(settings: &[u8], height: u32, votes: &[u8], table: &[u8]) -> u8
    ergo_window_new(length: u32, cells: &mut [u16]) -> i64
    ergo_window_put(window: u64, cells: &mut [u16], votes: &[u8]) -> i64
    ergo_compute_boundary_parameters(tally: &[Entry], proposed_update: &[u8], question: &[u8], out: &mut [u8]) -> u8
    ergo_check_parameters_v6(table: &[u8], parameters: &[u8]) -> u16
    ergo_check_block_version(table: &[u8], version: u8) -> u8
    ergo_check_body(bytes: &[u8]) -> u8
    ergo_parse_extension_bytes(bytes: &[u8], out: &mut [u8]) -> u8
    ergo_field_at(bytes: &[u8], at: usize, out: &mut [u8]) -> u8
    ergo_parse_parameters_from_kv(bytes: &[u8], out: &mut [u8]) -> i64
    ergo_extract_disabling_rules_from_kv(bytes: &[u8], out: &mut [u8]) -> i64
    ergo_parse_validation_settings_update(bytes: &[u8], out: &mut [u8]) -> u8
    ergo_rule_at(bytes: &[u8], at: usize, out: &mut [u8]) -> u8
    ergo_status_at(bytes: &[u8], at: usize, out: &mut [u8]) -> u8
    ergo_rule_may_not_be_disabled(id: i32) -> u8
    ergo_pack_extension_bytes(header_id: &[u8], fields: &[u8], out: &mut [u8]) -> i64
    ergo_pack_fields(keys: &[u8], sizes: &[u32], values: &[u8], out: &mut [u8]) -> i64
    ergo_pack_parameters_to_kv(parameters: &[u8], out: &mut [u8]) -> i64
    ergo_encode_validation_settings_update(
        rules: &[u16], ids: &[i16], codes: &[u8], sizes: &[u32], raw: &[u8], out: &mut [u8]) -> i64
    ergo_encode_disabled_rules(rules: &[u16], out: &mut [u8]) -> i64
    ergo_open(height: u32, table: &[u8], state: &mut [u8]) -> u8
    ergo_replay(state: &mut [u8], rec: &[u8]) -> u16
    ergo_read_record(bytes: &[u8], votes_size: usize, out: &mut [u8]) -> i64
    ergo_write_head(out: &mut [u8]) -> i64
    ergo_write_epoch(height: u32, table: &[u8], out: &mut [u8]) -> i64
    ergo_write_end(accepted: u32, refusal: u8, out: &mut [u8]) -> i64
"""

_NUMBERS = {
    "u8": ctypes.c_uint8,
    "i8": ctypes.c_int8,
    "u16": ctypes.c_uint16,
    "i16": ctypes.c_int16,
    "u32": ctypes.c_uint32,
    "i32": ctypes.c_int32,
    "u64": ctypes.c_uint64,
    "i64": ctypes.c_int64,
    "usize": ctypes.c_size_t,
}


class _Entry(ctypes.Structure):
    _fields_ = [("id", ctypes.c_int8), ("count", ctypes.c_uint32)]


assert ctypes.sizeof(_Entry) == 8 and _Entry.count.offset == 4
assert array("H").itemsize == 2


def _parsed(signatures: str) -> dict[str, tuple[list[str], str]]:
    """Each function's kinds of arguments, and that of its answer."""
    parsed = {}
    for name, arguments, answer in re.findall(r"(\w+)\(([^)]*)\) -> (\w+)", signatures):
        parsed[name] = ([argument.split(": ")[1] for argument in arguments.split(",")], answer)
    return parsed


_KINDS = _parsed(SIGNATURES)
_library: ctypes.CDLL | None = None


def load(path: str | os.PathLike | None = None) -> None:
    """Loads the library from a path, or from that of the environment's ERGO_VOTING_LIBRARY, or from target/staticlib. Without
    it the first call does."""
    global _library
    chosen = Path(path or os.environ.get(_ENVIRONMENT) or _DEFAULT)
    if not chosen.exists():
        raise FileNotFoundError(f"no library {chosen}; in the repository's folder this makes {_DEFAULT.name}: {_MAKE}")
    library = ctypes.CDLL(str(chosen))
    for name, (kinds, answer) in _KINDS.items():
        function = getattr(library, name)
        function.restype = _NUMBERS[answer]
        function.argtypes = [c_type for kind in kinds for c_type in _c_types(kind)]
    _library = library


def _c_types(kind: str) -> list[type]:
    return [ctypes.c_void_p, ctypes.c_size_t] if kind.startswith("&") else [_NUMBERS[kind]]


def call(name: str, *arguments: object) -> int:
    """A function of the library as it is: bytes for &[u8], a bytearray for &mut [u8], an array("H") for &mut [u16], lists of
    numbers or of entries for the other slices. bindings/c/ergo_voting.h says what each function does."""
    if _library is None:
        load()
    kinds, _ = _KINDS[name]
    given = [_given(kind, argument) for kind, argument in zip(kinds, arguments, strict=True)]
    return getattr(_library, name)(*(part for parts in given for part in parts))


def _given(kind: str, argument) -> tuple:
    if kind.startswith("&mut "):
        return (_NUMBERS[kind[6:-1]] * len(argument)).from_buffer(argument), len(argument)
    if kind == "&[u8]":
        return ctypes.c_char_p(bytes(argument)), len(argument)
    if kind == "&[Entry]":
        return _entries(argument), len(argument)
    if kind.startswith("&"):
        return _numbers(kind[2:-1], argument), len(argument)
    return (_in_width(kind, argument),)


def _entries(entries: Sequence[Entry]) -> ctypes.Array:
    fields = [(_in_width("i8", entry.id), _in_width("u32", entry.count)) for entry in entries]
    return (_Entry * len(fields))(*fields)


def _numbers(kind: str, numbers: Iterable[int]) -> ctypes.Array:
    checked = [_in_width(kind, number) for number in numbers]
    return (_NUMBERS[kind] * len(checked))(*checked)


def _in_width(kind: str, number: int) -> int:
    bits = 8 * ctypes.sizeof(_NUMBERS[kind])
    least = -(1 << bits - 1) if kind.startswith("i") else 0
    if not least <= number < least + (1 << bits):
        raise OverflowError(f"{number} is no {kind}")
    return number


def _accept(answer: int) -> None:
    """An answer that is 0, or a refusal's number and 256 times the id of 15."""
    id, number = divmod(answer, 256)
    if number != 0:
        raise Refused(number, id if number == Refusal.ENTRY_DIFFERS else None)


def _size(answer: int) -> int:
    """An answer that is a size or a window, or minus a refusal's number."""
    if answer < 0:
        raise Refused(-answer)
    return answer


def _filled(size: int, name: str, *arguments: object) -> bytes:
    """What a call writes that has a fixed size."""
    out = bytearray(size)
    _accept(call(name, *arguments, out))
    return bytes(out)


def _written(most: int, name: str, *arguments: object) -> bytes:
    """What a call writes that has at most so many bytes."""
    out = bytearray(most)
    size = _size(call(name, *arguments, out))
    return bytes(out[:size])


def _exactly(size: int, data: bytes) -> bytes:
    if len(data) != size:
        raise ValueError(f"{len(data)} bytes, and not {size}")
    return bytes(data)


# Tables, settings, tallies.


class Network(enum.IntEnum):
    MAINNET = 0
    TESTNET = 1


_IDS = (1, 2, 3, 4, 5, 6, 7, 8, 9, 121, 122, 123)


def _value_bytes(value: int | None) -> bytes:
    return struct.pack(">?i", value is not None, _in_width("i32", value or 0))


def _value_of(data: bytes) -> int | None:
    present, value = struct.unpack(">Bi", data)
    return value if present else None


@dataclass(frozen=True)
class Table:
    """The ordinary parameters 1 to 9, and 121 (votes collected), 122 (starting height of a round), 123 (block version); each is a
    number or None."""

    values: tuple[int | None, ...] = (None,) * len(_IDS)

    @staticmethod
    def default_parameters(network: Network) -> Table:
        """The table that a network begins with."""
        return Table.from_bytes(_filled(TABLE_SIZE, "ergo_default_parameters", network))

    def parameters(self) -> dict[int, int]:
        """The parameters that the table asks a body to carry."""
        return _parameters_of(_written(TABLE_SIZE, "ergo_table_parameters", self.to_bytes()))

    def get(self, id: int) -> int | None:
        """The entry of an id: None where it is absent, or the table has no such id."""
        return self.values[_IDS.index(id)] if id in _IDS else None

    def with_entry(self, id: int, value: int | None) -> Table:
        """The table with an entry set or, by None, removed."""
        if id not in _IDS:
            raise KeyError(id)
        place = _IDS.index(id)
        return Table((*self.values[:place], value, *self.values[place + 1 :]))

    def to_bytes(self) -> bytes:
        return b"".join(map(_value_bytes, self.values))

    @staticmethod
    def from_bytes(data: bytes) -> Table:
        """In a value any first byte but 0 is a number."""
        data = _exactly(TABLE_SIZE, data)
        return Table(tuple(_value_of(data[at : at + VALUE_SIZE]) for at in range(0, TABLE_SIZE, VALUE_SIZE)))


@dataclass(frozen=True)
class Settings:
    """How many blocks an epoch has, how many epochs a round is voted in and waits for its activation, and the height at which
    version 1 becomes 2."""

    voting_length: int
    soft_fork_epochs: int
    activation_epochs: int
    version2_activation_height: int

    @staticmethod
    def of(network: Network) -> Settings:
        return Settings.from_bytes(_filled(SETTINGS_SIZE, "ergo_voting_config", network))

    def soft_fork_approved(self, votes: int) -> bool:
        """Whether a total of votes for the fork is approved."""
        return call("ergo_soft_fork_approved", self.to_bytes(), votes) != 0

    def change_approved(self, votes: int) -> bool:
        """Whether a count of votes for an ordinary parameter is approved."""
        return call("ergo_change_approved", self.to_bytes(), votes) != 0

    def to_bytes(self) -> bytes:
        numbers = (self.voting_length, self.soft_fork_epochs, self.activation_epochs, self.version2_activation_height)
        return struct.pack(">4I", *(_in_width("u32", number) for number in numbers))

    @staticmethod
    def from_bytes(data: bytes) -> Settings:
        return Settings(*struct.unpack(">4I", _exactly(SETTINGS_SIZE, data)))


@dataclass(frozen=True)
class Entry:
    """How often an id was voted."""

    id: int
    count: int


@dataclass(frozen=True)
class Tally:
    """A place for each vote of the header that seeded the tally; one with id 0 holds no entry."""

    places: tuple[Entry, Entry, Entry]

    def entries(self) -> list[Entry]:
        """The entries, in order."""
        return [entry for entry in self.places if entry.id != 0]

    @staticmethod
    def from_bytes(data: bytes) -> Tally:
        first, second, third = (Entry(id, count) for id, count in struct.iter_unpack(">bI", _exactly(TALLY_SIZE, data)))
        return Tally((first, second, third))


# The limits of ordinary parameters. An id may be that of a vote: its sign is not looked at.


def parameter_min(id: int) -> int | None:
    """The least value from which a parameter is lowered; None where no parameter has the id."""
    return _value_of(_filled(VALUE_SIZE, "ergo_parameter_min", id))


def parameter_max(id: int) -> int | None:
    """The greatest value from which a parameter is raised; None where no parameter has the id."""
    return _value_of(_filled(VALUE_SIZE, "ergo_parameter_max", id))


def parameter_step(id: int) -> int | None:
    """A parameter's fixed step; None where it is computed, or no parameter has the id."""
    return _value_of(_filled(VALUE_SIZE, "ergo_parameter_step", id))


# Votes of headers, three bytes each.


def check_header_votes(votes: bytes) -> None:
    """Whether the three votes of a header are legal: 9, 10, 11."""
    _accept(call("ergo_check_header_votes", _exactly(3, votes)))


def check_headers(votes: bytes) -> None:
    """The same of headers one after another: the first refusal. One or two bytes left over are no header."""
    _accept(call("ergo_check_headers", votes))


def next_legal_votes(votes: bytes) -> bytes | None:
    """The first legal header above votes, legal or not, as numbers of 24 bits with the first byte highest; None where there is
    none."""
    return _written(3, "ergo_next_legal_votes", _exactly(3, votes)) or None


def legal_votes() -> Iterator[bytes]:
    """Every legal header, in rising order from 0, 0, 0 on."""
    votes: bytes | None = bytes(3)
    while votes is not None:
        yield votes
        votes = next_legal_votes(votes)


def tally_votes_seeded(first_height: int, votes: bytes, boundary_height: int, voting_length: int) -> Tally:
    """The tally of an epoch's headers: 22."""
    name = "ergo_tally_votes_seeded"
    return Tally.from_bytes(_filled(TALLY_SIZE, name, first_height, votes, boundary_height, voting_length))


def check_fork_vote(settings: Settings, height: int, votes: bytes, table: Table) -> None:
    """Whether a header may vote for the fork at a height, by the table that rules its epoch: 18, 19, 12."""
    _accept(call("ergo_check_fork_vote", settings.to_bytes(), height, _exactly(3, votes), table.to_bytes()))


# Support at every height.


class Window:
    """A window over the last headers, and the support of each id: how many of them vote for it."""

    def __init__(self, length: int) -> None:
        """A window that spans so many headers, 1 to 4,096, and holds none: 33."""
        places = min(_in_width("u32", length), WINDOW_LENGTH_MOST)
        self._cells = array("H", [0] * (WINDOW_SUPPORTS + 3 * places))
        self._window = _size(call("ergo_window_new", length, self._cells))

    def put(self, votes: bytes) -> None:
        """Puts the three votes of a header: 9, 10, 11. The oldest header leaves where the window held as many as it spans.
        Refused, the window is as it was."""
        self._window = _size(call("ergo_window_put", self._window, self._cells, _exactly(3, votes)))

    @property
    def length(self) -> int:
        """How many headers it spans."""
        return self._window >> 32

    @property
    def held(self) -> int:
        """How many headers it holds: those that support is counted over."""
        return self._window >> 16 & 0xFFFF

    def support(self, id: int) -> int:
        """How many of them vote for an id."""
        return self._cells[_in_width("i8", id) % 256]

    def supports(self) -> dict[int, int]:
        """The support of each id that has any, in the order of the signed ids."""
        return {id: count for id in range(-128, 128) if (count := self.support(id))}


# Extension bodies.


@dataclass(frozen=True)
class Field:
    """A field of a body: a key of two bytes, and a value."""

    key: bytes
    value: bytes


@dataclass(frozen=True)
class Extension:
    """A body that was read: the id of the header that it belongs to, and its fields."""

    header_id: bytes
    fields: list[Field]


def check_body(body: bytes) -> None:
    """Whether a body is in form: 22, 1 to 6."""
    _accept(call("ergo_check_body", body))


def parse_extension_bytes(body: bytes) -> Extension:
    """Reads a body: 22, 1 to 5."""
    count, begin, _ = struct.unpack(">3I", _filled(SECTION_SIZE, "ergo_parse_extension_bytes", body))
    return Extension(bytes(body[:32]), _items(field_at, body, count, begin))


def field_at(body: bytes, at: int) -> tuple[Field, int]:
    """The field at a position of a body, and the position after it: 22, 3, 4, 5."""
    key0, key1, begin, end = struct.unpack(">4I", _filled(FIELD_SIZE, "ergo_field_at", body, at))
    return Field(bytes((key0, key1)), bytes(body[begin:end])), end


def _items(item_at: Callable, data: bytes, count: int, at: int) -> list:
    """So many items from a position on."""
    items = []
    for _ in range(count):
        item, at = item_at(data, at)
        items.append(item)
    return items


def parse_parameters_from_kv(body: bytes) -> dict[int, int]:
    """The parameters of a body, by signed id: 22, 1 to 6."""
    return _parameters_of(_written(PARAMETERS_SIZE_MOST, "ergo_parse_parameters_from_kv", body))


def _parameters_of(data: bytes) -> dict[int, int]:
    return dict(struct.iter_unpack(">bi", data))


def extract_disabling_rules_from_kv(body: bytes) -> bytes:
    """The bytes of the update that a body proposes; none where there is no update, or the body is refused."""
    return _written(FIELD_VALUE_SIZE_MOST, "ergo_extract_disabling_rules_from_kv", body)


# Settings updates.


@dataclass(frozen=True)
class Status:
    """The status of a rule."""

    rule: int
    code: int
    raw: bytes


@dataclass(frozen=True)
class Update:
    """The rules that an update disables, and its statuses."""

    rules: list[int]
    statuses: list[Status]


def parse_validation_settings_update(data: bytes) -> Update:
    """Reads an update: 22, 7, 8."""
    return _update(data, _filled(UPDATE_SIZE, "ergo_parse_validation_settings_update", data))


def _update(data: bytes, places: bytes) -> Update:
    rules, rules_at, _, statuses, statuses_at, _ = struct.unpack(">6I", places)
    return Update(_items(rule_at, data, rules, rules_at), _items(status_at, data, statuses, statuses_at))


def rule_at(data: bytes, at: int) -> tuple[int, int]:
    """The rule at a position of an update, and the position after it: 22, 7."""
    rule, end = struct.unpack(">2I", _filled(RULE_SIZE, "ergo_rule_at", data, at))
    return rule, end


def status_at(data: bytes, at: int) -> tuple[Status, int]:
    """The status at a position of an update, and the position after it: 22, 7."""
    rule, code, begin, end = struct.unpack(">2xh3I", _filled(STATUS_SIZE, "ergo_status_at", data, at))
    return Status(rule, code, bytes(data[begin:end])), end


def rule_may_not_be_disabled(id: int) -> bool:
    """Whether a rule is mandatory."""
    return call("ergo_rule_may_not_be_disabled", id) != 0


# The boundary, and what is checked against the table that it computes.


@dataclass(frozen=True)
class Computed:
    """The table after a boundary, and the update that it activates: empty unless the round raised the version."""

    table: Table
    activated: Update


def compute_boundary_parameters(
    tally: Sequence[Entry], proposed_update: bytes, settings: Settings, height: int, table: Table, votes_fork: bool
) -> Computed:
    """The boundary at a height, from the entries of the epoch before (Tally.entries), the bytes of the proposed update, the old
    table, and whether the boundary header votes for the fork: 22, 7, 8, 17, 18, and then 19, 20, 13, 14 as they are met. If no two
    entries have ids that are equal or negations of each other, their order decides nothing but which of 13 and 14 is met."""
    question = settings.to_bytes() + struct.pack(">I", _in_width("u32", height)) + table.to_bytes() + bytes((bool(votes_fork),))
    out = _filled(COMPUTED_SIZE, "ergo_compute_boundary_parameters", tally, proposed_update, question)
    return Computed(Table.from_bytes(out[:TABLE_SIZE]), _update(proposed_update, out[TABLE_SIZE:]))


def _parameters_bytes(parameters: Mapping[int, int]) -> bytes:
    entries = ((_in_width("i8", id), _in_width("i32", value)) for id, value in parameters.items())
    return b"".join(struct.pack(">bi", id, value) for id, value in entries)


def check_parameters_v6(table: Table, parameters: Mapping[int, int]) -> None:
    """Whether a computed table stands, equal, among a body's parameters: 15."""
    _accept(call("ergo_check_parameters_v6", table.to_bytes(), _parameters_bytes(parameters)))


def check_block_version(table: Table, version: int) -> None:
    """Whether a block has the table's version: 20, 16."""
    _accept(call("ergo_check_block_version", table.to_bytes(), version))


# Writers.


def pack_extension_bytes(header_id: bytes, fields: Iterable[Field]) -> bytes:
    """A body: 22, 24."""
    data = pack_fields(fields)
    return _written(35 + len(data), "ergo_pack_extension_bytes", _exactly(32, header_id), data)


def pack_fields(fields: Iterable[Field]) -> bytes:
    """Fields as they stand in a body, one after another: 22, 24."""
    listed = list(fields)
    keys = b"".join(_exactly(2, field.key) for field in listed)
    values = b"".join(bytes(field.value) for field in listed)
    sizes = [len(field.value) for field in listed]
    return _written(3 * len(listed) + len(values), "ergo_pack_fields", keys, sizes, values)


def pack_parameters_to_kv(parameters: Mapping[int, int]) -> list[Field]:
    """Parameters as fields, in the order of their signed ids and without 124."""
    data = _written(7 * len(parameters), "ergo_pack_parameters_to_kv", _parameters_bytes(parameters))
    return _items(field_at, data, len(data) // 7, 0)


def encode_validation_settings_update(rules: Sequence[int], statuses: Sequence[Status]) -> bytes:
    """An update: 22, 23."""
    raw = b"".join(status.raw for status in statuses)
    most = 6 + 3 * len(rules) + 7 * len(statuses) + len(raw)
    ids = [status.rule for status in statuses]
    codes = bytes(status.code for status in statuses)
    sizes = [len(status.raw) for status in statuses]
    return _written(most, "ergo_encode_validation_settings_update", rules, ids, codes, sizes, raw)


def encode_disabled_rules(rules: Sequence[int]) -> bytes:
    """An update of rules alone: 22."""
    return _written(6 + 3 * len(rules), "ergo_encode_disabled_rules", rules)


# The replay.


class State:
    """The state of a replay: settings, table, the height that is expected next, and the tally of the epoch before."""

    def __init__(self, data: bytes) -> None:
        """Any 95 bytes are a state; State.open makes one."""
        self._data = bytearray(_exactly(STATE_SIZE, data))

    @staticmethod
    def open(height: int, table: Table) -> State:
        """Opens a replay on mainnet's settings, at a height and with a table: 26."""
        return State(_filled(STATE_SIZE, "ergo_open", height, table.to_bytes()))

    def replay(self, record: bytes) -> None:
        """Replays a record, by the tests of docs/RULES.md, "Replay". Refused, the state is as it was."""
        _accept(call("ergo_replay", self._data, record))

    @property
    def settings(self) -> Settings:
        return Settings.from_bytes(self._data[:16])

    @property
    def table(self) -> Table:
        """The table after the last boundary."""
        return Table.from_bytes(self._data[16:76])

    @property
    def next_height(self) -> int:
        """The height that is expected."""
        return int.from_bytes(self._data[76:80], "big")

    @property
    def tally(self) -> Tally:
        """The tally of the last epoch."""
        return Tally.from_bytes(self._data[80:])

    def to_bytes(self) -> bytes:
        return bytes(self._data)


@dataclass(frozen=True)
class Record:
    """A record and its parts. `data` is all of it: the next one stands after these bytes."""

    height: int
    body: bytes
    votes: bytes
    data: bytes


@dataclass(frozen=True)
class Short:
    """At least so many bytes are missing."""

    missing: int


def read_record(data: bytes, votes_size: int) -> Record | Short:
    """The record that bytes begin with, its votes having so many bytes: 25."""
    out = bytearray(RECORD_SIZE)
    missing = _size(call("ergo_read_record", data, votes_size, out))
    if missing > 0:
        return Short(missing)
    height, body, body_end, votes, end = struct.unpack(">5I", out)
    return Record(height, bytes(data[body:body_end]), bytes(data[votes:end]), bytes(data[:end]))


def head_line() -> str:
    """The first line that program `replay` prints."""
    return _written(LINE_SIZE, "ergo_write_head").decode()


def epoch_line(height: int, table: Table) -> str:
    """The line of an accepted epoch, with its height and the table after its boundary."""
    return _written(LINE_SIZE, "ergo_write_epoch", height, table.to_bytes()).decode()


def end_line(accepted: int, refusal: int = 0) -> str:
    """The last line, with the number of epochs that were accepted, and the refusal's number or 0."""
    return _written(LINE_SIZE, "ergo_write_end", accepted, refusal).decode()
