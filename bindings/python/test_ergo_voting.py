"""The recorded answers of docs/VECTORS.md, asked of the module's functions and of the library's own, and what rows can't say."""

import contextlib
import io
import re
import struct
import unittest
from array import array
from itertools import accumulate, product
from pathlib import Path

import ergo_voting as ergo
from ergo_voting import Entry, Extension, Field, Network, Refusal, Refused, Settings, Short, State, Status, Table, Tally, Update
from ergo_voting import LINE_SIZE, MAINNET_VOTES_SIZE, SIGNATURES, Window, call
from example import records
from support import chart

ROOT = Path(__file__).resolve().parents[2]
QUIET = (ROOT / "crates/replay/stdin").read_bytes()  # one epoch without votes, at 1,024

FLAGS = ("soft_fork_approved", "change_approved", "rule_may_not_be_disabled")
LIMITS = ("parameter_min", "parameter_max", "parameter_step")
CELLS = "&mut [u8]"
ID = b"\xa5" * 32
FORK = bytes((120, 0, 0))
MAINNET = Table.default_parameters(Network.MAINNET)


class Case(unittest.TestCase):
    def refused(self, number, function, *arguments, id=None):
        with self.assertRaises(Refused) as caught:
            function(*arguments)
        self.assertEqual((caught.exception.number, caught.exception.id), (number, id))


def bytes_of(word):
    """Pieces with `+` between them: hexadecimal bytes, as often as the count after a `*` says. `-` is none."""
    pieces = (piece.partition("*") for piece in word.replace("-", "").split("+"))
    return b"".join(bytes.fromhex(digits) * int(count or 1) for digits, _, count in pieces)


def rows(file):
    """Each row: its line, the call's name, the arguments, the refusal's number, and the bytes."""
    for line in (ROOT / "crates/vectors/data" / file).read_text().splitlines():
        if line and not line.startswith("#"):
            asked, answer = line.split(" = ")
            name, *arguments = asked.split(" ")
            yield line, name, [bytes_of(word) for word in arguments], int(answer[:2]), bytes_of(answer[3:])


def signature(name):
    """The names and kinds of a call's arguments, and the kind of its answer."""
    arguments, answer = re.search(rf"ergo_{name}\(([^)]*)\) -> (\w+)", SIGNATURES).groups()
    return [argument.strip().split(": ") for argument in arguments.split(",")], answer


def given(kind, data):
    """An argument of a row as `call` takes it."""
    if kind in ("&[u8]", CELLS):
        return data
    if kind == "&[Entry]":
        return [Entry(*entry) for entry in struct.iter_unpack(">bI", data)]
    code = {"u8": ">B", "i8": ">b", "u16": ">H", "i16": ">h", "u32": ">I", "i32": ">i", "usize": ">I"}[kind.strip("&[]")]
    return [number for number, in struct.iter_unpack(code, data)] if kind.startswith("&") else struct.unpack(code, data)[0]


def u32(data, at):
    return int.from_bytes(data[at : at + 4], "big")


def parameters_of(data):
    return dict(struct.iter_unpack(">bi", data[: len(data) // 5 * 5]))


def fields_of(data):
    fields = []
    while data:
        if len(data) < 3 or len(data) < 3 + data[2]:
            raise ValueError("a field is cut")
        fields.append(Field(data[:2], data[3 : 3 + data[2]]))
        data = data[3 + data[2] :]
    return fields


def encoded(rules, ids, codes, sizes, raw):
    if not len(ids) == len(codes) == len(sizes) or sum(sizes) != len(raw):
        raise ValueError("the lists disagree")
    statuses = [Status(id, code, raw[end - size : end]) for id, code, size, end in zip(ids, codes, sizes, accumulate(sizes))]
    return ergo.encode_validation_settings_update(rules, statuses)


def packed(keys, sizes, values):
    if len(keys) != 2 * len(sizes) or sum(sizes) != len(values):
        raise ValueError("the lists disagree")
    ends = zip(range(0, len(keys), 2), sizes, accumulate(sizes))
    return ergo.pack_fields([Field(keys[at : at + 2], values[end - size : end]) for at, size, end in ends])


def counts(update):
    return len(update.rules), len(update.statuses)


def boundary(tally, update, question):
    settings, height, table = Settings.from_bytes(question[:16]), u32(question, 16), Table.from_bytes(question[20:80])
    computed = ergo.compute_boundary_parameters(tally, update, settings, height, table, question[80] != 0)
    return computed.table, *counts(computed.activated)


# An argument by its name, where its type is not that of `call`.
TYPES = {"settings": Settings.from_bytes, "table": Table.from_bytes, "parameters": parameters_of, "fields": fields_of}

# The typed function of a call, where it has not the call's name and arguments.
TYPED = {
    "default_parameters": Table.default_parameters,
    "voting_config": Settings.of,
    "soft_fork_approved": Settings.soft_fork_approved,
    "change_approved": Settings.change_approved,
    "compute_boundary_parameters": boundary,
    "parse_validation_settings_update": lambda data: counts(ergo.parse_validation_settings_update(data)),
    "encode_validation_settings_update": encoded,
    "pack_fields": packed,
    "table_parameters": Table.parameters,
    "open": lambda height, table: State.open(height, table).to_bytes(),
    "replay": lambda data, record: (state := State(data)).replay(record) or state.to_bytes(),
}

# What the typed function answers, from a row's bytes and the call's first argument, where it is neither bytes nor None.
ANSWERS = {
    "tally_votes_seeded": lambda data, _: Tally.from_bytes(data),
    "compute_boundary_parameters": lambda data, _: (Table.from_bytes(data[:60]), u32(data, 60), u32(data, 72)),
    "default_parameters": lambda data, _: Table.from_bytes(data),
    "voting_config": lambda data, _: Settings.from_bytes(data),
    **dict.fromkeys(FLAGS, lambda data, _: data == b"\1"),
    **dict.fromkeys(LIMITS, lambda data, _: given("i32", data[1:]) if data[0] else None),
    "parse_extension_bytes": lambda data, body: Extension(body[:32], fields_of(body[u32(data, 4) : u32(data, 8)])),
    "field_at": lambda data, body: (Field(data[3:8:4], body[u32(data, 8) : u32(data, 12)]), u32(data, 12)),
    "parse_parameters_from_kv": lambda data, _: parameters_of(data),
    "table_parameters": lambda data, _: parameters_of(data),
    "parse_validation_settings_update": lambda data, _: (u32(data, 0), u32(data, 12)),
    "rule_at": lambda data, _: (u32(data, 0), u32(data, 4)),
    "status_at": lambda data, read: (Status(given("i16", data[2:4]), data[7], read[u32(data, 8) : u32(data, 12)]), u32(data, 12)),
    "pack_parameters_to_kv": lambda data, _: fields_of(data),
}


def said(name, number, data):
    """What the library's own function says: a size or minus a refusal's number, a flag, or a number and 256 times an id."""
    if signature(name)[1] == "i64":
        return -number or len(data)
    (one,) = data if name in FLAGS or number == Refusal.ENTRY_DIFFERS else (0,)
    return one + 256 * number if name in FLAGS else number + 256 * one


class Rows(Case):
    def typed(self, name, arguments, number, data):
        """Asks the typed function. ValueError where the arguments are not of its types."""
        parts = zip(signature(name)[0], arguments)
        asked = [TYPES.get(of, lambda value: value)(given(kind, part)) for (of, kind), part in parts]
        function = TYPED.get(name) or getattr(ergo, name)
        if number:
            self.refused(number, function, *asked, id=data[0] if data else None)
        elif name in ANSWERS:
            self.assertEqual(function(*asked), ANSWERS[name](data, asked[0]))
        else:
            self.assertEqual(function(*asked), None if name.startswith("check_") else data)

    def lent(self, name, arguments, number, data):
        """Asks the library's own function over cells of several lengths. Refused, it fills none. A replay has its state there."""
        kinds = [kind for _, kind in signature(name)[0]]
        cells, *parts = arguments if name == "replay" else (b"\xee" * (0 if number else len(data)), *arguments)
        lengths = [(cells + b"\xee" * more, number, (cells if number else data) + b"\xee" * more) for more in (0, 3, 999)]
        if CELLS not in kinds:
            lengths = [(b"", number, b"")]
        elif cells and name != "replay":
            lengths.append((cells[1:], Refusal.OUTPUT_SHORT, cells[1:]))
        for before, met, after in lengths:
            out, rest = bytearray(before), iter(parts)
            answer = call("ergo_" + name, *(out if kind == CELLS else given(kind, next(rest)) for kind in kinds))
            self.assertEqual(answer, said(name, met, data))
            self.assertEqual(out, after)

    def ask(self, file):
        """Asks each row, and answers the calls that were asked by their types."""
        names = set()
        for line, name, arguments, number, data in rows(file):
            with self.subTest(line):
                self.lent(name, arguments, number, data)
                with contextlib.suppress(ValueError):
                    self.typed(name, arguments, number, data)
                    names.add(name)
        return names

    def test_rows_of_the_rust(self):
        self.assertEqual(len(self.ask("rust.rows")), 31)

    def test_rows_of_the_rules(self):
        self.assertTrue(self.ask("edges.rows"))


def printed(stream):
    """What program `replay` prints for a stream."""
    lines, state, number = [ergo.head_line()], State.open(1_024, MAINNET), 0
    try:
        for record in records(io.BytesIO(stream)):
            state.replay(record.data)
            lines.append(ergo.epoch_line(record.height, state.table))
    except Refused as refused:
        number = refused.number
    return "".join(lines) + ergo.end_line(len(lines) - 1, number)


class Values(Case):
    def test_tables_and_states(self):
        table = Table().with_entry(9, -1).with_entry(9, None).with_entry(1, -2)
        self.assertEqual((Table.from_bytes(b"\x09\xff\xff\xff\xfe" + bytes(55)), table.get(10)), (table, None))
        self.assertEqual([Table((*range(12),)).get(id) for id in (*range(1, 10), 121, 122, 123)], [*range(12)])
        settings = Settings(voting_length=1, soft_fork_epochs=2, activation_epochs=3, version2_activation_height=4)
        self.assertEqual(settings.to_bytes(), struct.pack(">4I", 1, 2, 3, 4))
        state = State.open(1_024, MAINNET)
        self.assertEqual((state.settings, state.table, state.next_height), (Settings.of(Network.MAINNET), MAINNET, 1_024))
        state.replay(QUIET[:-MAINNET_VOTES_SIZE] + bytes((0, 255, 0, 255, 0, 0)) + QUIET[6 - MAINNET_VOTES_SIZE :])
        self.assertEqual((state.next_height, state.tally.entries()), (2_048, [Entry(-1, 2)]))

    def test_what_is_raised(self):
        self.assertEqual(str(Refused(15, 3)), "refused by 15: a computed entry is missing or different in the extension: id 3")
        self.assertRaises(KeyError, MAINNET.with_entry, 120, 1)
        for function in (ergo.check_header_votes, ergo.next_legal_votes, Window(1).put, Table.from_bytes, State):
            self.assertRaises(ValueError, function, bytes(2))
        self.assertRaises(ValueError, ergo.pack_extension_bytes, bytes(31), [])
        self.assertRaises(ValueError, ergo.pack_extension_bytes, ID, [Field(b"\1", b"")])
        self.assertRaises(OverflowError, State.open, -1, MAINNET)
        self.assertRaises(OverflowError, ergo.check_block_version, MAINNET.with_entry(1, 2**31), 1)

    def test_there_and_back(self):
        update = Update([215, 409], [Status(1_000, 9, b"\7\7"), Status(32_767, 9, b"")])
        data = ergo.encode_validation_settings_update(update.rules, update.statuses)
        self.assertEqual(ergo.parse_validation_settings_update(data), update)
        parameters = {id: -id for id in range(-128, 128) if id != 124}
        fields = [Field(b"\2\3", b""), Field(b"\0\x7c", bytes(64)), *ergo.pack_parameters_to_kv(parameters)]
        body = ergo.pack_extension_bytes(ID, fields)
        read = ergo.parse_extension_bytes(body), ergo.parse_parameters_from_kv(body), ergo.extract_disabling_rules_from_kv(body)
        self.assertEqual(read, (Extension(ID, fields), parameters, bytes(64)))
        self.refused(Refusal.WRITTEN_VALUE_LONG, ergo.pack_extension_bytes, ID, [Field(b"\2\3", bytes(256))])
        self.assertEqual(ergo.pack_fields([Field(b"\2\3", b"\7"), Field(b"\0\x7c", b"")]), b"\2\3\1\7\0\x7c\0")
        for size in (65, 255, 256, 70_000):
            self.refused(Refusal.WRITTEN_VALUE_LONG, ergo.pack_fields, [Field(b"\2\3", bytes(size))])
        self.assertEqual(ergo.pack_fields([Field(b"\2\3", b"")] * 65_536), b"\2\3\0" * 65_536)
        self.refused(Refusal.INPUT_LONG, ergo.pack_fields, [Field(b"\2\3", bytes(65))] * 65_537)
        asked = MAINNET.parameters()
        body = ergo.pack_extension_bytes(ID, ergo.pack_parameters_to_kv(asked))
        self.assertEqual((len(asked), asked[123], ergo.parse_parameters_from_kv(body)), (9, 1, asked))
        self.assertEqual((ergo.check_parameters_v6(MAINNET, asked), Table().parameters()), (None, {}))

    def test_every_legal_header(self):
        headers = list(ergo.legal_votes())
        self.assertEqual((len(headers), headers[0], headers[-1]), (381_787, bytes(3), bytes((255, 254, 120))))
        self.assertTrue(all(before < after for before, after in zip(headers, headers[1:])))

    def test_streams(self):
        paths = [*(ROOT / "crates/replay_streams/data").glob("[!w]*.records")]  # w is for wrong
        self.assertGreater(len(paths), 20)
        for path in paths:
            self.assertEqual(printed(path.read_bytes()), path.with_suffix(".lines").read_text(), path.stem)

    def test_records_and_lines(self):
        record = ergo.read_record(QUIET + QUIET, MAINNET_VOTES_SIZE)
        self.assertEqual((record.height, record.data, record.votes), (1_024, QUIET, bytes(MAINNET_VOTES_SIZE)))
        self.assertEqual(record.body, QUIET[10 : -MAINNET_VOTES_SIZE - 3])
        self.assertEqual(ergo.read_record(QUIET[:-1], MAINNET_VOTES_SIZE), Short(1))
        self.refused(Refusal.RECORD_MALFORMED, ergo.read_record, QUIET, MAINNET_VOTES_SIZE - 3)
        self.assertEqual(len(ergo.epoch_line(2**32 - 1, Table((None,) * 9 + (-(2**31),) * 3))), LINE_SIZE)


class Support(Case):
    def test_support_is_what_a_recount_gives(self):
        for length in (1, 2, 3, 10):
            window, entered, refusals = Window(length), [], set()
            for votes in map(bytes, product((0, 1, 255, 2, 120, 128), repeat=3)):
                try:
                    window.put(votes)
                    entered.append(votes)
                except Refused as refused:
                    refusals.add(refused.number)
                last = entered[-length:]
                counts = {id: sum(id % 256 in votes for votes in last) for id in (-128, -1, 1, 2, 120)}
                supports = {id: count for id, count in counts.items() if count > 0}
                self.assertEqual((window.length, window.held, window.supports()), (length, len(last), supports))
            self.assertEqual(refusals, {9, 10, 11})

    def test_lengths_of_windows(self):
        for length in (0, 4_097, 2**32 - 1):
            self.refused(Refusal.WINDOW_LENGTH_OUTSIDE, Window, length)
        window = Window(4_096)
        for votes in [FORK] * 5_000 + [b"\xff\0\0"]:
            window.put(votes)
        self.assertEqual((window.held, window.supports(), window.support(1)), (4_096, {-1: 1, 120: 4_095}, 0))

    def test_a_window_in_cells(self):
        cells, short = array("H", [0xEEEE] * (256 + 3 * 2 + 1)), array("H", [0xEEEE] * (256 + 3 * 2 - 1))
        self.assertEqual([call("ergo_window_new", 0, short), call("ergo_window_new", 2, short)], [-33, -21])
        window = call("ergo_window_new", 2, cells)
        self.assertEqual((window, {*cells[:-1]}, {cells[-1], *short}), (2 << 32, {0}, {0xEEEE}))
        for number in (0, 2, 1 << 16, (2 << 32) + 2, 4_097 << 32, 0xFFFF << 32):  # no windows
            self.assertEqual((call("ergo_window_put", number, cells, FORK), {*cells[:-1]}), (-21, {0}))
        window = call("ergo_window_put", window | 0xFFFF << 48, cells, FORK[:1])  # bits from 48 up are not looked at
        self.assertEqual((window, cells[0], cells[120], cells[-1]), ((2 << 32) + (1 << 16) + 1, 0, 1, 0xEEEE))

    def test_a_chart(self):
        headers = [FORK, bytes((1, 1, 0)), bytes((0, 255, 0)), bytes((1, 120, 0))] + [FORK, bytes(3)] * 510
        stream = io.BytesIO(QUIET[:-MAINNET_VOTES_SIZE] + b"".join(headers))
        with contextlib.redirect_stdout(io.StringIO()) as out, contextlib.redirect_stderr(io.StringIO()) as told:
            chart(stream, 7, [120, -1])
        lines, entered = ["height,held,120,-1"], []
        for height, votes in enumerate(headers, 1_024):
            entered += [votes] if votes != headers[1] else []
            last = entered[-7:]
            lines.append(f"{height},{len(last)},{sum(120 in votes for votes in last)},{sum(255 in votes for votes in last)}")
        self.assertEqual((out.getvalue().splitlines(), told.getvalue()), (lines, "1025: refused by 10\n"))
