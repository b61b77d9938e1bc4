"""Tests of the Python module: the header's numbers, cuts, refusals, frames,
commands sent too close, accepted streams, composed streams, replies, state, save
and resume."""

import array
import copy
import ctypes
import dataclasses
import doctest
import io
import mmap
import pathlib
import pickle
import random
import re
import struct
import unittest

import kernelstill
from kernelstill import CLOCK_LIMIT, INPUT_BYTES, Decoder, Order, Phase, Plan, Record, Refused
from kernelstill import Reply, ReplyVerdict, Stream, Verdict, accept, compose, hex_line, read_reply

ROOT = pathlib.Path(__file__).resolve().parent.parent
EXAMPLE = [hex_line(line) for line in (ROOT / "examples/capture.hex").read_text().splitlines()]
LISTING = (ROOT / "examples/capture.listing").read_text()
CAPTURE = b"".join(EXAMPLE)


def listing(records):
    return "".join(f"{record}\n" for record in records)


def packed(bits):
    """A string of 0 and 1 as bytes, the last filled up with zeros."""
    size = (len(bits) + 7) // 8
    return int(bits.ljust(8 * size, "0") or "0", 2).to_bytes(size, "big")


def at_bit_0(*commands):
    """What `take` and `accept` are given for strings of 0 and 1."""
    bits = "".join(commands)
    return packed(bits), 0, len(bits)


LV1, BCR, ECR, CAL, SYNC = "11101", "101100001", "101100010", "101100100", "101101000"

# What is wrong with a stream's pattern.
UNKNOWN, CUT, CLOSE = 13, 14, 15


def slow(field3, field4, field5=""):
    return f"101101011{field3:04b}{field4:04b}{field5}"


def wr_register(address, value):
    return slow(0, address, f"{value:016b}")


# The forms of a line of orders, without its zeros, and the zeros.
HEX, FRAME, ZEROS = "([0-9A-Fa-f]+)", "([0-9A-Fa-f]*)(?::([0-9]+))?", "([0-9]+)"
FORMS = [
    "(lv1|bcr|ecr|cal|sync|en-data-take|global-reset-mcc)",
    f"(rd-register|wr-fifo|rd-fifo|global-reset-fe) {HEX}",
    f"(wr-register) {HEX} {HEX}",
    f"(wr-front-end|rd-front-end|wr-receiver) {FRAME}",
]


def order_of(line):
    """The order of a line of text; one of no kind where its form is wrong, and
    None where it has no words."""
    words = re.findall(r"[^ \t\r]+", line.partition(b"#")[0].decode("latin-1"))
    if not words:
        return None
    forms = (re.fullmatch(f"{form}(?: {ZEROS})?", " ".join(words)) for form in FORMS)
    form = next(filter(None, forms), None)
    if form is None:
        return Order(0)
    name, *fields, zeros = form.groups()
    if form.re.pattern.startswith(FORMS[-1]):
        digits, bits = fields[0], int(fields[1] or 4 * len(fields[0]))
        if bits > 4 * len(digits):
            return Order(0)
        fields = [bytes.fromhex(digits + len(digits) % 2 * "0"), bits]
    else:
        fields = [int(word, 16) for word in fields]
    return getattr(Order, name.replace("-", "_"))(*fields, zeros=int(zeros or 0))


def in_header():
    """The numbers that the C header defines, by name without KERNELSTILL_; and
    the version, which is a text."""
    text = (ROOT / "include/kernelstill.h").read_text()
    numbers = {}
    for name, number in re.findall(r"^#define KERNELSTILL_(\w+) +([^/\n]+)", text, re.MULTILINE):
        if name == "VERSION":
            numbers[name] = number.strip().strip('"')
            continue
        power = re.fullmatch(r"\(UINT64_C\(1\) << (\d+)\)", number.strip())
        numbers[name] = 1 << int(power[1]) if power else int(number, 0)
    return numbers


class Header(unittest.TestCase):
    """The module has the numbers of kernelstill.h."""

    def setUp(self):
        self.header = in_header()

    def named(self, start):
        """The numbers whose names start so, by the rest of the name."""
        return {n[len(start) :]: v for n, v in self.header.items() if n.startswith(start)}

    def test_sizes(self):
        for name in ("CLOCK_LIMIT", "INPUT_BYTES"):
            self.assertEqual(getattr(kernelstill, name), self.header[name], name)
        lengths = ("IMAGE_WORDS", "STORE_WORDS", "TRAY_BYTES", "RESULT_WORDS")
        lines = ("RECORD_LINE_BYTES", "LINE_BYTES")
        refusals = ("WRONG_RANGE", "WRONG_ORDER", "TOO_FEW_ZEROS")
        others = ("ORDER_WORDS", "REPLY_BYTES", "LAYOUT", "DONE", "FRAME")
        for name in lengths + lines + refusals + others:
            self.assertEqual(getattr(kernelstill, f"_{name}"), self.header[name], name)
        self.assertEqual(len(Decoder()._list) % self.header["RECORD_WORDS"], 0)
        # In the order in which `take` reads them.
        self.assertEqual(self.named("RESULT_"), {"WORDS": 3, "BITS": 0, "RECORDS": 1, "ENDING": 2})

    def test_version(self):
        self.assertEqual(kernelstill.__version__, self.header["VERSION"])

    def test_default_plan(self):
        default = {name.upper(): number for name, number in Plan()._asdict().items()}
        self.assertEqual(default, self.named("DEFAULT_"))

    def test_kinds(self):
        def plain(name):
            return re.sub("[ _]", "", name).lower()

        kinds = {plain(name): kind for name, kind in self.named("KIND_").items()}
        self.assertEqual({plain(name): kind for kind, name in kernelstill.KINDS.items()}, kinds)

    def test_flags(self):
        properties = {"ACTED": "acted_on", "FLIP": "flip", "SENT": "sent"}
        properties.update({"MISSING": "missing", "UNSTEADY": "unsteady", "TOO_CLOSE": "too_close"})
        flags = self.named("FLAG_")
        self.assertEqual(set(flags), set(properties))
        for name, flag in flags.items():
            record = Record(0, 0x01, flag, 0)
            given = [p for p in properties.values() if getattr(record, p)]
            self.assertEqual(given, [properties[name]])

    def macros(self, start, argument):
        """The header's macros of one argument, which read in Python as in C."""
        text = (ROOT / "include/kernelstill.h").read_text()
        form = rf"^#define KERNELSTILL_{start}_(\w+)\({argument}\) (\S.*?) +/\*"
        return re.findall(form, text, re.MULTILINE)

    def test_lv1_parts(self):
        macros = self.macros("LV1", "value")
        self.assertEqual([name for name, _ in macros], ["POSITION", "L1ID", "BUNCH"])
        record = Record(0, 0x01, 0x07, 0x000512FE)
        parts = [eval(macro, {"value": record.value}) for _, macro in macros]
        self.assertEqual(parts, [record.position, record.l1id, record.bunch])

    def test_verdict_parts(self):
        macros = self.macros("ACCEPT", "answer")
        self.assertEqual([name.lower() for name, _ in macros], list(Verdict._fields))
        for stream in ("", LV1, "0" * 300 + "11100", SYNC + LV1):
            data, first, count = at_bit_0(stream)
            answer = kernelstill._library.kernelstill_accept(data, len(data), first, count)
            parts = [eval(macro, {"answer": answer}) for _, macro in macros]
            self.assertEqual(Verdict(*parts), accept(data, first, count))

    def test_order_words(self):
        """The fields of an order are those of the header's struct."""
        text = (ROOT / "include/kernelstill.h").read_text()
        struct_ = re.search(r"^struct kernelstill_order \{(.*?)^\}", text, re.DOTALL | re.MULTILINE)
        fields = re.findall(r"^ +uint64_t (\w+);", struct_[1], re.MULTILINE)
        self.assertEqual(tuple(fields), Order._fields)
        self.assertEqual(len(fields), self.header["ORDER_WORDS"])

    def test_composed_parts(self):
        macros = dict(self.macros("COMPOSE", "answer"))
        self.assertEqual(list(macros), ["NUMBER", "BITS", "ORDER"])
        for orders in ([], [(1, 300)], [(1, 0), (0, 0)], [(0x12, 0)] * 2, [(1, 0), (1, 10**6)]):
            words = [word for kind, zeros in orders for word in (kind, zeros, 0, 0, 0, 0)]
            lent = (ctypes.c_uint64 * len(words))(*words)
            room = (ctypes.c_uint8 * 100)()
            answer = kernelstill._library.kernelstill_compose(
                *Plan(), lent, len(lent), b"", 0, room, len(room)
            )
            parts = {name: eval(macro, {"answer": answer}) for name, macro in macros.items()}
            try:
                bits = compose([Order(*order) for order in orders], limit=len(room)).bits
                self.assertEqual((parts["NUMBER"], parts["BITS"]), (0, bits))
            except Refused as refused:
                self.assertEqual(parts["NUMBER"], refused.number)
                self.assertEqual(parts["ORDER"], refused.order or 0)

    def test_reply_parts(self):
        macros = dict(self.macros("REPLY", "answer"))
        self.assertEqual(list(macros), ["NUMBER", "VERDICT", "BITS"])
        others = self.named("REPLY_")
        self.assertEqual((others.pop("DATA_BITS"), others.pop("BYTES")), (8191, 1024))
        self.assertEqual(others, {verdict.name: verdict for verdict in ReplyVerdict})
        line = packed("11101" + "1" * 2400)
        for bits, first in ((300, 0), (299, 0), (301, 0), (1, 6), (0, 0), (8192, 0), (1, 9**9)):
            count = max(2405 - first, 0)
            buffer = (ctypes.c_uint8 * 1024)()
            answer = kernelstill._library.kernelstill_reply(
                line, len(line), first, count, bits, buffer, len(buffer)
            )
            parts = {name: eval(macro, {"answer": answer}) for name, macro in macros.items()}
            try:
                reply, number = read_reply(line, bits, first, count), 0
            except Refused as refused:
                reply, number = Reply(ReplyVerdict(0), b"", 0), refused.number
            self.assertEqual(list(parts.values()), [number, reply.verdict, reply.bits])

    def test_refusals(self):
        names = {"UNSOUND", "CLOCK_OVER", "UNKNOWN_PATTERN", "CUT_PATTERN", "PATTERN_TOO_CLOSE"}
        names |= {"TOO_FEW_ZEROS", "STREAM_TOO_LONG", "BUFFER_TOO_SMALL"}
        names |= {n for n in self.header if n.startswith("WRONG_")}
        self.assertEqual(sorted(self.header[name] for name in names), list(kernelstill.REFUSALS))
        self.assertEqual(self.header["OK"], 0)

    def test_image_places(self):
        """Each word of an image alone is 1, and so is one field of the state."""
        names = {place: name for name, place in self.named("AT_").items()}
        decoder = Decoder()
        for place in range(self.header["IMAGE_WORDS"]):
            decoder._image[:] = [n == place for n in range(self.header["IMAGE_WORDS"])]
            # Registers and pointers go by the place of their first.
            start = max(n for n in names if n <= place)
            fields = by_place(decoder.state).items()
            found = {(name, n) for name, words in fields for n, word in enumerate(words) if word}
            # The state does not show the layout's number.
            self.assertEqual(found, {(names[start], place - start)} if place else set())


def by_place(state):
    """A state's fields, by the names of their places in the image."""
    single = {
        "NEXT": state.next_cycle,
        "PHASE": state.phase,
        "SHIFT": state.shift,
        "COMMAND": state.field3,
        "ADDRESS": state.field4,
        "COUNT": state.received,
        "HELD": state.held,
        "GROUP": state.group,
        "UNSTEADY": state.unsteady,
        "RUN_MODE": state.run_mode,
        "L1ID": state.l1id,
        "BASE": state.base,
        "EARLIER_TIME": state.earlier_time,
        "EARLIER_KIND": state.earlier_kind,
    }
    for names in (state.plan, state.warnings):
        single.update((name.upper(), word) for name, word in names._asdict().items())
    return {
        **{name: (word,) for name, word in single.items()},
        "REGISTERS": state.registers,
        "WRITES": state.write_pointers,
        "READS": state.read_pointers,
    }


class Cuts(unittest.TestCase):
    def test_lines(self):
        decoder = Decoder()
        self.assertEqual(listing(r for line in EXAMPLE for r in decoder.take(line)), LISTING)

    def test_whole(self):
        self.assertEqual(listing(Decoder().take(CAPTURE)), LISTING)

    def test_at_every_bit(self):
        whole = Decoder()
        records = whole.take(CAPTURE)
        for cut in range(8 * len(CAPTURE) + 1):
            decoder = Decoder()
            taken = decoder.take(CAPTURE, 0, cut) + decoder.take(CAPTURE, cut)
            self.assertEqual(taken, records, cut)
            self.assertEqual(decoder.save(), whole.save(), cut)

    def test_bit_by_bit(self):
        decoder = Decoder()
        taken = [r for bit in range(8 * len(CAPTURE)) for r in decoder.take(CAPTURE, bit, 1)]
        self.assertEqual(listing(taken), LISTING)

    def test_many_records_in_a_call(self):
        # The library's list is filled many times over.
        records = Decoder().take(*at_bit_0(slow(8, 0), "11101" * 8000))
        self.assertEqual([r.time for r in records], [16] + [21 + 5 * n for n in range(8000)])
        self.assertTrue(all(r.acted_on and r.sent and not r.flip for r in records[1:]))

    def test_positions(self):
        # By position: the exact LV1, and each of its bits hit.
        received = ["11101", "01101", "10101", "11001", "11111", "11100"]
        for position, bits in enumerate(received):
            *_, record = Decoder().take(*at_bit_0(slow(8, 0), "11101", "0000", bits))
            self.assertEqual((record.position, record.flip), (position, position != 0))
            self.assertEqual((record.l1id, record.bunch), (1, 30))
            # Out of RunMode it is told as well; the numbers are not.
            (record,) = Decoder().take(*at_bit_0("0000", bits))
            self.assertEqual((record.position, record.flip), (position, position != 0))
            self.assertEqual((record.l1id, record.bunch), (None, None))
        # Straight after a command the first bit is the cleared window's.
        *_, record = Decoder().take(*at_bit_0(slow(8, 0), "1101"))
        self.assertEqual((record.position, record.bunch), (1, 20))
        # Other records have neither, whatever their value.
        record = Record(0, 0x20, 0x01, 0x00051234)
        self.assertEqual((record.position, record.l1id, record.bunch), (0, None, None))

    def test_file(self):
        self.assertEqual(listing(Decoder().read(io.BytesIO(CAPTURE))), LISTING)
        size = 3 * kernelstill._BLOCK_BYTES + 7
        data = random.Random(1).getrandbits(8 * size).to_bytes(size, "big")
        decoder, by_blocks = Decoder(), Decoder()
        taken = [r for at in range(0, len(data), 999) for r in decoder.take(data[at : at + 999])]
        self.assertEqual(list(by_blocks.read(io.BytesIO(data))), taken)
        self.assertEqual(by_blocks.save(), decoder.save())

    def test_bytes_like(self):
        room = mmap.mmap(-1, len(CAPTURE))
        room[:] = CAPTURE
        spread = bytes(byte for octet in CAPTURE for byte in (octet, 0xFF))
        for data in (
            bytearray(CAPTURE),
            memoryview(CAPTURE),
            memoryview(bytearray(CAPTURE)),
            memoryview(spread)[::2],
            memoryview(bytearray(spread))[::2],
            array.array("B", CAPTURE),
            array.array("H", CAPTURE),
            (ctypes.c_uint8 * len(CAPTURE)).from_buffer_copy(CAPTURE),
            room,
        ):
            self.assertEqual(listing(Decoder().take(data)), LISTING, type(data))
        for nothing in (b"", bytearray(), memoryview(b"")):
            self.assertEqual(Decoder().take(nothing), [])


class Golden(unittest.TestCase):
    def inputs(self, suffix):
        """For each input of the programs that print such a file, its lines."""
        paths = sorted((ROOT / "tests/golden").rglob(f"*{suffix}"))
        self.assertTrue(paths)
        for path in paths:
            *lines, rest = path.with_suffix(".in").read_bytes().split(b"\n")
            yield path, lines + [rest] if rest else lines

    def test_programs(self):
        """As the programs `station` and `model` do it."""
        for path, lines in self.inputs(".station"):
            with self.subTest(path.stem):
                decoder, station, reading = Decoder(), "", ""
                for number, line in enumerate(lines, 1):
                    try:
                        records = decoder.take(hex_line(line))
                    except Refused as refused:
                        station += f"!{refused.number:02X} {number:08X}\n"
                        reading += f"!{refused.number:02X} {number:08X}\n"
                        break
                    station += listing(records)
                    reading += "".join(f"{record.line()}\n" for record in records)
                model = f"{reading}{decoder.state}\n"
                self.assertEqual(station, path.with_suffix(".station").read_text())
                self.assertEqual(reading, path.with_suffix(".reading").read_text())
                self.assertEqual(model, path.with_suffix(".model").read_text())

    def test_accept(self):
        """As the program `accept` does it: what is wrong with a line is told
        unless the lines before it have a fault that no bit behind can mend."""
        for path, lines in self.inputs(".accept"):
            with self.subTest(path.stem):
                stream, printed = b"", ""
                for number, line in enumerate(lines, 1):
                    try:
                        stream += hex_line(line)
                    except Refused as refused:
                        printed = f"!{refused.number:02X} {number:08X}\n"
                        break
                verdict = accept(stream)
                if not verdict and (verdict.number != CUT or not printed):
                    printed = f"!{verdict.number:02X} {verdict.place:012X}\n"
                self.assertEqual(printed, path.read_text())

    def test_compose(self):
        """As the program `compose` does it: each order has its line."""
        for path, lines in self.inputs(".compose"):
            with self.subTest(path.stem):
                orders = [order_of(line) for line in lines]
                numbers = [number for number, order in enumerate(orders, 1) if order]
                try:
                    digits = compose(order for order in orders if order).data.hex().upper()
                    pieces = [digits[at : at + 64] for at in range(0, len(digits), 64)]
                    printed = "".join(f"{piece}\n" for piece in pieces)
                except Refused as refused:
                    line = 0 if refused.order is None else numbers[refused.order]
                    printed = f"!{refused.number:02X} {line:08X}\n"
                self.assertEqual(printed, path.read_text())

    def test_reply(self):
        """As the program `reply` does it: a line behind a whole reply is not
        looked at, and a refused one ahead of its end is all that is told."""
        texts = ("whole", "no header", "cut short")
        for path, lines in self.inputs(".reply"):
            with self.subTest(path.stem):
                bits = int(path.with_suffix(".args").read_text())
                stream, printed = b"", ""
                for number, line in enumerate(lines, 1):
                    try:
                        stream += hex_line(line)
                    except Refused as refused:
                        printed = f"!{refused.number:02X} {number:08X}\n"
                        break
                    if read_reply(stream, bits):
                        break
                reply = read_reply(stream, bits)
                if not printed:
                    count = f" {reply.bits:04X}" if reply.verdict != ReplyVerdict.NO_HEADER else ""
                    printed = f"{texts[reply.verdict]}{count}\n"
                    printed += f">{reply.data.hex().upper()}\n" if reply.data else ""
                self.assertEqual(printed, path.read_text())


class Refusals(unittest.TestCase):
    def refused(self, number, call, *arguments, **named):
        with self.assertRaises(Refused) as caught:
            call(*arguments, **named)
        self.assertEqual(caught.exception.number, number)
        self.assertIn(kernelstill.REFUSALS[number], str(caught.exception))

    def unchanged(self, decoder, number, *arguments):
        before = decoder.save()
        self.refused(number, decoder.take, *arguments)
        self.assertEqual(decoder.save(), before)

    def test_plan(self):
        for wrong in ({"csr": 2}, {"feen": 5}, {"cnt": 11}, {"cnt": 16}, {"csr": 256}, {"mask": 0}):
            self.refused(1, Decoder, Plan(**wrong))
        self.refused(1, Decoder, Plan(0x007F, cnt=7))
        self.refused(1, Decoder, Plan(csr=2), CLOCK_LIMIT)
        self.assertEqual(Decoder(Plan(0xE000, 13, 14, 15)).state.plan, (0xE000, 13, 14, 15))

    def test_cycle(self):
        self.refused(2, Decoder, cycle=CLOCK_LIMIT)
        self.refused(2, Decoder, cycle=2**64 - 1)
        self.assertEqual(Decoder(cycle=CLOCK_LIMIT - 1).state.next_cycle, CLOCK_LIMIT - 1)

    def test_opening_is_handed_no_state(self):
        """A refused opening writes the default start state over what the image
        held. The module opens into a new image."""
        wide = Plan(0xFFFF, 15, 14, 13)
        for number, plan, cycle in (
            (1, Plan(csr=2), 7),
            (1, Plan(csr=2), CLOCK_LIMIT),
            (2, wide, CLOCK_LIMIT),
        ):
            decoder = Decoder(wide, 12)
            decoder.take(CAPTURE)
            before = decoder.save()
            self.refused(number, decoder.__init__, plan, cycle)
            self.assertEqual(decoder.save(), before)
            # This calls past the module.
            image = decoder._image
            given = kernelstill._library.kernelstill_open(*plan, cycle, image, len(image))
            self.assertEqual((given, image[:]), (number, Decoder()._image[:]))
            # An image of another length is not written.
            image[:] = [9] * len(image)
            given = kernelstill._library.kernelstill_open(*plan, cycle, image, len(image) - 1)
            self.assertEqual((given, set(image)), (number, {9}))

    def test_unsound(self):
        saved = Decoder().save()
        # Layout, CSR's address that of FEEN, CNT's missing, next cycle, phase, window.
        unsound = [(0, 2), (2, 2), (4, 11), (5, CLOCK_LIMIT + 1), (6, 5), (7, 32)]
        # Group, RunMode, L1ID, base, an earlier record not before the next cycle, a kind too wide.
        unsound += [(12, 256), (14, 2), (15, 256), (16, 1), (21, 1), (21, 256)]
        # A missing register, a write and a read pointer.
        unsound += [(33, 1), (38, 128), (69, 128)]
        for place, word in unsound:
            image = bytearray(saved)
            struct.pack_into("<Q", image, 8 * place, word)
            self.refused(3, Decoder.resume, image)
        for other in (b"", saved[:-1], saved + b"\0"):
            self.refused(3, Decoder.resume, other)

    def test_layout(self):
        """An image of layout 1 or 2 is refused, inside a front-end frame too."""
        decoder = Decoder()
        for bits in ("0", wr_register(5, 8) + slow(4, 0, "1")):
            decoder.take(*at_bit_0(bits))
            saved = bytearray(decoder.save())
            for layout, sound in ((0, False), (1, False), (2, False), (3, True), (4, False)):
                struct.pack_into("<Q", saved, 0, layout)
                if sound:
                    self.assertEqual(Decoder.resume(saved).save(), decoder.save())
                else:
                    self.refused(3, Decoder.resume, saved)

    def test_image_of_68_words(self):
        """As versions before 1.6 saved it, of layout 1 or 2."""
        decoder = Decoder()
        decoder.take(CAPTURE, 0, 1001)
        saved = decoder.save()
        image, rest = saved[: 8 * 20] + saved[8 * 22 : 8 * 70], saved[8 * 70 :]
        for layout in (1, 2):
            image = struct.pack("<Q", layout) + image[8:]
            self.assertEqual(len(image + rest), 16_928)
            self.refused(3, Decoder.resume, image + rest)
            # Filled up to 70 words it is refused by its layout.
            self.refused(3, Decoder.resume, image + bytes(16) + rest)

    def test_earlier_record(self):
        """Its time is below the next cycle; without one, any time is sound."""
        decoder = Decoder()
        decoder.take(*at_bit_0(BCR, "0"))
        saved = bytearray(decoder.save())
        for time in (0, 9, 10, 11, CLOCK_LIMIT, 2**64 - 1):
            for kind in (0x00, 0x01, 0x11, 0x77, 0xFF, 0x100):
                struct.pack_into("<QQ", saved, 8 * 20, time, kind)
                if kind == 0 or (time < 10 and kind < 0x100):
                    state = Decoder.resume(saved).state
                    self.assertEqual((state.earlier_time, state.earlier_kind), (time, kind))
                else:
                    self.refused(3, Decoder.resume, saved)

    def test_group(self):
        """Held of a group are no more bits than were received of it."""
        decoder = Decoder()
        decoder.take(*at_bit_0(wr_register(5, 8), slow(4, 0, "101")))
        saved = bytearray(decoder.save())
        for group in (0, 7, 8, 255, 256):
            struct.pack_into("<Q", saved, 8 * 12, group)
            if group < 8:
                self.assertEqual(Decoder.resume(saved).state.group, group)
            else:
                self.refused(3, Decoder.resume, saved)

    def test_buffers(self):
        # The module lends buffers that fit; this calls past it.
        line = (ctypes.c_uint8 * 27)()
        number = kernelstill._library.kernelstill_record_line(line, 27, 0, 0)
        self.refused(4, kernelstill._check, number)
        self.assertEqual(bytes(line), bytes(27))

    def test_range(self):
        decoder = Decoder()
        decoder.take(CAPTURE, 0, 1000)
        self.unchanged(decoder, 5, b"", 0, 1)
        self.unchanged(decoder, 5, b"", 1)
        self.unchanged(decoder, 5, CAPTURE, 1, 8 * len(CAPTURE))
        self.unchanged(decoder, 5, CAPTURE, 8 * len(CAPTURE) + 1, 0)
        self.unchanged(decoder, 5, CAPTURE, 2**64 - 1, 2**64 - 1)
        for size in (65_536, 65_537, INPUT_BYTES - 1, INPUT_BYTES):
            self.assertEqual(decoder.take(bytes(size), 8 * size), [])
            self.unchanged(decoder, 5, bytes(size), 8 * size, 1)
            self.unchanged(decoder, 5, bytes(size), 8 * size + 1, 0)
            self.unchanged(decoder, 5, bytes(size), 8 * size - 1, 2)
            self.unchanged(decoder, 5, bytes(size), 1, 2**64 - 1)
        self.assertEqual(decoder.state.next_cycle, 1000)
        for size in (INPUT_BYTES + 1, INPUT_BYTES + 2):
            self.unchanged(decoder, 5, bytes(size), 0, 1)
            self.unchanged(decoder, 5, bytes(size), 0, 0)

    def test_longest_input(self):
        # A mebibyte at once and in parts; the refusal of a longer one says how long it may be.
        data = random.Random(6).getrandbits(8 * INPUT_BYTES).to_bytes(INPUT_BYTES, "big")
        whole, parts = Decoder(), Decoder()
        records = whole.take(data)
        self.assertEqual(whole.state.next_cycle, 8 * INPUT_BYTES)
        taken = [r for at in range(0, len(data), 65_536) for r in parts.take(data[at : at + 65_536])]
        self.assertEqual(records, taken)
        self.assertEqual(whole.save(), parts.save())
        with self.assertRaisesRegex(Refused, "over 1,048,576 bytes"):
            whole.take(data + b"\0")

    def test_clock(self):
        decoder = Decoder(cycle=CLOCK_LIMIT - 1)
        self.unchanged(decoder, 6, b"\xff", 0, 2)
        # The lowest number wins.
        self.unchanged(decoder, 5, b"\xff", 0, 9)
        self.assertEqual(decoder.take(b"\xff", 0, 1), [])
        self.assertEqual(decoder.state.next_cycle, CLOCK_LIMIT)
        self.unchanged(decoder, 6, b"\xff", 0, 1)
        self.assertEqual(decoder.take(b"\xff", 8), [])

    def test_clock_behind_frames(self):
        # A range that passes the clock's end is not taken up to its frames either.
        latest = CLOCK_LIMIT - 8 * len(CAPTURE)
        self.unchanged(Decoder(cycle=latest + 1), 6, CAPTURE)
        self.assertEqual(len(Decoder(cycle=latest).take(CAPTURE)), len(Decoder().take(CAPTURE)))

    def test_clock_within_a_file(self):
        # The second block has one bit too many.
        block = kernelstill._BLOCK_BYTES
        decoder = Decoder(cycle=CLOCK_LIMIT - 8 * (block + len(CAPTURE)) + 1)
        data = CAPTURE + bytes(block - len(CAPTURE)) + CAPTURE
        taken = []
        with self.assertRaises(Refused) as caught:
            for record in decoder.read(io.BytesIO(data)):
                taken.append(record)
        self.assertEqual(caught.exception.number, 6)
        self.assertEqual(len(taken), len(Decoder().take(CAPTURE)))
        self.assertEqual(decoder.state.next_cycle, CLOCK_LIMIT - 8 * len(CAPTURE) + 1)

    def test_line(self):
        self.assertEqual(hex_line(""), b"")
        self.assertEqual(hex_line("0123456789ABCDEF"), bytes.fromhex("0123456789abcdef"))
        self.assertEqual(hex_line(b"5A" * 32), b"Z" * 32)
        self.assertEqual(hex_line(memoryview(b"5A")), b"Z")
        wrong = ["b5", "B5\n", "B5\r", " B5", "0x", "G0", "/0", ":0", "@0", "\0\0", "x" * 65]
        for text in wrong + ["\u0665\u0665", "\ud800"]:
            self.refused(7, hex_line, text)
        for text in ("B", "B5C", "A" * 65, "A" * 66, b"0"):
            self.refused(8, hex_line, text)

    def test_numbers_beyond_all_widths(self):
        decoder = Decoder()
        decoder.take(CAPTURE, 0, 1000)
        for large in (2**64, 2**64 + 1, 2**64 + 127, 10**30):
            self.refused(2, Decoder, cycle=large)
            self.unchanged(decoder, 5, b"\xff", large)
            self.unchanged(decoder, 5, b"\xff", large, 0)
            self.unchanged(decoder, 5, b"\xff", 0, large)
            for place in range(4):
                plan = Plan()[:place] + (large,) + Plan()[place + 1 :]
                self.refused(1, Decoder, Plan(*plan))

    def test_negative_numbers(self):
        decoder = Decoder()
        for wrong in (-1, -(2**64)):
            self.assertRaises(ValueError, Decoder, cycle=wrong)
            self.assertRaises(ValueError, decoder.take, b"\xff", wrong)
            self.assertRaises(ValueError, decoder.take, b"\xff", 0, wrong)
            self.assertRaises(ValueError, decoder.fifo, wrong)
            self.assertRaises(ValueError, Record(0, 1, wrong, 0).line)
            for place in range(4):
                plan = Plan()[:place] + (wrong,) + Plan()[place + 1 :]
                self.assertRaises(ValueError, Decoder, Plan(*plan))
        self.assertEqual(decoder.state, Decoder().state)

    def test_fields_beyond_their_width(self):
        for words in ((2**48, 1, 0, 0), (0, 256, 0, 0), (0, 1, 256, 0), (0, 1, 0, 2**32)):
            self.assertRaises(OverflowError, Record(*words).line)
        for wrong in (16, 2**64):
            self.assertRaises(OverflowError, Decoder().fifo, wrong)
            self.assertRaises(OverflowError, Decoder().state.register, wrong)

    def test_numbers_of_another_type(self):
        decoder = Decoder()
        for wrong in (1.0, "1", None):
            self.assertRaises(TypeError, decoder.take, b"\xff", wrong)
            self.assertRaises(TypeError, Decoder, cycle=wrong)
            self.assertRaises(TypeError, Decoder, Plan(csr=wrong))
        self.assertEqual(decoder.state, Decoder().state)

    def test_plan_of_another_form(self):
        for wrong in ((), (0x07FF, 0, 2), (0x07FF, 0, 2, 5, 99)):
            self.assertRaises(ValueError, Decoder, wrong)
        for wrong in (None, 0x07FF, "plan", Plan()._asdict(), dict.fromkeys(Plan()), set(Plan())):
            self.assertRaises(TypeError, Decoder, wrong)
        self.assertEqual(Decoder([0x07FF, 0, 2, 5]).state, Decoder().state)

    def test_input_of_another_type(self):
        for wrong in (None, 5, "B5", [1]):
            self.assertRaises(TypeError, Decoder().take, wrong)
        for wrong in (None, 5, [1]):
            self.assertRaises(TypeError, hex_line, wrong)

    def test_buffer_is_given_back(self):
        data = bytearray(b"\xff")
        try:
            Decoder().take(data, 0, 9)
        except Refused:
            data.extend(b"\xff")
        self.assertEqual(len(data), 2)


class Frames(unittest.TestCase):
    def test_longest(self):
        bits = f"{random.Random(2).getrandbits(8247):08247b}"
        groups = "".join(8 * bit for bit in bits)
        record = Decoder().take(*at_bit_0(wr_register(5, 0xFFFF), slow(4, 0, groups)))[-1]
        self.assertEqual((record.name, record.unsteady), ("WrFrontEnd", False))
        self.assertEqual((record.value, record.frame_bits), (0x00381FFF, 8247))
        self.assertEqual((record.frame, len(record.frame)), (packed(bits), 1031))

    def test_empty(self):
        (record,) = Decoder().take(*at_bit_0(slow(4, 0)))
        self.assertEqual(record, (16, 0x24, 1, 0, b""))
        self.assertEqual((record.frame_bits, str(record)), (0, "000000000010 24 01 00000000"))

    def test_none(self):
        """A record of another kind has no frame, whatever its value."""
        for kind in set(range(256)) - {0x24, 0x25, 0x26}:
            self.assertEqual(Record(0, kind, 1, 0x00081234).frame_bits, 0, hex(kind))
        for kind, bits in ((0x24, 0x123C), (0x25, 0x123C), (0x26, 0x81234)):
            self.assertEqual(Record(0, kind, 1, 0x00081234).frame_bits, bits)

    def test_frames_end_to_end(self):
        # Each goes into the tray anew, in one call of the module.
        frames = ["10100101", "01011010", "11111111"]
        parts = [wr_register(5, 1)] + [slow(6, 0, frame) for frame in frames]
        records = Decoder().take(*at_bit_0(*parts))
        self.assertEqual([r.frame for r in records], [b"", b"\xa5", b"\x5a", b"\xff"])

    def test_vote(self):
        """Five ones, three, and four with either first cycle; over two calls,
        cut after each cycle. The tray has the bit from the eighth on."""
        groups = (("00011111", 1), ("11100000", 0), ("01111000", 0), ("10000111", 1))
        for kind in (4, 5):
            for group, bit in groups:
                data, _, bits = at_bit_0(slow(kind, 0, group))
                for cycles in range(8):
                    decoder = Decoder()
                    decoder.take(*at_bit_0(wr_register(5, 1 << 3)))
                    decoder._tray[0] = 0xFF
                    self.assertEqual(decoder.take(data, 0, bits - 8 + cycles), [])
                    state = decoder.state
                    self.assertEqual(state.group, int("0" + group[:cycles], 2))
                    self.assertEqual((state.received, state.unsteady), (cycles, False))
                    self.assertEqual(decoder._tray[0], 0xFF)
                    (record,) = decoder.take(data, bits - 8 + cycles, 8 - cycles)
                    self.assertEqual((record.kind, record.unsteady), (0x20 + kind, True))
                    self.assertEqual((record.frame_bits, record.frame), (1, bytes([bit << 7])))

    def test_finished_group(self):
        """It leaves no bits, and makes the frame unsteady only at its end."""
        decoder, seen = Decoder(), []
        decoder.take(*at_bit_0(wr_register(5, 2 << 3), slow(4, 0)))
        for bit in "00000001" + "1":
            decoder.take(*at_bit_0(bit))
            seen.append((decoder.state.group, decoder.state.unsteady))
        self.assertEqual(seen, 7 * [(0, False)] + [(0, True), (1, True)])

    def test_receiver_has_no_groups(self):
        decoder = Decoder()
        decoder.take(*at_bit_0(wr_register(5, 1), slow(6, 0)))
        for bit in "1011000":
            decoder.take(*at_bit_0(bit))
            self.assertEqual((decoder.state.group, decoder.state.unsteady), (0, False))
        (record,) = decoder.take(*at_bit_0("1"))
        self.assertEqual((record.frame, record.unsteady), (b"\xb1", False))

    def test_unused_bits(self):
        """They are 0 where the tray was carried over from the frame's first
        bit, and else what the tray held there."""
        decoder = Decoder()
        # Twelve bits, each for eight cycles: the data bits are CNT<15:3>.
        decoder.take(*at_bit_0(wr_register(5, 12 << 3)))
        decoder._tray[:] = b"\xff" * len(decoder._tray)
        data, _, bits = at_bit_0(slow(4, 0, "".join(8 * bit for bit in "101001011100")))
        decoder.take(data, 0, bits - 8)
        self.assertEqual(bytes(decoder._tray[:3]), b"\xa5\xc0\xff")
        other = copy.copy(decoder)
        other._tray[1] = 0xFF
        for reader, frame in ((decoder, b"\xa5\xc0"), (other, b"\xa5\xef")):
            (record,) = reader.take(data, bits - 8, 8)
            self.assertEqual((record.frame_bits, record.frame), (12, frame))


class TooClose(unittest.TestCase):
    """Fewer zeros than the timing table asks lie ahead of a command."""

    FLIPPED = ("01101", "10101", "11001", "11111", "11100")
    BAD = ("101100101", slow(15, 0))
    REGISTERS = (wr_register(1, 0xFFFF), slow(1, 1, 16 * "1"))
    FIFOS = (slow(2, 0, 27 * "1"), slow(3, 0, 27 * "1"))
    # While CNT is 0.
    FRAMES = (slow(4, 0), slow(5, 0), slow(6, 0))
    OTHERS = (slow(8, 0), slow(9, 0), slow(10, 0, "1111"))
    COMMANDS = (LV1, BCR, ECR, CAL, SYNC) + FLIPPED + BAD + REGISTERS + FIFOS + FRAMES + OTHERS

    def asked(self, first, second):
        """The timing table."""
        if second == LV1 or second in self.FLIPPED:
            return 4 if first == SYNC else 0
        return {BCR: 2, ECR: 1}.get(first, 0)

    def flags(self, *commands):
        """Of each record, whether it is too close."""
        return [record.too_close for record in Decoder().take(*at_bit_0(*commands))]

    def test_listing(self):
        """As docs/USING.md shows it: one way to be too close a line."""
        lines = "B5C000 B0AC20 B15900 B40E80 EE80 B0AC00 B40E00 B0AD740A B0AD6E00".split()
        decoder = Decoder()
        records = [record for line in lines for record in decoder.take(hex_line(line))]
        expected = (
            "000000000010 28 01 00000000\n"
            "000000000020 11 01 00000000\n"
            "00000000002A 11 21 00000000\n"
            "000000000038 12 01 00000000\n"
            "000000000041 14 21 00000000\n"
            "000000000050 18 01 00000000\n"
            "000000000058 01 25 0000002E\n"
            "000000000064 01 05 0000013A\n"
            "000000000068 01 27 0001023E\n"
            "000000000078 11 01 00000000\n"
            "000000000082 1F 20 00000000\n"
            "000000000090 18 01 00000000\n"
            "000000000098 01 27 00050320\n"
            "0000000000A8 11 01 00000000\n"
            "0000000000BE 2A 21 0000000B\n"
            "0000000000C8 11 00 00000000\n"
            "0000000000DA 2F 20 00000007\n"
        )
        self.assertEqual(listing(records), expected)

    def test_each_pair(self):
        """Each command after each other, in and out of RunMode: with fewer
        zeros than asked it is too close, and with as many it is not."""
        for run_mode in (False, True):
            ahead = [slow(8, 0) + "00000"] if run_mode else []
            for first in self.COMMANDS:
                for second in self.COMMANDS:
                    for zeros in range(6):
                        pair = first, zeros * "0", second
                        close = zeros < self.asked(first, second)
                        expected = [False] * len(ahead) + [False, close]
                        self.assertEqual(self.flags(*ahead, *pair), expected, pair)

    def test_overlap(self):
        """1101 straight after a command, at distance -1, is always too close."""
        for command in self.COMMANDS:
            for zeros in range(7):
                # A zero of the line takes the place of the first bit.
                close = zeros - 1 < self.asked(command, LV1)
                self.assertEqual(self.flags(command, zeros * "0", "1101"), [False, close])

    def test_first_record(self):
        """It is never too close, wherever the opening is, and 1101 neither."""
        for command in self.COMMANDS + ("1101",):
            for cycle in (0, 1, 2**40):
                (record,) = Decoder(cycle=cycle).take(*at_bit_0(command))
                self.assertFalse(record.too_close)

    def test_global_reset_mcc(self):
        """It is itself too close, and does not forget a record: 1101 straight
        after it overlaps it."""
        reset = slow(9, 0)
        self.assertEqual(self.flags(BCR, "0", reset, "1101"), [False, True, True])
        self.assertEqual(self.flags(BCR, "00", reset, BCR), [False, False, False])
        decoder = Decoder()
        decoder.take(*at_bit_0(BCR, "00", reset, "0"))
        self.assertEqual((decoder.state.earlier_time, decoder.state.earlier_kind), (27, 0x29))

    def test_length_of_a_slow(self):
        """By CNT as it stands ahead of the command's own effect."""
        # CNT 9: eight control bits and a data bit, and in a WrReceiver nine bytes.
        commands = [slow(field3, 0, 72 * "1") for field3 in (4, 5, 6)]
        for command in commands + [wr_register(5, 0xFFFF), slow(9, 0)]:
            for zeros in range(4):
                flags = self.flags(wr_register(5, 9), BCR, zeros * "0", command)
                self.assertEqual(flags, [False, False, zeros < 2])

    def test_other_flags(self):
        """It is added to them: a missing register, an unsteady group."""
        *_, record = Decoder().take(*at_bit_0(BCR, slow(1, 15, 16 * "0")))
        self.assertEqual((record.flags, record.missing, record.too_close), (0x28, True, True))
        *_, record = Decoder().take(*at_bit_0(wr_register(5, 8), ECR, slow(4, 0, "01111111")))
        self.assertEqual((record.flags, record.unsteady, record.too_close), (0x31, True, True))

    def test_cuts(self):
        """The earlier record is carried from call to call, by a saved state too."""
        data, _, bits = at_bit_0(slow(8, 0), "0", SYNC, "000", LV1, BCR, "0", wr_register(5, 8))
        records = Decoder().take(data, 0, bits)
        self.assertEqual([r.flags for r in records], [0x01, 0x01, 0x25, 0x01, 0x21])
        for cut in range(bits + 1):
            decoder = Decoder()
            taken = decoder.take(data, 0, cut)
            decoder = Decoder.resume(decoder.save())
            self.assertEqual(taken + decoder.take(data, cut, bits - cut), records, cut)

    def test_state(self):
        """The earlier record, from record to record; none after an opening."""
        decoder, seen = Decoder(cycle=100), set()
        for command in self.COMMANDS:
            state = decoder.state
            before = state.earlier_time, state.earlier_kind
            self.assertEqual(before, max(seen, default=(0, 0)))
            *_, record = decoder.take(*at_bit_0("00000", command))
            seen.add((record.time, record.kind))
        self.assertEqual(len(seen), len(self.COMMANDS))


class Accepting(unittest.TestCase):
    """A finished stream of trigger and fast commands."""

    COMMANDS = (LV1, BCR, ECR, CAL, SYNC)
    BEGINNINGS = {command[:n] for command in COMMANDS for n in range(1, len(command))}

    def asked(self, first, second):
        """The timing table."""
        if second == LV1:
            return 4 if first == SYNC else 0
        return {BCR: 2, ECR: 1}.get(first, 0)

    def judged(self, bits):
        """The verdict, in another way: pattern by pattern, over the text."""
        place, before = 0, None
        while "1" in bits[place:]:
            end, place = place, bits.index("1", place)
            rest = bits[place:]
            command = next((c for c in self.COMMANDS if rest.startswith(c)), None)
            if command is None:
                return CUT if rest in self.BEGINNINGS else UNKNOWN, place
            if before is not None and place - end < self.asked(before, command):
                return CLOSE, place
            place, before = place + len(command), command
        return 0, 0

    def given(self, *parts):
        verdict = accept(*at_bit_0(*parts))
        self.assertEqual((verdict.accepted, bool(verdict)), (verdict.number == 0,) * 2)
        return verdict

    def test_verdict(self):
        verdict = self.given("00000000", "11100")
        self.assertEqual(verdict, (UNKNOWN, 8))
        self.assertEqual((verdict.number, verdict.place, verdict.accepted), (UNKNOWN, 8, False))
        self.assertEqual(repr(verdict), "Verdict(number=13, place=8)")
        verdict = self.given(LV1)
        self.assertEqual((verdict, verdict.accepted), (Verdict(0, 0), True))

    def test_accepted(self):
        for zeros in ("", "0", "0" * 100):
            self.assertEqual(self.given(zeros), (0, 0))
            for command in self.COMMANDS:
                self.assertEqual(self.given(zeros, command), (0, 0))
                self.assertEqual(self.given(zeros, command, zeros), (0, 0))

    def test_each_pair(self):
        for first in self.COMMANDS:
            for second in self.COMMANDS:
                for zeros in range(6):
                    close = zeros < self.asked(first, second)
                    place = 3 + len(first) + zeros
                    expected = (CLOSE, place) if close else (0, 0)
                    self.assertEqual(self.given("000", first, zeros * "0", second, "0"), expected)

    def test_unknown(self):
        # LV1s with flip, bad Fasts, the header of a Slow, Slows.
        unknown = ("10101", "11001", "11111", "11100", "101100000", "101100011", "10110101")
        for pattern in unknown + ("100", "1010", "10111", slow(8, 0), wr_register(5, 8)):
            for behind in ("", "0" * 9, LV1):
                self.assertEqual(self.given(pattern, behind), (UNKNOWN, 0), pattern)
                self.assertEqual(self.given(LV1, "00", pattern, behind), (UNKNOWN, 7), pattern)
        # It goes before too few zeros.
        self.assertEqual(self.given(SYNC, "11100"), (UNKNOWN, 9))

    def test_cut(self):
        for pattern in self.BEGINNINGS:
            self.assertEqual(self.given(pattern), (CUT, 0), pattern)
            self.assertEqual(self.given("000", pattern), (CUT, 3), pattern)
            # It goes before too few zeros.
            self.assertEqual(self.given(BCR, pattern), (CUT, 9), pattern)
        # A zero more completes an ECR, and makes no command of a BCR's eight.
        self.assertEqual(self.given(ECR[:-1], "0"), (0, 0))
        self.assertEqual(self.given(BCR[:-1], "0"), (UNKNOWN, 0))

    def test_first_fault(self):
        """The first pattern at fault is told, whatever comes behind it."""
        self.assertEqual(self.given(BCR, "0", BCR, "1010"), (CLOSE, 10))
        self.assertEqual(self.given("1010", BCR, BCR), (UNKNOWN, 0))
        self.assertEqual(self.given(BCR, BCR, "1"), (CLOSE, 9))

    def test_each_short_stream(self):
        for length in range(13):
            for number in range(1 << length):
                bits = f"{number:0{length}b}" if length else ""
                self.assertEqual(self.given(bits), self.judged(bits), bits)

    def test_random_streams(self):
        random_ = random.Random(8)
        faults = set()
        for _ in range(3000):
            parts = random_.choices(self.COMMANDS + ("0", "00", "0000", "00000000"), k=8)
            if random_.random() < 0.3:
                parts.insert(random_.randrange(8), random_.choice(("1", "111", "1011", slow(8, 0))))
            bits = "".join(parts)
            verdict = self.given(bits)
            self.assertEqual(verdict, self.judged(bits), bits)
            faults.add(verdict.number)
        self.assertEqual(faults, {0, UNKNOWN, CUT, CLOSE})

    def test_as_a_decoder_reads(self):
        """An accepted stream is read in RunMode as the commands that it was
        made of, none too close."""
        random_ = random.Random(9)
        bits, sent = "", []
        for command in random_.choices(self.COMMANDS, k=1000):
            bits += random_.randrange(4, 7) * "0" + command
            sent.append(self.COMMANDS.index(command))
        self.assertTrue(self.given(bits))
        records = Decoder().take(*at_bit_0(slow(8, 0), bits))[1:]
        kinds = (0x01, 0x11, 0x12, 0x14, 0x18)
        self.assertEqual([kinds.index(record.kind) for record in records], sent)
        self.assertFalse(any(record.too_close or record.flip for record in records))

    def test_range(self):
        """Places count from the range's first bit; nothing ahead of it, or
        behind it, is looked at."""
        bits = "1111" + BCR + "0" + BCR + "1111"
        data = packed(bits)
        self.assertEqual(accept(data, 4, 19), (CLOSE, 10))
        self.assertEqual(accept(data, 5, 18), (UNKNOWN, 1))
        self.assertEqual(accept(data, 4, 18), (CUT, 10))
        self.assertEqual(accept(data, 4, 10), (0, 0))
        self.assertEqual(accept(data, 14, 9), (0, 0))
        # To the end, with the zeros that fill up the last byte.
        self.assertEqual(accept(data, 14), (UNKNOWN, 9))
        self.assertEqual(accept(data, first=27), (0, 0))
        self.assertEqual(accept(data), (UNKNOWN, 0))
        self.assertEqual(accept(data, count=3), (CUT, 0))

    def test_no_bits(self):
        for data in (b"", b"\xff", bytes(INPUT_BYTES)):
            for first in (0, 8 * len(data)):
                self.assertEqual(accept(data, first, 0), (0, 0))
            self.assertEqual(accept(data, 8 * len(data)), (0, 0))

    def test_longest(self):
        # A mebibyte: ten bits at a time, and the last command is cut at its end.
        bits = (CAL + "0") * (8 * INPUT_BYTES // 10 + 1)
        data = packed(bits)[:INPUT_BYTES]
        place = 8 * INPUT_BYTES // 10 * 10
        self.assertEqual(accept(data), (CUT, place))
        self.assertEqual(accept(data, 0, place), (0, 0))

    def test_refused(self):
        """What is not fit has no verdict."""
        full = bytes(INPUT_BYTES)
        for arguments in (
            (b"", 0, 1),
            (b"", 1),
            (b"", 1, 0),
            (b"\xff", 0, 9),
            (b"\xff", 8, 1),
            (b"\xff", 9),
            (b"\xff", 2**64 - 1, 2**64 - 1),
            (b"\xff", 1, 2**64 - 1),
            (b"\xff", 2**64, 0),
            (b"\xff", 0, 10**30),
            (full, 8 * INPUT_BYTES, 1),
            (full + b"\0",),
            (full + b"\0", 0, 0),
        ):
            with self.assertRaises(Refused) as caught:
                accept(*arguments)
            self.assertEqual(caught.exception.number, 5)

    def test_wrong_arguments(self):
        for wrong in (-1, -(2**64)):
            self.assertRaises(ValueError, accept, b"\xff", wrong)
            self.assertRaises(ValueError, accept, b"\xff", 0, wrong)
        for wrong in (1.0, "1"):
            self.assertRaises(TypeError, accept, b"\xff", wrong)
            self.assertRaises(TypeError, accept, b"\xff", 0, wrong)
        for wrong in (None, 5, "B5", [1]):
            self.assertRaises(TypeError, accept, wrong)

    def test_bytes_like(self):
        stream = packed("0" * 7 + LV1 + BCR + "0" + BCR)
        spread = bytes(byte for octet in stream for byte in (octet, 0xFF))
        for data in (
            stream,
            bytearray(stream),
            memoryview(stream),
            memoryview(bytearray(stream)),
            memoryview(spread)[::2],
            array.array("B", stream),
            array.array("H", stream),
        ):
            self.assertEqual(accept(data), (CLOSE, 22), type(data))
            self.assertEqual(bytes(data), stream)
        for nothing in (bytearray(), memoryview(b"")):
            self.assertEqual(accept(nothing), (0, 0))

    def test_buffer_is_given_back(self):
        data = bytearray(b"\xe8")
        self.assertTrue(accept(data))
        try:
            accept(data, 0, 9)
        except Refused:
            data.extend(b"\xe8")
        self.assertEqual(len(data), 2)


class Composing(unittest.TestCase):
    """A stream from a list of orders."""

    FASTS = {0x11: BCR, 0x12: ECR, 0x14: CAL, 0x18: SYNC}
    KINDS = (0x01, *FASTS, *range(0x20, 0x27), 0x28, 0x29, 0x2A)
    FRAMES = (0x24, 0x25, 0x26)
    # Each command, with frames for CNT 0.
    COMMANDS = (
        Order.lv1(),
        Order.bcr(),
        Order.ecr(),
        Order.cal(),
        Order.sync(),
        Order.wr_register(4, 0xFFFF),
        Order.rd_register(15),
        Order.wr_fifo(0x7FFFFFF),
        Order.rd_fifo(15),
        Order.wr_front_end(b""),
        Order.rd_front_end(b""),
        Order.wr_receiver(b""),
        Order.en_data_take(),
        Order.global_reset_mcc(),
        Order.global_reset_fe(15),
    )

    def refused(self, number, order, orders, *arguments, **named):
        with self.assertRaises(Refused) as caught:
            compose(orders, *arguments, **named)
        refused = caught.exception
        self.assertEqual((refused.number, refused.order), (number, order))
        place = "" if order is None else f" at order {order}"
        text = f"refused with {number}{place}: {kernelstill.REFUSALS[number]}"
        self.assertEqual(str(refused), text)

    def asked(self, first, second):
        """The timing table, by kinds."""
        if second == 0x01:
            return 4 if first == 0x18 else 0
        return {0x11: 2, 0x12: 1}.get(first, 0)

    def length(self, kind, cnt):
        """The bits of a frame."""
        return 8 * (cnt & 0x1FFF) if kind == 0x26 else (cnt >> 3) + 8 * (cnt & 7)

    def frame(self, order):
        """A frame's bits, as 0 and 1."""
        return "".join(f"{octet:08b}" for octet in order.frame)[: order.bits]

    def sent(self, order):
        """A fit order's bits, in another way: as a text."""
        ahead, kind = "0" * order.zeros, order.kind
        if kind == 0x01:
            return ahead + LV1
        if kind in self.FASTS:
            return ahead + self.FASTS[kind]
        address = order.address if kind in (0x20, 0x21, 0x23) else 0
        cycles = 1 if kind == 0x26 else 8
        width = {0x20: 16, 0x22: 27, 0x2A: 4}.get(kind)
        field5 = {0x21: "0" * 16, 0x23: "0" * 27}.get(kind, "")
        if width:
            field5 = f"{order.value:0{width}b}"
        elif kind in self.FRAMES:
            field5 = "".join(cycles * bit for bit in self.frame(order))
        return ahead + slow(kind - 0x20, address, field5)

    def given(self, *orders, **named):
        """The stream, which is that of the texts."""
        stream = compose(orders, **named)
        bits = "".join(map(self.sent, orders))
        self.assertEqual(stream, (packed(bits), len(bits)))
        return stream

    def read_back(self, orders, plan):
        """The stream, read from an opening: a record an order, at its cycle,
        with its command, its used fields and its frame."""
        stream, decoder = compose(orders, plan), Decoder(plan)
        records = decoder.take(stream.data, 0, stream.bits)
        self.assertEqual([record.kind for record in records], [order.kind for order in orders])
        cycle = 0
        for order, record in zip(orders, records):
            cycle += len(self.sent(order))
            self.assertEqual(record.time, cycle - 1)
            self.assertEqual((record.flip, record.unsteady, record.too_close), (False,) * 3)
            if order.kind in (0x20, 0x21):
                self.assertEqual(record.value >> 16, order.address)
            if order.kind == 0x20:
                self.assertEqual(record.value & 0xFFFF, order.value)
            if order.kind == 0x22:
                self.assertEqual(record.value, order.value)
            if order.kind == 0x23:
                self.assertEqual(record.value >> 27, order.address)
            if order.kind == 0x2A:
                self.assertEqual(record.value, 2 * order.value + 1)
            if order.kind in self.FRAMES:
                self.assertEqual(record.frame_bits, order.bits)
                self.assertEqual(record.frame, packed(self.frame(order)))
        self.assertEqual((decoder.state.phase, decoder.state.window), (Phase.HUNTING, 0))
        # The zeros that fill up the last byte add no record.
        self.assertEqual(decoder.take(stream.data, stream.bits), [])
        return records

    def random_orders(self, random_, plan, count):
        """Fit orders, with something in each unused field."""
        orders, last, cnt = [], None, 0
        for _ in range(count):
            kind = random_.choice(self.KINDS)
            asked = self.asked(last, kind) if orders else 0
            zeros = asked + random_.choice((0, 0, 0, 1, 2, random_.randrange(40)))
            address, value = random_.getrandbits(64), random_.getrandbits(64)
            frame, bits = random_.getrandbits(16).to_bytes(2, "big"), random_.getrandbits(64)
            if kind in (0x20, 0x21, 0x23):
                address = random_.choice((plan.cnt, random_.randrange(16)))
            if kind in (0x20, 0x22, 0x2A):
                value = random_.getrandbits({0x20: 16, 0x22: 27, 0x2A: 4}[kind])
            if kind == 0x20 and address == plan.cnt:
                value = random_.choice((0, 1, 2, 8, 9, 0x42, 0x51, 0x2003, 0xFF))
            if kind in self.FRAMES:
                bits = self.length(kind, cnt)
                # Bits past the count are not looked at.
                size = (bits + 7) // 8 + random_.randrange(2)
                frame = bytes(random_.getrandbits(8) for _ in range(size))
            orders.append(Order(kind, zeros, address, value, frame, bits))
            if kind == 0x20 and address == plan.cnt:
                cnt = value
            if kind == 0x29:
                cnt = 0
            last = kind
        return orders

    def test_nothing(self):
        self.assertEqual(compose([]), Stream(b"", 0))
        self.assertEqual(compose([], limit=0), (b"", 0))

    def test_constructors(self):
        """One for each kind that a command has, by its name."""
        self.assertEqual([order.kind for order in self.COMMANDS], list(self.KINDS))
        names = [name for name in kernelstill.KINDS.values() if not name.startswith("bad")]
        self.assertEqual([order.name for order in self.COMMANDS], names)
        given = {name for name in vars(Order) if not name.startswith("_")}
        plain = {re.sub("_", "", name) for name in given - {*Order._fields, "name"}}
        self.assertEqual(plain, {name.lower() for name in names})
        for order in self.COMMANDS:
            self.assertEqual((order.zeros, order.frame, order.bits), (0, b"", 0))
        self.assertEqual(Order(0x77).name, "kind 77")

    def test_fields(self):
        """Where each constructor puts what it is given."""
        self.assertEqual(Order.sync(zeros=7), (0x18, 7, 0, 0, b"", 0))
        self.assertEqual(Order.wr_register(5, 0x82, zeros=7), (0x20, 7, 5, 0x82, b"", 0))
        self.assertEqual(Order.rd_register(5, zeros=7), (0x21, 7, 5, 0, b"", 0))
        self.assertEqual(Order.wr_fifo(0x1234567, zeros=7), (0x22, 7, 0, 0x1234567, b"", 0))
        self.assertEqual(Order.rd_fifo(5, zeros=7), (0x23, 7, 5, 0, b"", 0))
        self.assertEqual(Order.global_reset_fe(5, zeros=7), (0x2A, 7, 0, 5, b"", 0))
        for kind, made in zip(
            self.FRAMES, (Order.wr_front_end, Order.rd_front_end, Order.wr_receiver)
        ):
            self.assertEqual(made(b"\xa5\xc3", zeros=7), (kind, 7, 0, 0, b"\xa5\xc3", 16))
            self.assertEqual(made(b"\xa5\xc3", 9), (kind, 0, 0, 0, b"\xa5\xc3", 9))
            self.assertEqual(made(b"\xa5\xc3", bits=0), (kind, 0, 0, 0, b"\xa5\xc3", 0))
        # The zeros go by name.
        self.assertRaises(TypeError, Order.lv1, 7)
        self.assertRaises(TypeError, Order.rd_register, 5, 7)
        self.assertRaises(TypeError, Order.wr_receiver, b"", 0, 7)

    def test_each_command(self):
        for order in self.COMMANDS:
            for zeros in (0, 1, 7, 8, 100):
                self.given(order._replace(zeros=zeros))
                self.given(Order.cal(), order._replace(zeros=zeros), Order.cal(zeros=4))

    def test_each_value(self):
        for value in (0, 1, 2, 0x5055, 0x8000, 0xFFFF):
            for address in range(16):
                self.given(Order.wr_register(address, value))
        for word in (0, 1, 0x1234567, 1 << 26, (1 << 27) - 1):
            self.given(Order.wr_fifo(word))
        for number in range(16):
            self.given(Order.rd_register(number))
            self.given(Order.rd_fifo(number))
            self.given(Order.global_reset_fe(number))

    def test_bytes(self):
        """Document 01's listing, without its flip."""
        stream = compose([Order.en_data_take(), Order.lv1(), Order.bcr(zeros=3)])
        self.assertEqual(stream, Stream(data=hex_line("B5C0745840"), bits=34))
        self.assertEqual((stream.data, stream.bits), tuple(stream))

    def test_unused_fields(self):
        """They are not looked at, and sent as zeros."""
        wide = {"address": 2**64 - 1, "value": 2**64 - 1, "frame": b"\xff", "bits": 2**64 - 1}
        used = {0x20: ("address", "value"), 0x22: ("value",), 0x2A: ("value",)}
        used.update({0x21: ("address",), 0x23: ("address",)})
        used.update(dict.fromkeys(self.FRAMES, ("frame", "bits")))
        for order in self.COMMANDS:
            unused = {n: word for n, word in wide.items() if n not in used.get(order.kind, ())}
            self.assertEqual(compose([order._replace(**unused)]), self.given(order))

    def test_unknown_commands(self):
        for kind in set(range(512)) - set(self.KINDS):
            self.refused(9, 0, [Order(kind)])
            self.refused(9, 1, [Order.lv1(), Order(kind)])
        for kind in self.KINDS:
            for large in (kind + 256, kind + 2**32, kind + 2**63, kind + 2**64):
                self.refused(9, 0, [Order(large)])

    def test_wrong_fields(self):
        for large in (16, 2**16, 2**32, 2**64 - 1, 2**64, 2**64 + 1, 10**30):
            self.refused(9, 0, [Order.wr_register(large, 0)])
            self.refused(9, 1, [Order.lv1(), Order.rd_register(large)])
            self.refused(9, 2, [Order.lv1()] * 2 + [Order.rd_fifo(large)])
            self.refused(9, 0, [Order.global_reset_fe(large)])
        for large in (2**16, 2**27, 2**64 + 1):
            self.refused(9, 0, [Order.wr_register(0, large)])
        for large in (2**27, 2**32 + 1, 2**64 + 1):
            self.refused(9, 0, [Order.wr_fifo(large)])

    def test_missing_register(self):
        (record,) = self.read_back([Order.wr_register(15, 0x1234)], Plan())
        self.assertTrue(record.missing)

    def test_frames(self):
        """Each has just the bits that CNT asks."""
        octets = bytes(range(1, 255)) * 5
        for cnt in (0, 1, 7, 8, 9, 0x42, 0x80, 0x82, 0x2001, 0xFFFF):
            ahead = Order.wr_register(5, cnt)
            for made, kind in ((Order.wr_front_end, 0x24), (Order.rd_front_end, 0x25)):
                bits = self.length(kind, cnt)
                self.given(ahead, made(octets, bits))
                self.given(ahead, made(octets[: (bits + 7) // 8], bits, zeros=3), Order.lv1())
                for wrong in {bits - 1, bits + 1, 8 * bits, 0, 2**64} - {bits, -1}:
                    self.refused(9, 1, [ahead, made(octets, wrong)])
        for cnt in (0, 1, 2, 0x2000, 0x2001, 0xE003, 0x1FFF, 0xFFFF):
            octets, bits = bytes(8191), self.length(0x26, cnt)
            ahead = Order.wr_register(5, cnt)
            self.given(ahead, Order.wr_receiver(octets, bits))
            for wrong in {bits - 8, bits - 1, bits + 1, bits + 8, 0} - {bits, -1, -8}:
                self.refused(9, 1, [ahead, Order.wr_receiver(octets, wrong)])

    def test_longest_frame(self):
        size = 1031
        octets = random.Random(10).getrandbits(8 * size).to_bytes(size, "big")
        orders = [Order.wr_register(5, 0xFFFF), Order.rd_front_end(octets, 8247)]
        *_, record = self.read_back(orders, Plan())
        self.assertEqual((record.value, record.frame[:-1]), (0x00381FFF, octets[:-1]))

    def test_fewer_bits_lent(self):
        """The bits of another order's frame do not serve for them."""
        ahead, whole = Order.wr_register(5, 2), Order.wr_receiver(b"\xa5\xc3")
        for octets in (b"", b"\xa5"):
            cut = Order.wr_receiver(octets, 16)
            self.refused(9, 1, [ahead, cut])
            self.refused(9, 1, [ahead, cut, whole])
            self.refused(9, 2, [ahead, whole, cut])
            self.refused(9, 2, [ahead, whole, cut, whole, whole])

    def test_frame_of_no_bits(self):
        for octets in (b"", b"\xff"):
            self.given(Order.wr_front_end(octets, 0), Order.wr_receiver(octets, 0))
        # A high CNT can ask none of a WrReceiver.
        self.given(Order.wr_register(5, 0x2000), Order.wr_receiver(b""))

    def test_bytes_like_frames(self):
        octets = bytes(range(200, 208))
        spread = bytes(byte for octet in octets for byte in (octet, 0xFF))
        ahead = Order.wr_register(5, 8)
        whole = compose([ahead, Order.wr_receiver(octets)])
        for frame in (
            bytearray(octets),
            memoryview(octets),
            memoryview(spread)[::2],
            array.array("B", octets),
            array.array("H", octets),
        ):
            order = Order.wr_receiver(frame)
            self.assertEqual(order, Order.wr_receiver(octets))
            self.assertEqual(compose([ahead, order]), whole)
            self.assertEqual(compose([ahead, order._replace(frame=frame)]), whole)
        for wrong in (None, 5, "A5", [1, 0]):
            self.assertRaises(TypeError, Order.wr_receiver, wrong)
            self.assertRaises(TypeError, compose, [ahead, order._replace(frame=wrong)])

    def test_frame_is_copied(self):
        octets = bytearray(b"\xa5\xc3")
        order = Order.wr_receiver(octets)
        octets[:] = b""
        self.assertEqual((order.frame, order.bits), (b"\xa5\xc3", 16))

    def test_cnt(self):
        """It is followed by the plan's address, over resets."""
        frame = Order.wr_receiver(b"\xa5")
        self.refused(9, 0, [frame])
        self.refused(9, 1, [Order.wr_register(4, 1), frame])
        self.refused(9, 1, [Order.rd_register(5), frame])
        self.given(Order.wr_register(5, 1), Order.wr_register(4, 9), frame, frame)
        self.given(Order.wr_register(5, 9), Order.wr_register(5, 1), frame)
        self.refused(9, 2, [Order.wr_register(5, 1), Order.global_reset_mcc(), frame])
        self.given(Order.wr_register(5, 1), Order.global_reset_mcc(), Order.wr_receiver(b""))
        self.given(Order.wr_register(5, 1), Order.global_reset_fe(15), frame)
        other = Plan(0xFFFF, 0, 2, 4)
        self.given(Order.wr_register(5, 9), Order.wr_register(4, 1), frame, plan=other)
        self.refused(9, 1, [Order.wr_register(5, 1), frame], other)

    def test_each_pair(self):
        """With fewer zeros than the timing table asks it is refused."""
        for first in self.COMMANDS:
            for second in self.COMMANDS:
                for zeros in range(6):
                    orders = Order.cal(), first, second._replace(zeros=zeros)
                    if zeros < self.asked(first.kind, second.kind):
                        self.refused(10, 2, orders)
                    else:
                        self.given(*orders)

    def test_first_refusal(self):
        """The plan, then order by order 9 and then 10, last of all 11."""
        wrong, close, long = Order(0), [Order.bcr(), Order.bcr(zeros=1)], Order.lv1(zeros=2**63)
        plan = Plan(csr=2)
        for orders in ([], [wrong], close, [long]):
            self.refused(1, None, orders, plan)
        self.refused(10, 1, close + [wrong])
        self.refused(9, 0, [wrong] + close)
        self.refused(9, 1, [Order.bcr(), wrong])
        self.refused(9, 1, [Order.bcr(), Order.rd_register(16)])
        self.refused(9, 1, [long, wrong])
        self.refused(10, 2, [long] + close)
        self.refused(11, None, [long])
        self.refused(11, None, [Order.lv1()], limit=0)

    def test_plans(self):
        for wrong in (Plan(0x007F, cnt=7), Plan(cnt=2**64), Plan(mask=2**16 + 0x07FF)):
            self.refused(1, None, [Order.lv1()], wrong)
        self.given(Order.lv1(), plan=[0xE000, 13, 14, 15])
        for wrong in ((), (0x07FF, 0, 2), Plan(csr=-1)):
            self.assertRaises(ValueError, compose, [], wrong)
        for wrong in (None, 0x07FF, "plan", Plan(csr=None)):
            self.assertRaises(TypeError, compose, [], wrong)

    def test_limit(self):
        for zeros in range(20):
            orders = [Order.lv1(zeros=zeros), Order.cal()]
            size = (zeros + 5 + 9 + 7) // 8
            for limit in (size, size + 1, INPUT_BYTES, 2**48, 2**64, 10**30):
                self.given(*orders, limit=limit)
            self.refused(11, None, orders, limit=size - 1)
        # Orders whose sizes are reckoned too high.
        self.given(*[Order.lv1()] * 1000, limit=625)
        self.refused(11, None, [Order.lv1()] * 1000, limit=624)

    def test_longest(self):
        bits = 8 * INPUT_BYTES
        stream = compose([Order.lv1(zeros=bits - 10), Order.lv1()])
        self.assertEqual(stream, (bytes(INPUT_BYTES - 2) + b"\x03\xbd", bits))
        self.refused(11, None, [Order.lv1(zeros=bits - 9), Order.lv1()])
        stream = compose([Order.lv1(zeros=bits)], limit=INPUT_BYTES + 1)
        self.assertEqual(stream, (bytes(INPUT_BYTES) + b"\xe8", bits + 5))

    def test_many_zeros(self):
        """Sums near 2^64 do not wrap, and no room is made for them."""
        for zeros in (2**47, CLOCK_LIMIT - 4, CLOCK_LIMIT + 1, 2**63, 2**64 - 1, 2**64, 10**30):
            for orders in (
                [Order.lv1(zeros=zeros)],
                [Order.lv1(zeros=zeros)] * 2,
                [Order.lv1(zeros=zeros), Order.lv1(zeros=2**64 - zeros % 2**64)],
            ):
                self.refused(11, None, orders)
                if zeros > CLOCK_LIMIT:
                    self.refused(11, None, orders, limit=2**64)

    def test_read_back(self):
        random_ = random.Random(11)
        for count in [1, 2, 3, 5, 20] * 8 + [300]:
            csr, feen, cnt = random_.sample(range(16), 3)
            plan = Plan(random_.getrandbits(16) | 1 << csr | 1 << feen | 1 << cnt, csr, feen, cnt)
            self.read_back(self.random_orders(random_, plan, count), plan)

    def test_example(self):
        """The session of docs/USING.md has every command."""
        lines = (ROOT / "examples/orders.txt").read_bytes().splitlines()
        orders = list(filter(None, map(order_of, lines)))
        self.read_back(orders, Plan())
        self.assertEqual({order.kind for order in orders}, set(self.KINDS))

    def test_as_a_text(self):
        random_ = random.Random(12)
        self.given(*self.random_orders(random_, Plan(), 500))

    def test_refused_at_each_order(self):
        random_ = random.Random(13)
        orders = self.random_orders(random_, Plan(), 60)
        for at in range(1, 60):
            ahead, behind = orders[:at], orders[at + 1 :]
            self.refused(9, at, ahead + [Order(0x1F)] + behind)
            if self.asked(ahead[-1].kind, orders[at].kind):
                self.refused(10, at, ahead + [orders[at]._replace(zeros=0)] + behind)

    def test_accepted(self):
        """Triggers and Fasts alone are a stream that `accept` accepts."""
        random_ = random.Random(14)
        for count in list(range(20)) + [2000]:
            orders, last = [], None
            for _ in range(count):
                kind = random_.choice((0x01, *self.FASTS))
                zeros = self.asked(last, kind) + random_.choice((0, 0, 1, 9))
                orders.append(Order(kind, zeros))
                last = kind
            stream = self.given(*orders)
            self.assertTrue(accept(stream.data, 0, stream.bits))
            self.assertTrue(accept(stream.data))
        stream = compose([Order.lv1(), Order.rd_register(0, zeros=1)])
        self.assertEqual(accept(stream.data, 0, stream.bits), (UNKNOWN, 6))

    def test_any_iterable(self):
        orders = Order.lv1(), Order.cal()
        for given in (list(orders), iter(orders), (order for order in orders)):
            self.assertEqual(compose(given), compose(orders))

    def test_wrong_arguments(self):
        for wrong in (None, 5, Order.lv1(), [None], [5], ["lv1"], [(1, 0, 0, 0, b"", 0)]):
            self.assertRaises(TypeError, compose, wrong)
        for name in ("kind", "zeros", "address", "value", "bits"):
            for wrong in (-1, -(2**64)):
                self.assertRaises(ValueError, compose, [Order.lv1()._replace(**{name: wrong})])
            for wrong in (1.0, "1", None):
                self.assertRaises(TypeError, compose, [Order.lv1()._replace(**{name: wrong})])
        self.assertRaises(ValueError, compose, [], limit=-1)
        self.assertRaises(TypeError, compose, [], limit=1.0)
        self.assertRaises(TypeError, compose, [], Plan(), 5)

    def test_pickles(self):
        for value in (Order.wr_receiver(b"\xa5", 3), compose([Order.lv1()])):
            self.assertEqual(pickle.loads(pickle.dumps(value)), value)
        refused = pickle.loads(pickle.dumps(Refused(9, 7)))
        self.assertEqual((refused.number, refused.order), (9, 7))
        self.assertEqual(str(refused), str(Refused(9, 7)))


class Replies(unittest.TestCase):
    """The reply on the line back from the chip."""

    HEADER = "11101"
    MOST = 8191

    def vote(self, group):
        ones = group.count("1")
        return "1" if ones > 4 or (ones == 4 and group[0] == "1") else "0"

    def said(self, line, bits):
        """The reply, in another way: over the text."""
        if self.HEADER not in line:
            return ReplyVerdict.NO_HEADER, b"", 0
        behind = line[line.index(self.HEADER) + 5 :]
        groups = [behind[at : at + 8] for at in range(0, 8 * bits, 8)]
        complete = [self.vote(group) for group in groups if len(group) == 8]
        verdict = ReplyVerdict.WHOLE if len(complete) == bits else ReplyVerdict.CUT_SHORT
        return verdict, packed("".join(complete)), len(complete)

    def given(self, line, bits):
        """The reply in a string of 0 and 1, with other bits about it."""
        reply = read_reply(packed(line), bits, 0, len(line))
        self.assertEqual(reply, read_reply(packed("11011" + line + "1101"), bits, 5, len(line)))
        whole = reply.verdict == ReplyVerdict.WHOLE
        self.assertEqual((reply.whole, bool(reply)), (whole, whole))
        self.assertEqual(len(reply.data), (reply.bits + 7) // 8)
        return reply

    def sent(self, data):
        return self.HEADER + "".join(8 * bit for bit in data)

    def refused(self, number, *arguments):
        with self.assertRaises(Refused) as caught:
            read_reply(*arguments)
        self.assertEqual(caught.exception.number, number)
        self.assertIn(kernelstill.REFUSALS[number], str(caught.exception))

    def test_reply(self):
        reply = self.given("000" + self.sent("101"), 3)
        self.assertEqual(reply, (ReplyVerdict.WHOLE, b"\xa0", 3))
        self.assertEqual((reply.verdict.name, reply.data, reply.bits), ("WHOLE", b"\xa0", 3))
        self.assertEqual(
            repr(reply), "Reply(verdict=<ReplyVerdict.WHOLE: 0>, data=b'\\xa0', bits=3)"
        )
        self.assertEqual(pickle.loads(pickle.dumps(reply)), reply)

    def test_each_count(self):
        random_ = random.Random(12)
        for bits in [*range(1, 40), 1000, 8190, 8191]:
            data = "".join(random_.choices("01", k=bits))
            reply = self.given("0" * 3 + self.sent(data), bits)
            self.assertEqual(reply, (ReplyVerdict.WHOLE, packed(data), bits))

    def test_cut_at_each_place(self):
        line = "0011" + self.sent("1011001")
        for count in range(len(line) + 1):
            reply = self.given(line[:count], 7)
            self.assertEqual(reply, self.said(line[:count], 7), count)
        verdicts = [self.given(line[:count], 7).verdict.name for count in (7, 8, 9, 64, 65)]
        self.assertEqual(verdicts, 2 * ["NO_HEADER"] + 2 * ["CUT_SHORT"] + ["WHOLE"])

    def test_every_group(self):
        for group in range(256):
            text = f"{group:08b}"
            reply = self.given(self.HEADER + "1" * 8 + text + "0" * 8, 3)
            self.assertEqual(reply.data, packed("1" + self.vote(text) + "0"), text)

    def test_header(self):
        """Exact, at its first place, and never sought again."""
        for near in ("01101", "10101", "11001", "11111", "11100"):
            self.assertEqual(self.given("0000" + near + "00000000", 1).verdict.name, "NO_HEADER")
        # With its last bit a second would begin, and in the data stands another.
        self.assertEqual(self.given("11101110111000000", 1), (0, b"\x80", 1))
        self.assertEqual(self.given("1111101" + "00000000" + self.sent("1"), 1), (0, b"\0", 1))
        self.assertEqual(self.given("", 1), (ReplyVerdict.NO_HEADER, b"", 0))
        self.assertEqual(self.given(self.HEADER, 1), (ReplyVerdict.CUT_SHORT, b"", 0))

    def test_random_lines(self):
        random_ = random.Random(13)
        verdicts = set()
        for _ in range(3000):
            line = "".join(random_.choices("01", k=random_.randrange(60)))
            if random_.random() < 0.6:
                data = random_.choices("01", k=random_.randrange(30))
                line += self.sent(data) + "0" * random_.randrange(9)
            cycles = [bit if random_.random() < 0.9 else random_.choice("01") for bit in line]
            line = "".join(cycles)
            bits = random_.randrange(1, 33)
            reply = self.given(line, bits)
            self.assertEqual(reply, self.said(line, bits), line)
            verdicts.add(reply.verdict)
        self.assertEqual(verdicts, set(ReplyVerdict))

    def test_as_composed(self):
        """A frame of RdFrontEnd lasts as long as a reply's data, bit by bit."""
        frame = b"\xa5\xc3\x5a"
        orders = [Order.wr_register(5, 24 << 3), Order.rd_front_end(frame)]
        stream = compose(orders)
        # Field 5 begins 33 + 17 bits in; the header goes ahead of it.
        first = 33 + 17 - 5
        bits = "".join(f"{octet:08b}" for octet in stream.data)
        line = packed(bits[:first] + self.HEADER + bits[first + 5 :])
        self.assertEqual(read_reply(line, 24, first), (ReplyVerdict.WHOLE, frame, 24))

    def test_page(self):
        """The example of docs/USING.md."""
        page = (ROOT / "docs/USING.md").read_text()
        (example,) = re.findall(r"^```python\n(.*?)^```$", page, re.DOTALL | re.MULTILINE)
        parsed = doctest.DocTestParser().get_doctest(example, {}, "USING.md", None, 0)
        outcome = doctest.DocTestRunner(verbose=False).run(parsed)
        self.assertEqual((outcome.failed, outcome.attempted), (0, 7))

    def test_range(self):
        line = packed(self.sent("10") + self.sent("01"))
        self.assertEqual(read_reply(line, 2), (ReplyVerdict.WHOLE, b"\x80", 2))
        self.assertEqual(read_reply(line, 2, 1), (ReplyVerdict.WHOLE, b"\x40", 2))
        self.assertEqual(read_reply(line, 2, first=21), (ReplyVerdict.WHOLE, b"\x40", 2))
        self.assertEqual(read_reply(line, 2, count=20), (ReplyVerdict.CUT_SHORT, b"\x80", 1))
        self.assertEqual(read_reply(line, bits=2, first=22), (ReplyVerdict.NO_HEADER, b"", 0))

    def test_longest(self):
        data = bytes(INPUT_BYTES - 8) + packed(self.sent("1011001"))
        self.assertEqual(len(data), INPUT_BYTES)
        self.assertEqual(read_reply(data, 7), (ReplyVerdict.WHOLE, b"\xb2", 7))
        self.assertEqual(read_reply(data, 8), (ReplyVerdict.CUT_SHORT, b"\xb2", 7))

    def test_refused(self):
        full = bytes(INPUT_BYTES)
        for wrong in (0, self.MOST + 1, 2**16 + 1, 2**32 + 1, 2**64 - 1, 2**64 + 1, 10**30):
            self.refused(18, b"\xff", wrong)
            # Ahead of the range.
            self.refused(18, full + b"\0", wrong, 2**64 - 1, 2**64 - 1)
        for bits in (1, self.MOST):
            for arguments in (
                (b"", bits, 0, 1),
                (b"", bits, 1),
                (b"", bits, 1, 0),
                (b"\xff", bits, 0, 9),
                (b"\xff", bits, 9),
                (b"\xff", bits, 2**64 - 1, 2**64 - 1),
                (b"\xff", bits, 1, 2**64 - 1),
                (b"\xff", bits, 2**64, 0),
                (b"\xff", bits, 0, 10**30),
                (full, bits, 8 * INPUT_BYTES, 1),
                (full + b"\0", bits),
                (full + b"\0", bits, 0, 0),
            ):
                self.refused(5, *arguments)

    def test_small_buffer(self):
        # Only the library can be lent one.
        buffer = (ctypes.c_uint8 * 2)(0x5A, 0x5A)
        line = packed(self.sent("1" * 17))
        answer = kernelstill._library.kernelstill_reply(line, len(line), 0, 9**9, 17, buffer, 2)
        self.assertEqual((answer, bytes(buffer)), (19, b"ZZ"))
        self.assertIn("cannot hold", str(Refused(answer)))

    def test_wrong_arguments(self):
        for wrong in (-1, -(2**64)):
            self.assertRaises(ValueError, read_reply, b"\xff", wrong)
            self.assertRaises(ValueError, read_reply, b"\xff", 1, wrong)
            self.assertRaises(ValueError, read_reply, b"\xff", 1, 0, wrong)
        for wrong in (1.0, "1"):
            self.assertRaises(TypeError, read_reply, b"\xff", wrong)
            self.assertRaises(TypeError, read_reply, b"\xff", 1, wrong)
            self.assertRaises(TypeError, read_reply, b"\xff", 1, 0, wrong)
        for wrong in (None, 5, "B5", [1]):
            self.assertRaises(TypeError, read_reply, wrong, 1)
        self.assertRaises(TypeError, read_reply, b"\xff")
        self.assertRaises(TypeError, read_reply, b"\xff", None)

    def test_bytes_like(self):
        line = packed("0" * 3 + self.sent("1011001"))
        spread = bytes(byte for octet in line for byte in (octet, 0xFF))
        for data in (
            line,
            bytearray(line),
            memoryview(line),
            memoryview(bytearray(line)),
            memoryview(spread)[::2],
            array.array("B", line),
            array.array("H", line),
        ):
            self.assertEqual(read_reply(data, 7), (ReplyVerdict.WHOLE, b"\xb2", 7), type(data))
            self.assertEqual(bytes(data), line)
        for nothing in (bytearray(), memoryview(b"")):
            self.assertEqual(read_reply(nothing, 1), (ReplyVerdict.NO_HEADER, b"", 0))

    def test_buffer_is_given_back(self):
        data = bytearray(packed(self.sent("1")))
        self.assertTrue(read_reply(data, 1))
        try:
            read_reply(data, 1, 0, 99)
        except Refused:
            data.extend(b"\xe8")
        self.assertEqual(len(data), 3)


class States(unittest.TestCase):
    def test_start(self):
        state = Decoder(Plan(0x00FF, 1, 3, 7), 12).state
        self.assertEqual(state.plan, Plan(0x00FF, 1, 3, 7))
        self.assertEqual((state.next_cycle, state.base), (12, 12))
        self.assertEqual((state.phase, state.window), (Phase.HUNTING, 0))
        self.assertEqual((state.run_mode, state.l1id), (False, 0))
        self.assertEqual(state.warnings, (False, False, False))
        self.assertEqual((state.earlier_time, state.earlier_kind), (0, 0))
        for sixteen in (state.registers, state.write_pointers, state.read_pointers):
            self.assertEqual(sixteen, (0,) * 16)

    def test_registers_of_the_plan(self):
        """The default plan has the registers 0 to 10; 007F, by name, 0 to 6."""
        for plan, registers in ((Plan(), 11), (Plan(0x007F), 7)):
            for address in range(16):
                decoder, exists = Decoder(plan), address < registers
                (record,) = decoder.take(*at_bit_0(wr_register(address, 0x5055)))
                self.assertEqual((record.acted_on, record.missing), (exists, not exists))
                self.assertEqual(decoder.state.register(address), 0x5055 if exists else 0)

    def test_phases(self):
        decoder, phases = Decoder(), []
        for bit in wr_register(5, 0x1234):
            phases.append(decoder.state.phase)
            decoder.take(*at_bit_0(bit))
        lengths = zip(Phase, (5, 4, 4, 4, 16))
        self.assertEqual(phases, [phase for phase, length in lengths for _ in range(length)])
        self.assertEqual(decoder.state.phase, Phase.HUNTING)

    def test_inside_a_command(self):
        decoder = Decoder()
        data = packed(wr_register(5, 0x1234))
        decoder.take(data, 0, 4)
        self.assertEqual(decoder.state.window, 0b01011)
        decoder.take(data, 4, 23)
        state = decoder.state
        self.assertEqual((state.phase, state.window), (Phase.FIELD_5, None))
        self.assertEqual((state.field3, state.field4), (0, 5))
        self.assertEqual((state.received, state.held), (10, 0x1234 >> 6))
        self.assertEqual((state.next_cycle, state.registers[5]), (27, 0))

    def test_end_of_the_capture(self):
        decoder = Decoder()
        decoder.take(CAPTURE)
        state = decoder.state
        self.assertEqual(state.next_cycle, 8 * len(CAPTURE))
        self.assertEqual(state.warnings, (True, True, True))
        self.assertEqual((state.register(0), state.register(2), state.register(5)), (0x0700, 3, 2))
        self.assertEqual((state.l1id, state.base, state.run_mode), (6, 0x8EA, False))
        self.assertEqual((state.earlier_time, state.earlier_kind), (0xB0C, 0x23))
        self.assertEqual(decoder.fifo(0)[:3], (0x0000ABCD, 0x07FF0001, 0))
        self.assertEqual(len(decoder.fifo(15)), 128)
        self.assertEqual(state.fifos, tuple(map(decoder.fifo, range(16))))

    def test_text(self):
        """As `model` prints it, FIFO words included."""
        decoder = Decoder()
        decoder.take(CAPTURE)
        model = (ROOT / "tests/golden/capture/capture.model").read_text().splitlines()
        lines = str(decoder.state).splitlines()
        self.assertEqual(lines, model[-len(lines) :])
        self.assertEqual(lines[0], "register 0 0700")
        self.assertIn("word 0 01 07FF0001", lines)
        # A word is shown as it is stored.
        decoder._store[-1] = 0xFFFFFFFF
        self.assertEqual(str(decoder.state).splitlines()[-1], "word F 7F FFFFFFFF")

    def test_read_only_and_readable(self):
        decoder = Decoder()
        state = decoder.state
        with self.assertRaises(dataclasses.FrozenInstanceError):
            state.l1id = 1
        decoder.take(CAPTURE)
        self.assertEqual(state, Decoder().state)
        self.assertIn("phase=<Phase.HUNTING: 0>", repr(state))
        self.assertEqual(repr(decoder), f"<Decoder, next cycle {8 * len(CAPTURE)}, HUNTING>")

    def test_names(self):
        names = {record.name for record in Decoder().take(CAPTURE)}
        self.assertEqual(names, set(kernelstill.KINDS.values()))
        self.assertEqual(Record(0, 0x77, 0, 0).name, "kind 77")


class Saving(unittest.TestCase):
    def test_at_every_byte(self):
        """Commands and frames are cut at all their bytes."""
        whole = Decoder()
        records = whole.take(CAPTURE)
        for cut in range(len(CAPTURE) + 1):
            decoder = Decoder()
            taken = decoder.take(CAPTURE[:cut])
            resumed = Decoder.resume(decoder.save())
            self.assertEqual(resumed.state, decoder.state)
            self.assertEqual(taken + resumed.take(CAPTURE[cut:]), records, cut)
            self.assertEqual(resumed.save(), whole.save(), cut)

    def test_form(self):
        decoder = Decoder(cycle=258)
        decoder.take(CAPTURE)
        saved = decoder.save()
        self.assertEqual(len(saved), 8 * 70 + 4 * 2048 + 8192)
        self.assertEqual(int.from_bytes(saved[:8], "little"), 3)
        self.assertEqual(int.from_bytes(saved[40:48], "little"), 258 + 8 * len(CAPTURE))
        self.assertEqual(struct.unpack_from("<128I", saved, 560), decoder.fifo(0))
        self.assertEqual(saved[560 + 8192 :][:2], b"\xa5\xc3")

    def test_bytes_like(self):
        decoder = Decoder()
        decoder.take(CAPTURE, 0, 1001)
        saved = decoder.save()
        spread = bytes(byte for octet in saved for byte in (octet, 0xFF))
        for other in (bytearray(saved), memoryview(saved), memoryview(spread)[::2]):
            self.assertEqual(Decoder.resume(other).save(), saved)
        for wrong in (None, 5, "saved"):
            self.assertRaises(TypeError, Decoder.resume, wrong)

    def test_copies_are_apart(self):
        decoder = Decoder()
        decoder.take(CAPTURE, 0, 1001)
        pickled = pickle.loads(pickle.dumps(decoder))
        for other in (copy.copy(decoder), copy.deepcopy(decoder), pickled):
            before = decoder.save()
            self.assertEqual(other.save(), before)
            other.take(CAPTURE, 1001)
            self.assertEqual(decoder.save(), before)
        refused = pickle.loads(pickle.dumps(Refused(5)))
        self.assertEqual((refused.number, str(refused)), (5, str(Refused(5))))


if __name__ == "__main__":
    unittest.main()
