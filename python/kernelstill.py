"""Kernelstill: a verified reader of the command line of the MCC-I2.1, the
controller chip of pixel-detector modules.

A `Decoder` takes the line's bits, one a clock cycle, and gives a `Record` for
each command or error. Wherever the bits are cut into calls, the records are
the same. Here the first call ends inside the second trigger:

>>> from kernelstill import Decoder, Order, Refused, accept, compose, hex_line, read_reply
>>> capture = hex_line("B5C074") + hex_line("E0B080")
>>> decoder = Decoder()
>>> for record in decoder.take(capture, 0, 26) + decoder.take(capture, 26):
...     print(record, record.name)
000000000010 28 01 00000000 EnDataTake
000000000015 01 05 00000015 LV1
00000000001C 01 07 0005011C LV1
000000000028 11 01 00000000 BCR

What the commands leave behind:

>>> state = decoder.state
>>> state.next_cycle, state.phase.name, state.run_mode, state.l1id, state.base
(48, 'HUNTING', True, 2, 40)
>>> state.warnings
Warnings(wlv1=True, wfst=False, wslw=False)

A frame comes as bytes; this one is cut by the lines:

>>> decoder = Decoder()
>>> for line in "B58280015AD829", "70C0":
...     for record in decoder.take(hex_line(line)):
...         print(record.time, record.name, record.frame_bits, record.frame)
32 WrRegister 0 b''
65 WrReceiver 16 b'\\xa5\\xc3'

A refusal is an exception with its number, and leaves all as it was. Here the
digits are in lower case, and then a bit is asked for that is not there:

>>> try:
...     hex_line("b5c0")
... except Refused as refused:
...     print(refused.number, "-", refused)
7 - refused with 7: a character is not 0-9 or A-F
>>> try:
...     decoder.take(b"", 0, 1)
... except Refused as refused:
...     print(refused.number, "-", refused)
5 - refused with 5: the input is over 1,048,576 bytes, or the range passes its end

`accept` checks a finished stream of triggers and Fasts. Here two BCRs have one
zero between them, and the timing table asks two:

>>> accept(hex_line("B0AC20"))
Verdict(number=15, place=10)

`compose` writes a stream from a list of orders. Here CNT asks 16 bits of the
frame, and two zeros lie ahead of the trigger:

>>> orders = [Order.wr_register(5, 0x0080), Order.wr_front_end(b"\\xa5\\xc3")]
>>> stream = compose(orders + [Order.en_data_take(), Order.lv1(zeros=2)])
>>> for record in Decoder().take(stream.data, 0, stream.bits):
...     print(record.time, record.name, record.frame)
32 WrRegister b''
177 WrFrontEnd b'\\xa5\\xc3'
194 EnDataTake b''
201 LV1 b''

`read_reply` reads the chip's reply to RdFrontEnd on the line back from it: the
header 11101, and then data bits, each for eight cycles. Here three zeros lie
ahead of the header, and a cycle is hit in each of the first two bits:

>>> reply = read_reply(hex_line("1DFB04FF"), 3)
>>> reply.verdict.name, f"{reply.data[0]:08b}", reply.bits
('WHOLE', '10100000', 3)

The library is the file that KERNELSTILL_LIBRARY names, or else
lib/libkernelstill.so beside this module's folder, where host/build puts it.
"""

from __future__ import annotations

import ctypes
import enum
import operator
import os
import pathlib
import struct
from dataclasses import dataclass, field
from typing import Any, BinaryIO, Iterable, Iterator, List, NamedTuple, Optional, Tuple, Union

__all__ = [
    "CLOCK_LIMIT",
    "INPUT_BYTES",
    "KINDS",
    "REFUSALS",
    "BytesLike",
    "Decoder",
    "Order",
    "Phase",
    "Plan",
    "Record",
    "Refused",
    "Reply",
    "ReplyVerdict",
    "State",
    "Stream",
    "Verdict",
    "Warnings",
    "accept",
    "compose",
    "hex_line",
    "read_reply",
]

__version__ = "1.11.0"

# As kernelstill.h has them.
CLOCK_LIMIT = 1 << 48
INPUT_BYTES = 1_048_576
_LAYOUT = 3
_IMAGE_WORDS = 70
_STORE_WORDS = 2_048
_TRAY_BYTES = 8_192
_RESULT_WORDS = 3
_RECORD_LINE_BYTES = 28
_LINE_BYTES = 32
_ORDER_WORDS = 6
_REPLY_BYTES = 1_024
_DONE, _FRAME = 0, 1
_WRONG_RANGE = 5
_WRONG_ORDER, _TOO_FEW_ZEROS = 9, 10

_FIFOS = 16
_FIFO_WORDS = _STORE_WORDS // _FIFOS

# The bits of the longest command without a frame, WrFifo; and the cycles that
# a frame's byte lasts at most.
_COMMAND_BITS = 44
_FRAME_BYTE_CYCLES = 64

# Records that one call of the library can write; fewer only cost more calls.
_LIST_RECORDS = 512

# What `read` takes at once. It holds a block's records until they are asked
# for, and a mebibyte can bring 1.7 million.
_BLOCK_BYTES = 65_536

# The image's words, the store's words and the tray.
_SAVED = struct.Struct(f"<{_IMAGE_WORDS}Q{_STORE_WORDS}I{_TRAY_BYTES}s")

KINDS = {
    0x01: "LV1",
    0x11: "BCR",
    0x12: "ECR",
    0x14: "CAL",
    0x18: "SYNC",
    0x1F: "bad Fast",
    0x20: "WrRegister",
    0x21: "RdRegister",
    0x22: "WrFifo",
    0x23: "RdFifo",
    0x24: "WrFrontEnd",
    0x25: "RdFrontEnd",
    0x26: "WrReceiver",
    0x28: "EnDataTake",
    0x29: "GlobalResetMCC",
    0x2A: "GlobalResetFE",
    0x2F: "bad Slow",
}

REFUSALS = {
    1: "CSR, FEEN and CNT are not three different addresses in the mask",
    2: "the opening cycle is 2^48 or more",
    3: "the image has another length, is malformed, or its state is unsound",
    4: "a slice has another length, or the first free word is past the list's end",
    5: f"the input is over {INPUT_BYTES:,} bytes, or the range passes its end",
    6: "next cycle + count exceeds 2^48",
    7: "a character is not 0-9 or A-F",
    8: "the count of digits is odd, or above 64",
    9: "an order has an unknown command, or a used field of the wrong size",
    10: "an order has too few zeros ahead of its command",
    11: "the output cannot hold the whole stream, or it passes 2^48 bits",
    13: "a pattern of a stream begins none of LV1, BCR, ECR, CAL and SYNC",
    14: "the stream ends inside a command",
    15: "too few zeros lie ahead of a command",
    18: "the data bits expected of a reply are 0, or above 8,191",
    19: "the buffer cannot hold the data bits expected of a reply",
}

# Any other object with a buffer will do too.
BytesLike = Union[bytes, bytearray, memoryview]


class Plan(NamedTuple):
    """The register plan: a mask of the addresses that exist (bit n for
    address n), and the addresses of CSR, FEEN and CNT. By default 0 to 10
    exist; where only 0 to 6 do, open with `Plan(0x007F)`."""

    mask: int = 0x07FF
    csr: int = 0
    feen: int = 2
    cnt: int = 5


class Refused(Exception):
    """An unfit call was rejected with its `number`; the call that raised it
    changed nothing. Numbers 9 and 10 come with the number of the `order` at
    fault, counted from 0; at the others it is None."""

    def __init__(self, number: int, order: Optional[int] = None) -> None:
        super().__init__(number)
        self.number = number
        self.order = order

    def __str__(self) -> str:
        place = "" if self.order is None else f" at order {self.order}"
        text = REFUSALS.get(self.number, "an unknown number")
        return f"refused with {self.number}{place}: {text}"


def _check(number: int) -> None:
    if number != 0:
        raise Refused(number)


def _load() -> ctypes.CDLL:
    """The library, with the types of its functions declared."""
    u64, size = ctypes.c_uint64, ctypes.c_size_t
    u64s, u32s, u8s = map(ctypes.POINTER, (u64, ctypes.c_uint32, ctypes.c_uint8))
    signatures = {
        "kernelstill_open": (u64, [u64, u64, u64, u64, u64, u64s, size]),
        # The input as void *, for which ctypes passes bytes without a copy.
        "kernelstill_take": (
            u64,
            [u64s, size, ctypes.c_void_p, size, size, size]
            + [u32s, size, u8s, size, u64s, size, size, u64s, size],
        ),
        "kernelstill_frame_bits": (u64, [u64, u64]),
        "kernelstill_frame_part": (size, [u8s, size, size]),
        "kernelstill_accept": (u64, [ctypes.c_void_p, size, size, size]),
        "kernelstill_compose": (
            u64,
            [u64, u64, u64, u64, u64s, size, ctypes.c_void_p, size, u8s, size],
        ),
        "kernelstill_reply": (u64, [ctypes.c_void_p, size, size, size, u64, u8s, size]),
        "kernelstill_hex_line": (u64, [ctypes.c_void_p, size, u8s, size]),
        "kernelstill_record_line": (u64, [u8s, size, u64, u64]),
    }
    beside = pathlib.Path(__file__).resolve().parent.parent / "lib" / "libkernelstill.so"
    path = os.environ.get("KERNELSTILL_LIBRARY") or str(beside)
    try:
        library = ctypes.CDLL(path)
        for name, (answer, arguments) in signatures.items():
            function = getattr(library, name)
            function.restype, function.argtypes = answer, arguments
    except (OSError, AttributeError) as error:
        raise ImportError(
            f"no Kernelstill library at {path} ({error}): build it with host/build,"
            " or name it in KERNELSTILL_LIBRARY"
        ) from error
    # The state is read by its places in the image.
    image = (u64 * _IMAGE_WORDS)()
    if library.kernelstill_open(*Plan(), 0, image, _IMAGE_WORDS) or image[0] != _LAYOUT:
        raise ImportError(f"the Kernelstill library at {path} is of another layout")
    return library


_library = _load()


# Both check a number, since ctypes would cut it to its width in silence.
def _unsigned(value: Any, name: str) -> int:
    """The number as the library is lent it. One beyond 64 bits becomes the
    largest of 64, which is refused in its place, with the same number."""
    number = operator.index(value)
    if number < 0:
        raise ValueError(f"{name} is negative: {number}")
    return min(number, 2**64 - 1)


def _within(value: Any, name: str, bits: int) -> int:
    """The number, of so many bits at most."""
    number = _unsigned(value, name)
    if number >> bits:
        raise OverflowError(f"{name} is beyond {bits} bits: {value}")
    return number


def _plan_numbers(plan: Any) -> List[int]:
    """The four numbers of a plan as the library is lent them."""
    if not isinstance(plan, (tuple, list)):
        raise TypeError(f"a plan is four numbers in order, not {type(plan).__name__}")
    mask, csr, feen, cnt = plan
    return [
        _unsigned(mask, "mask"),
        _unsigned(csr, "csr"),
        _unsigned(feen, "feen"),
        _unsigned(cnt, "cnt"),
    ]


def _lent(data: Any) -> Tuple[Any, int]:
    """What ctypes passes for a bytes-like object, and its length in bytes.

    No copy is made of bytes, nor of a writable buffer in one piece.
    """
    if isinstance(data, bytes):
        return data, len(data)
    view = memoryview(data)
    if view.readonly or not view.c_contiguous:
        return view.tobytes(), view.nbytes
    return (ctypes.c_uint8 * view.nbytes).from_buffer(view), view.nbytes


def hex_line(text: Union[str, BytesLike]) -> bytes:
    """The bytes of a line of hexadecimal digits, given without its line feed.

    At most 64 digits, upper case; refused with 7 or 8.
    """
    if isinstance(text, str):
        # A character beyond ASCII becomes bytes that are no digits either.
        line = text.encode("utf-8", "surrogatepass")
    else:
        line = memoryview(text).tobytes()
    octets = (ctypes.c_uint8 * _LINE_BYTES)()
    _check(_library.kernelstill_hex_line(line, len(line), octets, _LINE_BYTES))
    return bytes(octets)[: len(line) // 2]


class Verdict(NamedTuple):
    """What `accept` answers; true if the stream is accepted."""

    number: int  # 0 if accepted, else 13, 14 or 15; REFUSALS has the texts
    place: int  # of the first bit of the first pattern at fault, 0 if accepted

    @property
    def accepted(self) -> bool:
        return self.number == 0

    def __bool__(self) -> bool:
        return self.accepted


def accept(data: BytesLike, first: int = 0, count: Optional[int] = None) -> Verdict:
    """Whether a finished stream of trigger and fast commands, `count` bits
    from bit `first` on, or all from there, is accepted: zeros and whole, exact
    LV1, BCR, ECR, CAL and SYNC, with at least the zeros between two that the
    timing table asks. Zeros alone, or no bits, are accepted.

    If not, the verdict has the number of the first fault (13, 14, 15) and the
    place of its pattern's first bit, counted from 0 at bit `first`. A pattern
    begins at the first 1 behind the one before.

    At most 1,048,576 bytes. An input or a range that is not fit has no
    verdict: it is refused with 5, as by `take`.
    """
    first = _unsigned(first, "first")
    if count is not None:
        count = _unsigned(count, "count")
    lent, length = _lent(data)
    if count is None:
        count = max(8 * length - first, 0)
    answer = _library.kernelstill_accept(lent, length, first, count)
    # Else the exception would hold the caller's buffer.
    del lent
    number, place = answer & 0xFF, answer >> 8
    if number == _WRONG_RANGE:
        raise Refused(number)
    return Verdict(number, place)


class Order(NamedTuple):
    """A command for `compose` to send, by the kind of its record, with its
    fields and the zeros ahead of it. There is a constructor for each command:

    >>> Order.wr_register(5, 0x0082, zeros=2)
    Order(kind=32, zeros=2, address=5, value=130, frame=b'', bits=0)

    What a field holds that the command does not use is not looked at, and such
    a field is sent as zeros. Whether an order is fit is for `compose` to tell.
    """

    kind: int  # KINDS has the names; a bad Fast or a bad Slow is no command
    zeros: int = 0  # ahead of the command
    address: int = 0  # of WrRegister, RdRegister and RdFifo: below 16
    value: int = 0  # of WrRegister below 2^16, WrFifo below 2^27, GlobalResetFE below 16
    frame: bytes = b""  # of WrFrontEnd, RdFrontEnd and WrReceiver: its bits, as in a record
    bits: int = 0  # how many these are: as many as CNT asks

    @property
    def name(self) -> str:
        return KINDS.get(self.kind, f"kind {self.kind:02X}")

    @classmethod
    def lv1(cls, *, zeros: int = 0) -> Order:
        """A trigger, exact."""
        return cls(0x01, zeros)

    @classmethod
    def bcr(cls, *, zeros: int = 0) -> Order:
        return cls(0x11, zeros)

    @classmethod
    def ecr(cls, *, zeros: int = 0) -> Order:
        return cls(0x12, zeros)

    @classmethod
    def cal(cls, *, zeros: int = 0) -> Order:
        return cls(0x14, zeros)

    @classmethod
    def sync(cls, *, zeros: int = 0) -> Order:
        return cls(0x18, zeros)

    @classmethod
    def wr_register(cls, address: int, value: int, *, zeros: int = 0) -> Order:
        """A value of 16 bits to a register, which need not exist. One to CNT
        holds for the frames behind it."""
        return cls(0x20, zeros, address, value)

    @classmethod
    def rd_register(cls, address: int, *, zeros: int = 0) -> Order:
        return cls(0x21, zeros, address)

    @classmethod
    def wr_fifo(cls, word: int, *, zeros: int = 0) -> Order:
        """A word of 27 bits to the FIFOs that FEEN enables."""
        return cls(0x22, zeros, value=word)

    @classmethod
    def rd_fifo(cls, number: int, *, zeros: int = 0) -> Order:
        """A read of FIFO `number`."""
        return cls(0x23, zeros, number)

    @classmethod
    def wr_front_end(cls, frame: BytesLike, bits: Optional[int] = None, *, zeros: int = 0) -> Order:
        """A frame of CNT<2:0> x 8 control bits and then CNT<15:3> data bits,
        the highest of each byte first: the first `bits` of `frame`, or all.
        Each lasts eight cycles."""
        return cls._with_frame(0x24, frame, bits, zeros)

    @classmethod
    def rd_front_end(cls, frame: BytesLike, bits: Optional[int] = None, *, zeros: int = 0) -> Order:
        """A frame as by `wr_front_end`."""
        return cls._with_frame(0x25, frame, bits, zeros)

    @classmethod
    def wr_receiver(cls, frame: BytesLike, bits: Optional[int] = None, *, zeros: int = 0) -> Order:
        """A frame of CNT<12:0> x 8 bits, a cycle each."""
        return cls._with_frame(0x26, frame, bits, zeros)

    @classmethod
    def en_data_take(cls, *, zeros: int = 0) -> Order:
        return cls(0x28, zeros)

    @classmethod
    def global_reset_mcc(cls, *, zeros: int = 0) -> Order:
        """CNT is 0 for the frames behind it."""
        return cls(0x29, zeros)

    @classmethod
    def global_reset_fe(cls, sync_w: int, *, zeros: int = 0) -> Order:
        """A reset of the front ends, with the 4 bits of SyncW."""
        return cls(0x2A, zeros, value=sync_w)

    @classmethod
    def _with_frame(cls, kind: int, frame: BytesLike, bits: Optional[int], zeros: int) -> Order:
        octets = memoryview(frame).tobytes()
        return cls(kind, zeros, frame=octets, bits=8 * len(octets) if bits is None else bits)


class Stream(NamedTuple):
    """What `compose` answers: `bits` bits, the highest of each byte first."""

    data: bytes  # the last byte is filled up with zeros
    bits: int


def compose(orders: Iterable[Order], plan: Plan = Plan(), *, limit: int = INPUT_BYTES) -> Stream:
    """The stream that sends the orders, one after another.

    CNT is 0 at the start, then as the orders write it by the plan's address,
    and 0 again after GlobalResetMCC; a frame has exactly the bits that it asks.
    Ahead of each order but the first lie at least the zeros that the timing
    table asks (see `Record`; a Slow counts as a Fast there, and asks none after
    itself). A decoder opened at cycle 0 with the same plan gives one record an
    order for the stream, none of them with flip, unsteady or too close.

    Refused with 1 for the plan; then, order by order, with 9 for an unknown
    command or a used field of the wrong size, and 10 for too few zeros; last of
    all with 11 for a stream of more than `limit` bytes or 2^48 bits. By
    default the limit is what `take` or `accept` takes at once. The room is made
    by the sizes of the orders, so that a large limit alone costs nothing.
    """
    numbers = _plan_numbers(plan)
    limit = _unsigned(limit, "limit")
    words: List[int] = []
    frames = bytearray()
    ahead = 0
    for order in orders:
        if not isinstance(order, Order):
            raise TypeError(f"an order is an Order, not {type(order).__name__}")
        zeros = _unsigned(order.zeros, "zeros")
        octets = memoryview(order.frame).tobytes()
        bits = _unsigned(order.bits, "bits")
        words += [
            _unsigned(order.kind, "kind"),
            zeros,
            _unsigned(order.address, "address"),
            _unsigned(order.value, "value"),
            # Past all that is lent where the frame has fewer bits than it says:
            # else those of the frames behind it would be taken.
            len(frames) if bits <= 8 * len(octets) else 2**64 - 1,
            bits,
        ]
        frames += octets
        ahead += zeros
    # No fit order has more bits than are reckoned here. Zeros that alone pass
    # the library's own limit need no room to be refused.
    commands = len(words) // _ORDER_WORDS * _COMMAND_BITS
    most = ahead + commands + len(frames) * _FRAME_BYTE_CYCLES
    room = min(limit, most // 8 + 1) if ahead <= CLOCK_LIMIT else 0
    output = (ctypes.c_uint8 * room)()
    answer = _library.kernelstill_compose(
        *numbers,
        (ctypes.c_uint64 * len(words))(*words),
        len(words),
        bytes(frames),
        len(frames),
        output,
        room,
    )
    number, rest = answer & 0xFF, answer >> 8
    if number in (_WRONG_ORDER, _TOO_FEW_ZEROS):
        raise Refused(number, rest)
    _check(number)
    return Stream(ctypes.string_at(output, (rest + 7) // 8), rest)


class ReplyVerdict(enum.IntEnum):
    """What `read_reply` says of a reply."""

    WHOLE = 0  # all bits that are expected
    NO_HEADER = 1
    CUT_SHORT = 2  # the range ends ahead of the last bit that is expected


class Reply(NamedTuple):
    """What `read_reply` answers; true if the reply is whole."""

    verdict: ReplyVerdict
    data: bytes  # the complete bits; the last byte is filled up with zeros
    bits: int  # how many these are

    @property
    def whole(self) -> bool:
        return self.verdict is ReplyVerdict.WHOLE

    def __bool__(self) -> bool:
        return self.whole


def read_reply(data: BytesLike, bits: int, first: int = 0, count: Optional[int] = None) -> Reply:
    """The chip's reply to RdFrontEnd, read from `count` bits of the line back
    from it, from bit `first` on, or all from there: the header 11101, a cycle
    a bit, and then `bits` data bits, each for eight cycles.

    The header is taken at its first place within the range, where all five
    bits are exact, and is not looked for again. A data bit is 1 with five ones
    or more among its eight cycles, 0 with three or fewer, and with four ones
    the first cycle's bit. It is complete with its eighth cycle, and what comes
    behind the last bit that is expected is not looked at:

    >>> line = hex_line("1DFB04FF")
    >>> read_reply(line, 2)
    Reply(verdict=<ReplyVerdict.WHOLE: 0>, data=b'\\x80', bits=2)
    >>> read_reply(line, 4)
    Reply(verdict=<ReplyVerdict.CUT_SHORT: 2>, data=b'\\xa0', bits=3)
    >>> read_reply(line, 4, first=16)
    Reply(verdict=<ReplyVerdict.NO_HEADER: 1>, data=b'', bits=0)

    Nothing is kept between calls: to go on with a reply that was cut short,
    give all of it again, with what came since.

    At most 1,048,576 bytes. Refused with 18 if 0 bits are expected, or more
    than 8,191, and then with 5 for an input or a range that is not fit.
    """
    expected = _unsigned(bits, "bits")
    first = _unsigned(first, "first")
    if count is not None:
        count = _unsigned(count, "count")
    lent, length = _lent(data)
    if count is None:
        count = max(8 * length - first, 0)
    buffer = (ctypes.c_uint8 * _REPLY_BYTES)()
    room = len(buffer)
    answer = _library.kernelstill_reply(lent, length, first, count, expected, buffer, room)
    # Else the exception would hold the caller's buffer.
    del lent
    _check(answer & 0xFF)
    verdict, complete = ReplyVerdict(answer >> 8 & 0xFF), answer >> 16
    return Reply(verdict, ctypes.string_at(buffer, (complete + 7) // 8), complete)


class Record(NamedTuple):
    """A command or error recognised. `str` gives its part of the listing.

    Its value, as kernelstill.h says it for each KERNELSTILL_KIND:

    LV1                     position x 65536, and if acted on
                            + L1ID x 256 + bunch number
    bad Fast                its last four bits
    WrRegister              address x 65536 + the bits that arrived
    RdRegister              address x 65536 + the bits read
    WrFifo                  the word
    RdFifo                  FIFO x 2^27 + the word
    WrFrontEnd, RdFrontEnd  control bits x 65536 + data bits, counted
    WrReceiver              the count of its bits
    GlobalResetFE           SyncW x 2 + 1
    bad Slow                its Field 3
    all others              0

    The unused bits of a frame's last byte are 0 where the tray was carried
    over from the frame's first bit. A decoder does so, and so do its copies,
    `save` and `resume`; a change to the saved bytes may undo it.

    A front-end bit is 1 with five ones or more among its eight cycles, 0 with
    three or fewer, and with four ones the first cycle's bit.

    A command is too close when fewer zeros than the timing table asks lie
    between the earlier record and it: after BCR 2 and after ECR 1, if anything
    but an LV1 follows; after SYNC 4, if an LV1 follows; otherwise 0. Of three
    BCRs the second has one zero ahead of it here, the third two:

    >>> [record.too_close for record in Decoder().take(hex_line("2C2B0961"))]
    [False, True, False]
    """

    time: int  # the cycle of its last bit
    kind: int  # KINDS has the names
    flags: int  # the properties below read them
    value: int
    frame: bytes = b""  # of a frame's record

    @property
    def name(self) -> str:
        return KINDS.get(self.kind, f"kind {self.kind:02X}")

    @property
    def acted_on(self) -> bool:
        return bool(self.flags & 0x01)

    @property
    def flip(self) -> bool:
        """An LV1 with one bit inverted."""
        return bool(self.flags & 0x02)

    @property
    def position(self) -> int:
        """Which of an LV1's five received bits was hit, from 1 for the first
        received; 0 if none was, and where the record is of no LV1."""
        return self.value >> 16 if self.kind == 0x01 else 0

    @property
    def l1id(self) -> Optional[int]:
        """The trigger number of an LV1 that was acted on; of no other record."""
        return self.value >> 8 & 0xFF if self._trigger else None

    @property
    def bunch(self) -> Optional[int]:
        """The bunch number of an LV1 that was acted on; of no other record."""
        return self.value & 0xFF if self._trigger else None

    @property
    def _trigger(self) -> bool:
        return self.kind == 0x01 and self.acted_on

    @property
    def sent(self) -> bool:
        """An LV1 sent to the front ends."""
        return bool(self.flags & 0x04)

    @property
    def missing(self) -> bool:
        """A register command whose register does not exist."""
        return bool(self.flags & 0x08)

    @property
    def unsteady(self) -> bool:
        """A front-end frame with a bit that differed within its eight cycles."""
        return bool(self.flags & 0x10)

    @property
    def too_close(self) -> bool:
        """A command with fewer zeros ahead of it than the timing table asks
        after the earlier record; never the first one after an opening."""
        return bool(self.flags & 0x20)

    @property
    def frame_bits(self) -> int:
        """The count of the frame's bits; 0 where the record is of no frame."""
        return _library.kernelstill_frame_bits(*self._words())

    def line(self) -> str:
        """The record's line of the listing, without its line feed."""
        line = (ctypes.c_uint8 * _RECORD_LINE_BYTES)()
        _check(_library.kernelstill_record_line(line, _RECORD_LINE_BYTES, *self._words()))
        return bytes(line)[:-1].decode("ascii")

    def __str__(self) -> str:
        return f"{self.line()}\n>{self.frame.hex().upper()}" if self.frame else self.line()

    def _words(self) -> Tuple[int, int]:
        time = _within(self.time, "time", 48)
        kind = _within(self.kind, "kind", 8)
        flags = _within(self.flags, "flags", 8)
        return time << 16 | kind << 8 | flags, _within(self.value, "value", 32)


class Phase(enum.IntEnum):
    """Where in a command the next bit belongs."""

    HUNTING = 0
    BODY = 1  # the four bits after a header
    FIELD_3 = 2
    FIELD_4 = 3
    FIELD_5 = 4


class Warnings(NamedTuple):
    """What CSR bits 8, 9 and 10 read as."""

    wlv1: bool  # an LV1 with flip was seen
    wfst: bool  # a bad Fast
    wslw: bool  # a bad Slow


@dataclass(frozen=True)
class State:
    """A decoder's state at one moment, with its FIFO words. `str` gives the
    state lines of the program `model`."""

    plan: Plan
    next_cycle: int
    phase: Phase
    shift: int  # hunting, the window; in a body, Field 3 or 4, its bits so far
    field3: int  # in Fields 4 and 5
    field4: int  # in Field 5
    received: int  # bits of the present body or field
    held: int  # in Field 5 of WrRegister, WrFifo and GlobalResetFE, its bits so far
    group: int  # in a front-end frame, the bits received of the present group, the latest lowest
    unsteady: bool  # in a front-end frame, whether a finished group was unsteady
    run_mode: bool
    l1id: int  # the next trigger's number
    base: int  # the cycle from which the bunch number counts
    warnings: Warnings
    earlier_time: int  # of the earlier record
    earlier_kind: int  # its kind; 0 if there was none, and then its time means nothing
    registers: Tuple[int, ...]  # 16, as stored
    write_pointers: Tuple[int, ...]  # 16, a FIFO each
    read_pointers: Tuple[int, ...]
    fifos: Tuple[Tuple[int, ...], ...] = field(repr=False)  # 16 of 128 words, as stored

    @property
    def window(self) -> Optional[int]:
        """The window, while hunting: the bits since the last command, at most
        five."""
        return self.shift if self.phase is Phase.HUNTING else None

    def register(self, address: int) -> int:
        """A register as RdRegister gives it: CSR with the warnings, 0 where
        it does not exist."""
        address = _within(address, "address", 4)
        stored = self.registers[address]
        if address != self.plan.csr:
            return stored
        wlv1, wfst, wslw = self.warnings
        return stored & ~0x0700 | wlv1 << 8 | wfst << 9 | wslw << 10

    def __str__(self) -> str:
        exist = (n for n in range(len(self.registers)) if self.plan.mask >> n & 1)
        pointers = enumerate(zip(self.write_pointers, self.read_pointers))
        words = ((n, at, word) for n, fifo in enumerate(self.fifos) for at, word in enumerate(fifo))
        return "\n".join(
            [f"register {n:X} {self.register(n):04X}" for n in exist]
            + [f"l1id {self.l1id:02X}", f"base {self.base:012X}", f"runmode {self.run_mode:d}"]
            + [f"pointers {n:X} {write:02X} {read:02X}" for n, (write, read) in pointers]
            + [f"word {n:X} {at:02X} {word:08X}" for n, at, word in words if word]
        )


class Decoder:
    """A reader of the command line.

    It opens with a register plan, out of RunMode and with all registers and
    FIFO words 0; its first bit has the number `cycle`.

    Refused with 1 or 2, and then no decoder is made. An opening is handed no
    state: at a refusal the library writes the default start state into the
    image that it is given, which here is a new one that nobody sees.

    A decoder is for one thread at a time. `take` lets other threads run: no
    buffer may change while it is being taken.

    It is not for subclassing: copies, pickles and `resume` keep no more than
    `save` does.
    """

    __slots__ = ("_image", "_store", "_tray", "_list", "_result")

    def __init__(self, plan: Plan = Plan(), cycle: int = 0) -> None:
        numbers = _plan_numbers(plan) + [_unsigned(cycle, "cycle")]
        # Into a new image, since a refused opening writes one too.
        image = (ctypes.c_uint64 * _IMAGE_WORDS)()
        _check(_library.kernelstill_open(*numbers, image, _IMAGE_WORDS))
        self._make_buffers()
        self._image = image

    def _make_buffers(self) -> None:
        self._image = (ctypes.c_uint64 * _IMAGE_WORDS)()
        self._store = (ctypes.c_uint32 * _STORE_WORDS)()
        self._tray = (ctypes.c_uint8 * _TRAY_BYTES)()
        self._list = (ctypes.c_uint64 * (2 * _LIST_RECORDS))()
        self._result = (ctypes.c_uint64 * _RESULT_WORDS)()

    def take(self, data: BytesLike, first: int = 0, count: Optional[int] = None) -> List[Record]:
        """Takes `count` bits from bit `first` on, or all from there, the
        highest of each byte first, and gives their records.

        At most 1,048,576 bytes, which can bring 1.7 million records; for a
        file, `read` takes less at once and holds fewer. Refused with 5 or 6.
        """
        first = _unsigned(first, "first")
        if count is not None:
            count = _unsigned(count, "count")
        records: List[Record] = []
        lent, length = _lent(data)
        if count is None:
            count = max(8 * length - first, 0)
        # Only the first call can be refused, so that a refusal changes nothing.
        while True:
            number = self._call(lent, length, first, count)
            if number != 0:
                break
            bits, written, ending = self._result
            self._add_records(records, written, ending == _FRAME)
            if ending == _DONE:
                break
            first += bits
            count -= bits
        # Else the exception would hold the caller's buffer.
        del lent
        _check(number)
        return records

    def _call(self, lent: Any, length: int, first: int, count: int) -> int:
        """One call of the library, with the whole list free; its number."""
        return _library.kernelstill_take(
            self._image,
            _IMAGE_WORDS,
            lent,
            length,
            first,
            count,
            self._store,
            _STORE_WORDS,
            self._tray,
            _TRAY_BYTES,
            self._list,
            len(self._list),
            0,
            self._result,
            _RESULT_WORDS,
        )

    def _add_records(self, records: List[Record], written: int, last_is_frame: bool) -> None:
        words = self._list[: 2 * written]
        records += [
            Record(head >> 16, head >> 8 & 0xFF, head & 0xFF, value)
            for head, value in zip(words[::2], words[1::2])
        ]
        if last_is_frame:
            bits = _library.kernelstill_frame_bits(words[-2], words[-1])
            part = _library.kernelstill_frame_part(self._tray, _TRAY_BYTES, bits)
            records[-1] = records[-1]._replace(frame=ctypes.string_at(self._tray, part))

    def read(self, file: BinaryIO) -> Iterator[Record]:
        """Takes the bytes of a binary file to its end and yields the records.

        It moves on a block at a time, as the records are asked for. From a
        live pipe it takes what there is.

        Refused with 6 where a block has more bits than the clock has cycles:
        the records before it have been given, and of that block no bit is
        taken.
        """
        block = getattr(file, "read1", file.read)
        for data in iter(lambda: block(_BLOCK_BYTES), b""):
            yield from self.take(data)

    @property
    def state(self) -> State:
        # By the places that kernelstill.h gives.
        image = self._image[:]
        return State(
            plan=Plan(*image[1:5]),
            next_cycle=image[5],
            phase=Phase(image[6]),
            shift=image[7],
            field3=image[8],
            field4=image[9],
            received=image[10],
            held=image[11],
            group=image[12],
            unsteady=bool(image[13]),
            run_mode=bool(image[14]),
            l1id=image[15],
            base=image[16],
            warnings=Warnings(*map(bool, image[17:20])),
            earlier_time=image[20],
            earlier_kind=image[21],
            registers=tuple(image[22:38]),
            write_pointers=tuple(image[38:54]),
            read_pointers=tuple(image[54:70]),
            fifos=tuple(map(self.fifo, range(_FIFOS))),
        )

    def fifo(self, number: int) -> Tuple[int, ...]:
        """The 128 words of FIFO `number`, 0 to 15, from place 0 on, as stored;
        RdFifo gives the low 27 bits."""
        start = _within(number, "FIFO number", 4) * _FIFO_WORDS
        return tuple(self._store[start : start + _FIFO_WORDS])

    def save(self) -> bytes:
        """All that the decoder remembers, for `resume`.

        16,944 bytes, little-endian: the image's 70 words of 64 bits, the
        store's 2,048 words of 32 bits, the tray's 8,192 bytes.
        """
        return _SAVED.pack(*self._image, *self._store, bytes(self._tray))

    @classmethod
    def resume(cls, saved: BytesLike) -> Decoder:
        """A decoder that goes on where `save` was called; refused with 3, as
        is what a version before 1.6 saved."""
        try:
            words = _SAVED.unpack(memoryview(saved).tobytes())
        except struct.error:
            raise Refused(3) from None
        decoder = cls.__new__(cls)
        decoder._make_buffers()
        decoder._image[:] = words[:_IMAGE_WORDS]
        decoder._store[:] = words[_IMAGE_WORDS:-1]
        decoder._tray[:] = words[-1]
        # Takes nothing, but is refused if the state is unsound.
        decoder.take(b"")
        return decoder

    def __reduce__(self) -> Tuple[Any, ...]:
        # A copy, or a pickle, has buffers of its own.
        return type(self).resume, (self.save(),)

    def __repr__(self) -> str:
        return f"<Decoder, next cycle {self._image[5]}, {Phase(self._image[6]).name}>"
