//! A short run at the bench, with every kind of record and every flag but 20,
//! as it keeps the timing table: the example for the person who uses the
//! reader. The same with a last line that has no line feed, with a refused
//! line, and a longer one.

use crate::{code, Case, Stream};

/// Cycles of a full line, and bytes with its line feed.
const LINE: usize = 256;
const LINE_BYTES: usize = LINE / 4 + 1;

/// Bytes that a program reads at a time.
const BLOCK: usize = 65_536;

pub fn cases() -> Vec<Case> {
    let stream = capture();
    // Four records more.
    let no_feed = [&stream.lines()[..], b"B5C074E0B080"].concat();
    let odd = [&stream.lines()[..], b"E0B08\nE0B080\n"].concat();
    vec![
        Case::stream("capture/capture", &stream).golden_if(true),
        Case::new("capture/no-last-line-feed", no_feed),
        Case::new("refusals/after-a-capture", odd),
        Case::new("refusals/after-a-block", two_blocks(stream)),
    ]
}

fn capture() -> Stream {
    let stream = warnings(triggers(frames(fifos(registers()))));
    // Idle up to the end of the line.
    let idle = stream.bits.len().wrapping_neg() % LINE;
    stream.zeros(idle)
}

/// A capture on either side of a block's edge, which cuts a line and the
/// frame of which that line has bits. A refused line ends it.
fn two_blocks(capture: Stream) -> Vec<u8> {
    let edge = BLOCK / LINE_BYTES * LINE + BLOCK % LINE_BYTES * 4;
    let second = capture.bits.clone();
    let frame = Stream::new().number(0x00C3_A5F1, 24).bits;
    // Half of the frame's 192 cycles stand ahead of the edge.
    let ahead = Stream::new()
        .wr_register(5, 24 << 3)
        .slow(code::WR_FRONT_END, 0);
    let idle = edge - capture.bits.len() - ahead.bits.len() - 96;
    let stream = capture.zeros(idle).wr_register(5, 24 << 3);
    let stream = stream.front_end(code::WR_FRONT_END, &frame).zeros(30);
    let mut lines = stream.raw(&second).lines();
    lines.extend(b"E0B080 E8\nE0B080\n");
    lines
}

fn registers() -> Stream {
    Stream::new()
        .zeros(70)
        .reset_mcc()
        .zeros(50)
        .wr_register(2, 0x0003)
        .zeros(6)
        .wr_register(0, 0x0040)
        .zeros(6)
        .rd_register(2)
        .zeros(30)
        // No such registers: the default plan ends at 10 (document 02, F-9).
        .wr_register(11, 0x1234)
        .zeros(6)
        .rd_register(12)
        .zeros(40)
}

/// Words for two FIFOs, then triggers that stay inside the controller, as
/// CSR bit 6 is 1.
fn fifos(stream: Stream) -> Stream {
    stream
        .wr_fifo(0x0123_4567)
        .zeros(4)
        .wr_fifo(0x07FF_0001)
        .zeros(4)
        .rd_fifo(0)
        .zeros(4)
        .rd_fifo(1)
        .zeros(25)
        .en_data_take()
        .zeros(12)
        .lv1()
        .zeros(40)
        .wr_register(0, 0x0000)
        .zeros(33)
}

fn frames(stream: Stream) -> Stream {
    let frame = Stream::new().number(0x00A5_C3F0, 24).bits;
    // Eight control bits and sixteen data bits.
    let stream = stream
        .wr_register(5, 16 << 3 | 1)
        .zeros(8)
        .front_end(code::WR_FRONT_END, &frame)
        .zeros(30);
    // Eight data bits, one of them with a wrong cycle.
    let mut stream = stream
        .wr_register(5, 8 << 3)
        .zeros(8)
        .front_end(code::RD_FRONT_END, &frame[..8]);
    let wrong = stream.bits.len() - 20;
    stream.bits[wrong] ^= true;
    stream
        .zeros(30)
        .wr_register(5, 2)
        .zeros(8)
        .wr_receiver(&frame[..16])
        .zeros(40)
        .reset_fe(5)
        .zeros(200)
}

fn triggers(stream: Stream) -> Stream {
    stream
        .en_data_take()
        .zeros(150)
        .bcr()
        .zeros(2)
        .ecr()
        .zeros(1)
        .cal()
        .zeros(120)
        .lv1()
        .zeros(160)
        .lv1()
        .lv1()
        .zeros(100)
        // Its third bit inverted.
        .pattern("11001")
        .zeros(55)
        .sync()
        .zeros(4)
        .lv1()
        .zeros(40)
        // A CAL with its last bit inverted.
        .fast(0b0101)
        .zeros(45)
        .bcr()
        // The bunch number starts anew after 256 cycles.
        .zeros(300)
        .lv1()
        .zeros(20)
}

/// A Slow ends RunMode, so that what follows is not acted on.
fn warnings(stream: Stream) -> Stream {
    stream
        .slow(0b1101, 0)
        .zeros(15)
        .rd_register(0)
        .zeros(10)
        .lv1()
        .zeros(10)
        .bcr()
        .zeros(30)
        .wr_fifo(0x0000_ABCD)
        .zeros(4)
        .rd_fifo(1)
}
