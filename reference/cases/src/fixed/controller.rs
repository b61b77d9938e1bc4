//! What commands leave in registers, FIFOs, counters and warnings.

use super::in_run_mode;
use crate::{Case, Stream};

pub fn cases() -> Vec<Case> {
    let long = [
        (
            "fifo-writes-past-128",
            fifo_writes(140).rd_fifo(0).rd_fifo(15),
        ),
        ("fifo-reads-past-128", fifo_reads()),
        ("l1id-wraps", l1id_wraps()),
    ];
    let short = [
        ("fifo-feen-0", Stream::new().wr_fifo(0x07FF_FFFF).rd_fifo(0)),
        ("fifo-ecr", resets(|stream| stream.en_data_take().ecr())),
        ("fifo-ecr-idle", resets(Stream::ecr)),
        ("fifo-reset-mcc", resets(Stream::reset_mcc)),
        ("registers", registers()),
        ("csr-warnings", csr_warnings()),
        ("bunch-wraps", bunch_wraps()),
    ];
    let case = |name: &str, stream| Case::stream(format!("controller/{name}"), &stream);
    let long = long.map(|(name, stream)| case(name, stream));
    let short = short.map(|(name, stream)| case(name, stream).golden_if(true));
    long.into_iter().chain(short).collect()
}

fn fifo_writes(count: u32) -> Stream {
    let stream = Stream::new().wr_register(2, 0x8421);
    (0..count).fold(stream, |stream, n| stream.wr_fifo(0x0654_3000 + n))
}

fn fifo_reads() -> Stream {
    let stream = fifo_writes(3);
    (0..131).fold(stream, |stream, n| {
        stream.rd_fifo(if n % 10 == 0 { 15 } else { 5 })
    })
}

/// Words, pointers and registers, then a reset, then words again.
fn resets(reset: impl Fn(Stream) -> Stream) -> Stream {
    let stream = fifo_writes(3).rd_fifo(0).rd_fifo(10);
    reset(stream)
        .wr_register(2, 0x0003)
        .wr_fifo(0x0111_1111)
        .rd_fifo(0)
        .rd_fifo(10)
}

/// Each address written, then each read: 0 to 10 exist, 11 to 15 are missing
/// (document 02, F-9).
fn registers() -> Stream {
    let stream = (0..16).fold(Stream::new(), |stream, address| {
        stream.wr_register(address, 0xF0F0 + u16::from(address))
    });
    (0..16).fold(stream, Stream::rd_register)
}

fn csr_warnings() -> Stream {
    Stream::new()
        .wr_register(0, 0xFFFF)
        .rd_register(0)
        .pattern("11100")
        .rd_register(0)
        .fast(15)
        .rd_register(0)
        .slow(7, 0)
        .rd_register(0)
        .wr_register(0, 0)
        .rd_register(0)
        .reset_mcc()
        .rd_register(0)
}

fn l1id_wraps() -> Stream {
    (0..260).fold(in_run_mode(true), |stream, _| stream.lv1())
}

fn bunch_wraps() -> Stream {
    let stream = in_run_mode(true).lv1().zeros(250).lv1().bcr().lv1();
    let stream = stream.zeros(240).lv1().zeros(5).lv1();
    stream.reset_mcc().en_data_take().lv1()
}
