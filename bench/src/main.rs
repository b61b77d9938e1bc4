//! The proved taking call against plain Rust readers that go bit by bit: one
//! mebibyte each of zeros and of dense commands in one call, and of long frames, in
//! turns in one run. Then the check of a stream, on the dense commands, against the
//! separate reader's and against the taking call; composing such streams, against
//! the separate composer and against reading them; and a reply sought and read,
//! against the separate reader's. Prints nanoseconds a bit (the
//! fastest turn of each) and the ratios.

mod orders;
mod plain;
mod streams;

use bench::{take_fresh, Buffers, Taken};
use reader::{open, take, Plan};
use std::time::Instant;

const TURNS: usize = 40;

fn proved(input: &[u8], b: &mut Buffers) -> Taken {
    take_fresh(input, 0, 8 * input.len(), b, 0)
}

fn separate(input: &[u8], b: &mut Buffers) -> Taken {
    let (_, state) = open(Plan::DEFAULT, 0);
    let bits = 8 * input.len() as u64;
    let answer = take(
        state,
        input,
        0,
        bits,
        &mut b.store,
        &mut b.tray,
        &mut b.list,
        0,
    );
    Taken {
        bits: answer.bits_taken as usize,
        records: answer.records_written as usize,
    }
}

fn plain(input: &[u8], b: &mut Buffers) -> Taken {
    Taken {
        bits: 8 * input.len(),
        records: plain::take(input, &mut b.list),
    }
}

type Reader = fn(&[u8], &mut Buffers) -> Taken;

const READERS: [(&str, Reader); 3] = [
    ("proved", proved),
    ("separate reader", separate),
    ("plain triggers", plain),
];

/// Buffers for calls of so many bytes: no command is shorter than five bits.
fn buffers(bytes: usize) -> Buffers {
    Buffers {
        store: vec![0; 2048],
        tray: vec![0; 8192],
        list: vec![0; 4 * bytes],
    }
}

/// A call that was refused, or that filled its list, is no measurement: all is
/// taken but the zeros that fill a frame's last byte.
fn is_whole(input: &[u8], taken: Taken) -> bool {
    8 * input.len() - taken.bits < 8
}

/// The calls' inputs, and how many of the readers can read them: the bare one
/// keeps no frames.
fn inputs() -> [(&'static str, Vec<Vec<u8>>, usize); 4] {
    [
        ("zeros", streams::zeros(), 3),
        ("dense", streams::dense(), 3),
        ("front-end frames", streams::front_end_frames(), 2),
        ("receiver frames", streams::receiver_frames(), 2),
    ]
}

/// The check of the commands behind the EnDataTake: each tells whether they are
/// accepted; the taking call, whether it took them.
const CHECKS: [(&str, fn(&[u8], &mut Buffers) -> bool); 3] = [
    ("proved accept", |input, _| {
        let first = streams::EN_DATA_TAKE;
        bench::accept(input, first, 8 * input.len() - first) == 0
    }),
    ("separate reader's accept", |input, _| {
        let first = streams::EN_DATA_TAKE as u64;
        reader::accept(input, first, 8 * input.len() as u64 - first).is_ok()
    }),
    ("proved take", |input, b| is_whole(input, proved(input, b))),
];

fn measure_checks(buffers: &mut Buffers) {
    let input = &streams::dense()[0];
    let mut best = [f64::MAX; 3];
    for _ in 0..TURNS {
        for (k, (who, check)) in CHECKS.iter().enumerate() {
            let began = Instant::now();
            let passed = check(input, buffers);
            best[k] = best[k].min(began.elapsed().as_secs_f64());
            assert!(passed, "{who}");
        }
    }
    let bits = 8.0 * input.len() as f64;
    for (k, (who, _)) in CHECKS.iter().enumerate() {
        println!("dense: {who}: {:.3} ns a bit", best[k] / bits * 1e9);
    }
    for (k, (who, _)) in CHECKS.iter().enumerate().skip(1) {
        println!("dense: proved accept / {who}: {:.2}", best[0] / best[k]);
    }
}

/// A stream of a list of orders: composed by the proved call and by the
/// separate composer, and read by the proved calls, which stop at each frame.
fn composed(list: &orders::List, output: &mut [u8]) -> usize {
    let answer = bench::compose(&list.words, &list.frames, output);
    assert_eq!(answer & 0xFF, 0, "{}: an order is refused", list.name);
    (answer >> 8) as usize
}

fn separately(list: &orders::List, output: &mut [u8]) -> usize {
    reader::compose(Plan::DEFAULT, &list.words, &list.frames, output).expect("fit orders") as usize
}

fn read_back(list: &orders::List, input: &[u8], bits: usize, b: &mut Buffers) {
    let mut reading = bench::Reading::open();
    let mut taken = 0;
    for _ in 0..=list.frame_count {
        taken += reading.take(input, taken, bits - taken, b);
    }
    assert_eq!(taken, bits, "{}: the stream is not read", list.name);
}

fn measure_composing(buffers: &mut Buffers) {
    let mut output = vec![0; streams::BYTES];
    for list in orders::all() {
        let mut best = [f64::MAX; 3];
        let bits = composed(&list, &mut output);
        let input = output.clone();
        for _ in 0..TURNS {
            let mut timed = |k: usize, run: &mut dyn FnMut()| {
                let began = Instant::now();
                run();
                best[k] = best[k].min(began.elapsed().as_secs_f64());
            };
            timed(0, &mut || assert_eq!(composed(&list, &mut output), bits));
            timed(1, &mut || assert_eq!(separately(&list, &mut output), bits));
            timed(2, &mut || read_back(&list, &input, bits, buffers));
        }
        let name = list.name;
        for (k, who) in ["proved compose", "separate composer", "proved take"]
            .iter()
            .enumerate()
        {
            println!("{name}: {who}: {:.3} ns a bit", best[k] / bits as f64 * 1e9);
        }
        for (k, who) in [(1, "separate composer"), (2, "proved take")] {
            println!("{name}: proved compose / {who}: {:.2}", best[0] / best[k]);
        }
    }
}

/// The most data bits of a reply, and the words that tell all of them, or that
/// there is no header.
const REPLY_BITS: u64 = 8_191;
const WHOLE: u64 = REPLY_BITS << 16;
const NO_HEADER: u64 = 1 << 8;

/// A mebibyte without a header, and one with the longest reply at its end.
fn lines_back() -> [(&'static str, Vec<u8>, u64); 2] {
    let zeros = vec![0; streams::BYTES];
    let mut late = zeros.clone();
    let reply = &mut late[streams::BYTES - REPLY_BITS as usize - 1..];
    reply.fill(0xFF);
    reply[0] = 0b11101;
    [("no reply", zeros, NO_HEADER), ("late reply", late, WHOLE)]
}

/// The separate reader's answer as the library's word.
fn separate_reply(input: &[u8], buffer: &mut [u8]) -> u64 {
    let bits = 8 * input.len() as u64;
    match reader::read_reply(input, 0, bits, REPLY_BITS, buffer).expect("a fit call") {
        reader::Reply::Whole => WHOLE,
        reader::Reply::NoHeader => NO_HEADER,
        reader::Reply::CutShort(complete) => 2 << 8 | complete << 16,
    }
}

fn measure_replies() {
    let mut buffer = vec![0; 1024];
    for (name, input, word) in lines_back() {
        let mut best = [f64::MAX; 2];
        for _ in 0..TURNS {
            let began = Instant::now();
            let proved = bench::reply(&input, REPLY_BITS, &mut buffer);
            best[0] = best[0].min(began.elapsed().as_secs_f64());
            let began = Instant::now();
            let separate = separate_reply(&input, &mut buffer);
            best[1] = best[1].min(began.elapsed().as_secs_f64());
            assert_eq!((proved, separate), (word, word), "{name}");
        }
        let bits = 8.0 * input.len() as f64;
        for (who, best) in ["proved reply", "separate reader's reply"].iter().zip(best) {
            println!("{name}: {who}: {:.3} ns a bit", best / bits * 1e9);
        }
        let ratio = best[0] / best[1];
        println!("{name}: proved reply / separate reader's reply: {ratio:.2}");
    }
}

fn main() {
    let mut buffers = buffers(streams::BYTES);
    measure_composing(&mut buffers);
    measure_checks(&mut buffers);
    measure_replies();
    for (name, calls, readers) in inputs() {
        let readers = &READERS[..readers];
        let mut best = [f64::MAX; 3];
        for _ in 0..TURNS {
            for (k, (_, read)) in readers.iter().enumerate() {
                let began = Instant::now();
                let whole = calls.iter().all(|c| is_whole(c, read(c, &mut buffers)));
                best[k] = best[k].min(began.elapsed().as_secs_f64());
                assert!(whole, "{name}: a call did not take its input");
            }
        }
        let bits: usize = calls.iter().map(|c| 8 * c.len()).sum();
        for (k, (who, _)) in readers.iter().enumerate() {
            println!("{name}: {who}: {:.3} ns a bit", best[k] / bits as f64 * 1e9);
        }
        for (k, (who, _)) in readers.iter().enumerate().skip(1) {
            println!("{name}: proved / {who}: {:.2}", best[0] / best[k]);
        }
    }
}

#[test]
fn the_readers_write_the_same_records() {
    for (name, calls, readers) in inputs() {
        for input in &calls {
            let mut written = READERS[..readers].iter().map(|(_, read)| {
                let mut buffers = buffers(input.len());
                (read(input, &mut buffers), buffers)
            });
            let first = written.next();
            assert!(first.as_ref().is_some_and(
                |(taken, _)| is_whole(input, *taken) && (taken.records > 0 || name == "zeros")
            ));
            assert!(written.all(|w| Some(w) == first), "{name}");
        }
    }
}

#[test]
fn the_replies_are_the_same() {
    for (name, input, word) in lines_back() {
        let mut buffers = [vec![0xEE; 1025], vec![0xEE; 1025]];
        let proved = bench::reply(&input, REPLY_BITS, &mut buffers[0]);
        let separate = separate_reply(&input, &mut buffers[1]);
        assert_eq!((proved, separate), (word, word), "{name}");
        assert!(buffers[0] == buffers[1], "{name}");
    }
}

#[test]
fn the_composers_write_the_same_bytes() {
    for list in orders::all() {
        let mut outputs = [vec![0xEE; streams::BYTES], vec![0xEE; streams::BYTES]];
        let bits = composed(&list, &mut outputs[0]);
        assert_eq!(separately(&list, &mut outputs[1]), bits, "{}", list.name);
        assert!(outputs[0] == outputs[1], "{}", list.name);
        read_back(&list, &outputs[0], bits, &mut buffers(streams::BYTES));
    }
}
