//! Commands sent too close (document 02, F-5): every command after every kind
//! of earlier record, with few zeros between, in and out of RunMode; pairs in
//! calls that part them at every place and in one-bit calls, with a CNT just
//! written and a GlobalResetMCC between; and states whose command began ahead
//! of the earlier record, or ahead of cycle 0.
//!
//! That the separate reader has the flag that the case says is a check of its
//! own; the timing table stands here once more for it.

use super::call::Take;
use super::checker::Checker;
use super::image::image;
use super::layout::{DONE, OK, RESULT_WORDS};
use super::prefilled;
use super::states::EARLIER_KINDS;
use cases::code::{self, FLIPPED_LV1, LV1_TAIL};
use cases::{Random, Stream};
use reader::group::Group;
use reader::limits::RECORD_WORDS;
use reader::record::{flag, kind};
use reader::{slow, Earlier, Plan, Recogniser, Record, State};
use std::io;

/// The next cycle of most states.
const CYCLE: u64 = 1_000;

/// One data bit and eight control bits, or 72 bits of a WrReceiver.
const CNT: u16 = 0x0009;

/// Most zeros between two commands; the timing table asks for four at most.
const MOST_ZEROS: usize = 6;

const BCR: u8 = kind::FAST + code::BCR;
const ECR: u8 = kind::FAST + code::ECR;
const CAL: u8 = kind::FAST + code::CAL;
const SYNC: u8 = kind::FAST + code::SYNC;

pub fn check(checker: &mut Checker) -> io::Result<()> {
    let mut random = Random::new(0xF5);
    after_every_kind(checker, &mut random)?;
    for pair in pairs() {
        pair.parted(checker, &mut random)?;
    }
    overlapping(checker, &mut random)
}

/// The zeros that the timing table asks between two kinds.
fn zeros_asked(first: u8, second: u8) -> i64 {
    match (first, second) {
        (SYNC, kind::LV1) => 4,
        (_, kind::LV1) => 0,
        (BCR, _) => 2,
        (ECR, _) => 1,
        _ => 0,
    }
}

/// Flag 20 by a distance, if there is an earlier record at all.
fn flag_by(earlier_kind: u8, kind: u8, distance: i64) -> u8 {
    if earlier_kind != 0 && distance < zeros_asked(earlier_kind, kind) {
        flag::TOO_CLOSE
    } else {
        0
    }
}

/// A command and the kind of its record.
#[derive(Clone)]
pub struct Command {
    pub kind: u8,
    pub stream: Stream,
}

impl Command {
    /// Where its first bit lies, counted from its pattern's: 1101 begins with
    /// the 0 of an empty window.
    fn ahead(&self) -> i64 {
        match self.stream == Stream::new().pattern(LV1_TAIL) {
            true => -1,
            false => 0,
        }
    }
}

/// A command of each kind, an LV1 with each bit hit, and both kinds of error;
/// the frames by CNT.
pub fn commands(cnt: u16) -> Vec<Command> {
    let new = Stream::new;
    let lv1 = FLIPPED_LV1.into_iter().chain([code::LV1, LV1_TAIL]);
    let lv1 = lv1.map(|bits| (kind::LV1, new().pattern(bits)));
    let fasts = [code::BCR, code::ECR, code::CAL, code::SYNC];
    let fasts = fasts.map(|body| (kind::FAST + body, new().fast(body)));
    let slows = [
        (code::WR_REGISTER, new().wr_register(2, 0xFFFF)),
        (code::RD_REGISTER, new().rd_register(2)),
        (code::WR_FIFO, new().wr_fifo(0x07FF_FFFF)),
        (code::RD_FIFO, new().rd_fifo(15)),
        (code::WR_FRONT_END, frame(code::WR_FRONT_END, cnt)),
        (code::RD_FRONT_END, frame(code::RD_FRONT_END, cnt)),
        (code::WR_RECEIVER, frame(code::WR_RECEIVER, cnt)),
        (code::EN_DATA_TAKE, new().en_data_take()),
        (code::GLOBAL_RESET_MCC, new().reset_mcc()),
        (code::GLOBAL_RESET_FE, new().reset_fe(15)),
    ];
    let slows = slows.map(|(field3, stream)| (kind::SLOW + field3, stream));
    let errors = [
        (kind::BAD_FAST, new().fast(0b1111)),
        (kind::BAD_SLOW, new().slow(0b1011, 0b1111)),
    ];
    let all = lv1.chain(fasts).chain(slows).chain(errors);
    all.map(|(kind, stream)| Command { kind, stream }).collect()
}

fn frame(field3: u8, cnt: u16) -> Stream {
    let bits = |count: u32| (0..count).map(|n| n % 3 == 0).collect::<Vec<bool>>();
    match field3 {
        code::WR_RECEIVER => Stream::new().wr_receiver(&bits(code::receiver_bits(cnt))),
        _ => Stream::new().front_end(field3, &bits(code::front_end_bits(cnt))),
    }
}

/// The kinds of an earlier record: those of every command, and others.
fn earlier_kinds() -> Vec<u8> {
    let of_commands = commands(0).into_iter().map(|command| command.kind);
    let mut kinds: Vec<u8> = of_commands.chain(EARLIER_KINDS).collect();
    kinds.sort();
    kinds.dedup();
    kinds
}

fn start(run_mode: bool, earlier: Earlier) -> State {
    let mut state = State::start(Plan::DEFAULT, CYCLE);
    state.base_cycle = CYCLE - 100;
    state.run_mode = run_mode;
    state.registers[usize::from(state.plan.cnt)] = CNT;
    state.earlier = earlier;
    state
}

/// A call with room for several records, that takes no bit yet.
fn taking(state: &State, stream: &Stream, random: &mut Random) -> Take {
    let free = 3;
    Take {
        image: image(state).to_vec(),
        input: stream.bytes(),
        first: 0,
        count: 0,
        store: prefilled::store(random),
        tray: prefilled::tray(random),
        list: prefilled::words(random, free + 2 * RECORD_WORDS),
        free: free as u64,
        result: prefilled::words(random, RESULT_WORDS),
    }
}

/// Every command after an earlier record that the image has, of every kind.
fn after_every_kind(checker: &mut Checker, random: &mut Random) -> io::Result<()> {
    for earlier_kind in earlier_kinds() {
        for command in commands(CNT) {
            for zeros in 0..=MOST_ZEROS {
                for run_mode in [true, false] {
                    let earlier = Earlier {
                        time: CYCLE - 1,
                        kind: earlier_kind,
                    };
                    let state = start(run_mode, earlier);
                    let stream = Stream::new().zeros(zeros).raw(&command.stream.bits);
                    let distance = zeros as i64 + command.ahead();
                    let pair = Pair {
                        name: format!("{earlier_kind:02X}, {zeros} zeros, {}", mode(run_mode)),
                        flags: vec![flag_by(earlier_kind, command.kind, distance)],
                        kinds: vec![command.kind],
                        state,
                        stream,
                    };
                    pair.in_pieces(checker, "whole", &[pair.stream.bits.len()], random)?;
                }
            }
        }
    }
    Ok(())
}

fn mode(run_mode: bool) -> &'static str {
    if run_mode {
        "in RunMode"
    } else {
        "out of RunMode"
    }
}

/// A stream of some commands, and what its records have.
struct Pair {
    name: String,
    state: State,
    stream: Stream,
    kinds: Vec<u8>,
    /// Flag 20 of each.
    flags: Vec<u8>,
}

/// Pairs and their zeros, just kept and not.
fn pairs() -> Vec<Pair> {
    let new = Stream::new;
    let command = |kind, stream| Command { kind, stream };
    let lv1 = command(kind::LV1, new().lv1());
    let hit = command(kind::LV1, new().pattern("11001"));
    let tail = command(kind::LV1, new().pattern(LV1_TAIL));
    let [bcr, ecr, cal, sync] = [BCR, ECR, CAL, SYNC].map(|kind| {
        let body = kind - kind::FAST;
        command(kind, new().fast(body))
    });
    let bad_fast = command(kind::BAD_FAST, new().fast(0b0011));
    let bad_slow = command(kind::BAD_SLOW, new().slow(0b0111, 0));
    let of_slow = |field3, stream| command(kind::SLOW + field3, stream);
    let read = of_slow(code::RD_REGISTER, new().rd_register(2));
    let reset = of_slow(code::GLOBAL_RESET_MCC, new().reset_mcc());
    let small = of_slow(code::WR_REGISTER, new().wr_register(5, 8));
    let by = |field3, cnt| of_slow(field3, frame(field3, cnt));
    let lists: Vec<(Vec<&Command>, usize)> = vec![
        (vec![&bcr, &cal], 2),
        (vec![&bcr, &bad_fast], 2),
        (vec![&bcr, &read], 2),
        (vec![&ecr, &bcr], 1),
        (vec![&ecr, &bad_slow], 1),
        (vec![&sync, &lv1], 4),
        (vec![&sync, &hit], 4),
        (vec![&sync, &ecr], 1),
        (vec![&bad_fast, &bcr], 1),
        (vec![&lv1, &tail], 1),
        (vec![&bcr, &reset, &bcr], 2),
        (vec![&reset, &tail, &sync], 1),
    ];
    let mut pairs: Vec<Pair> = Vec::new();
    for (list, asked) in &lists {
        for zeros in [asked - 1, *asked] {
            pairs.push(Pair::new(list, zeros));
        }
    }
    // Frames by the state's CNT, and by one that is written just ahead.
    for field3 in [code::WR_FRONT_END, code::RD_FRONT_END, code::WR_RECEIVER] {
        for zeros in 0..=2 {
            pairs.push(Pair::new(&[&bcr, &by(field3, CNT)], zeros));
            pairs.push(Pair::new(&[&ecr, &small, &by(field3, 8)], zeros));
            pairs.push(Pair::new(&[&bcr, &reset, &by(field3, 0)], zeros));
        }
    }
    pairs
}

impl Pair {
    /// Commands with so many zeros between each two, from a state with no
    /// earlier record.
    fn new(list: &[&Command], zeros: usize) -> Pair {
        let mut stream = Stream::new().raw(&list[0].stream.bits);
        let mut flags = vec![0];
        for pair in list.windows(2) {
            stream = stream.zeros(zeros).raw(&pair[1].stream.bits);
            let distance = zeros as i64 + pair[1].ahead();
            flags.push(flag_by(pair[0].kind, pair[1].kind, distance));
        }
        let kinds: Vec<u8> = list.iter().map(|command| command.kind).collect();
        let named: Vec<_> = kinds.iter().map(|kind| format!("{kind:02X}")).collect();
        Pair {
            name: format!("{}, {zeros} zeros", named.join(" ")),
            state: start(true, Earlier::NONE),
            stream,
            kinds,
            flags,
        }
    }

    /// In two calls, cut at every place, and in one-bit calls.
    fn parted(&self, checker: &mut Checker, random: &mut Random) -> io::Result<()> {
        let count = self.stream.bits.len();
        for cut in 0..=count {
            let name = format!("cut at {cut}");
            self.in_pieces(checker, &name, &[cut, count - cut], random)?;
        }
        self.in_pieces(checker, "in one-bit calls", &vec![1; count], random)
    }

    fn in_pieces(
        &self,
        checker: &mut Checker,
        how: &str,
        pieces: &[usize],
        random: &mut Random,
    ) -> io::Result<()> {
        let name = format!("crowding, {}, {how}", self.name);
        let mut take = taking(&self.state, &self.stream, random);
        let mut records: Vec<Record> = Vec::new();
        for &piece in pieces {
            take.count = piece as u64;
            take = go_on(checker, &name, take, &mut records)?;
        }
        let kinds = records.iter().map(|record| record.kind);
        let flags = records.iter().map(|record| record.flags & flag::TOO_CLOSE);
        let as_said = kinds.eq(self.kinds.iter().copied()) && flags.eq(self.flags.iter().copied());
        let fault = (!as_said).then(|| format!("the separate reader has {records:X?}"));
        checker.report(format!("{name}, its flags"), fault)
    }
}

/// Takes the rest of a call's bits, going on after 'frame' and 'list full'.
/// Answers the call for the bits that follow.
fn go_on(
    checker: &mut Checker,
    name: &str,
    mut take: Take,
    records: &mut Vec<Record>,
) -> io::Result<Take> {
    loop {
        let (answer, after) = checker.take(format!("{name}, from {}", take.first), take)?;
        if answer != OK {
            let fault = format!("the separate reader rejects it with {answer}");
            checker.report(name.to_string(), Some(fault))?;
            return Ok(after);
        }
        let [taken, written, ending] = after.result[..] else {
            unreachable!("a result has three words");
        };
        let words = after.list[after.free as usize..].chunks_exact(RECORD_WORDS);
        let written = words.take(written as usize);
        records.extend(written.map(|words| Record::from_words([words[0], words[1]])));
        take = after;
        take.first += taken;
        take.count -= taken;
        if ending == DONE || take.count == 0 {
            return Ok(take);
        }
    }
}

/// The last bit of a command that began ahead of the earlier record, which
/// streams have only for 1101; with few cycles behind it also ahead of cycle
/// 0, and of the longest frame.
fn overlapping(checker: &mut Checker, random: &mut Random) -> io::Result<()> {
    for cnt in [CNT, 0xFFFF] {
        for (kind, cycles, recogniser, bit) in last_bits(cnt) {
            for next in [1, 2, 5, CYCLE, 66_100] {
                for back in [
                    1,
                    2,
                    4,
                    5,
                    6,
                    9,
                    10,
                    11,
                    12,
                    40,
                    cycles,
                    cycles + 1,
                    cycles + 2,
                ] {
                    if back > next {
                        continue;
                    }
                    for earlier_kind in EARLIER_KINDS {
                        let mut state = start(false, Earlier::NONE);
                        state.registers[usize::from(state.plan.cnt)] = cnt;
                        (state.next_cycle, state.base_cycle) = (next, 0);
                        state.recogniser = recogniser;
                        state.earlier = Earlier {
                            time: next - back,
                            kind: earlier_kind,
                        };
                        // From the cycle after the earlier record to its last.
                        let distance = back as i64 - cycles as i64;
                        let last = Pair {
                            name: format!(
                                "{recogniser:?}, cycle {next}, {earlier_kind:02X} {back} back"
                            ),
                            state,
                            stream: Stream::new().raw(&[bit]),
                            kinds: vec![kind],
                            flags: vec![flag_by(earlier_kind, kind, distance)],
                        };
                        last.in_pieces(checker, "last bit", &[1], random)?;
                    }
                }
            }
        }
    }
    Ok(())
}

/// The kind and the cycles of a command, a sound recogniser just ahead of its
/// last bit, and that bit.
fn last_bits(cnt: u16) -> Vec<(u8, u64, Recogniser, bool)> {
    let hunting = |window| Recogniser::Hunting { window };
    let body = |held| Recogniser::Body { held, received: 3 };
    let field4 = |field3| Recogniser::Field4 {
        field3,
        held: 0,
        received: 3,
    };
    let mut last = vec![
        (kind::LV1, 5, hunting(0b01110), true),
        (kind::LV1, 5, hunting(0b10110), true),
        (BCR, 9, body(0b000), true),
        (kind::BAD_FAST, 9, body(0b111), true),
        (
            kind::SLOW + slow::EN_DATA_TAKE,
            17,
            field4(slow::EN_DATA_TAKE),
            false,
        ),
        (kind::BAD_SLOW, 17, field4(0b0111), true),
    ];
    for field3 in [
        slow::WR_REGISTER,
        slow::RD_FIFO,
        slow::WR_FRONT_END,
        slow::WR_RECEIVER,
    ] {
        let cycles = slow::field5_cycles(field3, cnt).unwrap_or(0);
        let field5 = Recogniser::Field5 {
            field3,
            field4: 2,
            held: 0,
            received: cycles - 1,
            group: Group::default(),
        };
        last.push((kind::SLOW + field3, 17 + u64::from(cycles), field5, true));
    }
    last
}
