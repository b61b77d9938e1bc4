//! What is expected of a call, by the separate reader.

use super::call::{Call, Compose, Open, ReadReply, Take};
use super::image::{image, state, unspecified_places};
use super::layout::{
    reply, verdict, CUT_SHORT, DONE, FRAME, IMAGE_WORDS, LINE_BYTES, LIST_FULL, NO_HEADER, OK,
    RECORD_LINE_BYTES, RESULT_WORDS, UNSOUND, WHOLE, WRONG_BUFFERS, WRONG_PLAN,
};
use reader::listing::push_record;
use reader::{
    accept, compose, frame_part, hex_line, open, read_reply, sound, take, Ending, Plan, Record,
    Reply, State,
};

#[derive(Clone, Debug)]
pub struct Expected {
    /// What the function answers.
    pub answer: u64,
    /// The call with its buffers as they are afterwards.
    pub after: Call,
    /// Places of the image whose words are without a meaning.
    pub unspecified: Vec<usize>,
}

pub fn expected(call: &Call) -> Expected {
    let mut after = call.clone();
    let answer = match &mut after {
        Call::Open(after) => opening(after),
        Call::Take(after) => return taking(after),
        Call::FrameBits { head, value } => {
            let record = Record::from_words([*head, *value]);
            record.frame_bits().unwrap_or(0)
        }
        Call::FramePart { tray, bits } => frame_part(tray, *bits).len() as u64,
        Call::HexLine { line, bytes } => reading(line, bytes),
        Call::RecordLine { line, head, value } => writing(line, [*head, *value]),
        Call::Accept {
            input,
            first,
            count,
        } => accepting(input, *first, *count),
        Call::Compose(after) => composing(after),
        Call::Reply(after) => replying(after),
    };
    Expected {
        answer,
        after,
        unspecified: Vec::new(),
    }
}

/// A refused opening too writes a start state, where there is room for one.
fn opening(call: &mut Open) -> u64 {
    let (number, state) = match plan([call.mask, call.csr, call.feen, call.cnt]) {
        Some(plan) => open(plan, call.cycle),
        None => (Some(WRONG_PLAN as u8), State::start(Plan::DEFAULT, 0)),
    };
    let number = number.map(u64::from);
    if call.image.len() != IMAGE_WORDS {
        return number.unwrap_or(UNSOUND);
    }
    call.image.copy_from_slice(&image(&state));
    number.unwrap_or(OK)
}

/// `None` where a number is beyond its width: no such address or mask exists.
fn plan([mask, csr, feen, cnt]: [u64; 4]) -> Option<Plan> {
    Some(Plan {
        mask: mask.try_into().ok()?,
        csr: csr.try_into().ok()?,
        feen: feen.try_into().ok()?,
        cnt: cnt.try_into().ok()?,
    })
}

fn taking(call: &Take) -> Expected {
    let mut after = call.clone();
    match take_into(&mut after) {
        Ok(taken) => Expected {
            answer: OK,
            unspecified: match taken {
                0 => Vec::new(),
                _ => unspecified_places(&call.image, &after.image),
            },
            after: Call::Take(after),
        },
        // What was lent, not what the reader left: nothing changes.
        Err(number) => Expected {
            answer: number,
            unspecified: Vec::new(),
            after: Call::Take(call.clone()),
        },
    }
}

/// The bits taken. With none the image stays, word for word.
fn take_into(call: &mut Take) -> Result<u64, u64> {
    let state = state(&call.image).filter(sound).ok_or(UNSOUND)?;
    if call.result.len() != RESULT_WORDS {
        return Err(WRONG_BUFFERS);
    }
    let answer = take(
        state,
        &call.input,
        call.first,
        call.count,
        &mut call.store,
        &mut call.tray,
        &mut call.list,
        call.free,
    );
    let ending = match answer.ending {
        Ending::Done => DONE,
        Ending::Frame => FRAME,
        Ending::ListFull => LIST_FULL,
        Ending::Refused(number) => return Err(number.into()),
    };
    if answer.bits_taken != 0 {
        call.image.copy_from_slice(&image(&answer.state));
    }
    call.result = vec![answer.bits_taken, answer.records_written, ending];
    Ok(answer.bits_taken)
}

fn accepting(input: &[u8], first: u64, count: u64) -> u64 {
    match accept(input, first, count) {
        Ok(()) => OK,
        Err(fault) => verdict(fault.number().into(), fault.place),
    }
}

fn composing(call: &mut Compose) -> u64 {
    let Some(plan) = plan([call.mask, call.csr, call.feen, call.cnt]) else {
        return WRONG_PLAN;
    };
    match compose(plan, &call.orders, &call.frames, &mut call.output) {
        Ok(bits) => verdict(OK, bits),
        Err(why) => verdict(why.number().into(), why.order()),
    }
}

fn replying(call: &mut ReadReply) -> u64 {
    let ReadReply {
        input,
        first,
        count,
        expected,
        buffer,
    } = call;
    match read_reply(input, *first, *count, *expected, buffer) {
        Ok(Reply::Whole) => reply(WHOLE, *expected),
        Ok(Reply::NoHeader) => reply(NO_HEADER, 0),
        Ok(Reply::CutShort(bits)) => reply(CUT_SHORT, bits),
        Err(why) => why.number().into(),
    }
}

fn reading(line: &[u8], bytes: &mut [u8]) -> u64 {
    if bytes.len() < LINE_BYTES {
        return WRONG_BUFFERS;
    }
    match hex_line(line) {
        Ok(read) => {
            bytes[..read.len()].copy_from_slice(&read);
            OK
        }
        Err(number) => u64::from(number),
    }
}

fn writing(line: &mut [u8], record: [u64; 2]) -> u64 {
    if line.len() < RECORD_LINE_BYTES {
        return WRONG_BUFFERS;
    }
    let mut written = Vec::new();
    push_record(&mut written, &Record::from_words(record));
    line[..RECORD_LINE_BYTES].copy_from_slice(&written);
    OK
}
