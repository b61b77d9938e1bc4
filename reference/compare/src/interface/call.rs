//! A call of the interface, and its request to the driver.

/// The functions' numbers, as the driver has them.
mod function {
    pub const OPEN: u64 = 1;
    pub const TAKE: u64 = 2;
    pub const FRAME_BITS: u64 = 3;
    pub const FRAME_PART: u64 = 4;
    pub const HEX_LINE: u64 = 5;
    pub const RECORD_LINE: u64 = 6;
    pub const ACCEPT: u64 = 7;
    pub const COMPOSE: u64 = 8;
    pub const REPLY: u64 = 9;
}

/// A call with all that it lends.
#[derive(Clone, Debug)]
pub enum Call {
    Open(Open),
    Take(Take),
    FrameBits {
        head: u64,
        value: u64,
    },
    FramePart {
        tray: Vec<u8>,
        bits: u64,
    },
    HexLine {
        line: Vec<u8>,
        bytes: Vec<u8>,
    },
    RecordLine {
        line: Vec<u8>,
        head: u64,
        value: u64,
    },
    Accept {
        input: Vec<u8>,
        first: u64,
        count: u64,
    },
    Compose(Compose),
    Reply(ReadReply),
}

#[derive(Clone, Debug)]
pub struct Compose {
    pub mask: u64,
    pub csr: u64,
    pub feen: u64,
    pub cnt: u64,
    pub orders: Vec<u64>,
    pub frames: Vec<u8>,
    pub output: Vec<u8>,
}

#[derive(Clone, Debug)]
pub struct ReadReply {
    pub input: Vec<u8>,
    pub first: u64,
    pub count: u64,
    pub expected: u64,
    pub buffer: Vec<u8>,
}

#[derive(Clone, Debug)]
pub struct Open {
    pub mask: u64,
    pub csr: u64,
    pub feen: u64,
    pub cnt: u64,
    pub cycle: u64,
    pub image: Vec<u64>,
}

#[derive(Clone, Debug)]
pub struct Take {
    pub image: Vec<u64>,
    pub input: Vec<u8>,
    pub first: u64,
    pub count: u64,
    pub store: Vec<u32>,
    pub tray: Vec<u8>,
    pub list: Vec<u64>,
    pub free: u64,
    pub result: Vec<u64>,
}

/// The pointer that a slice of length 0 goes with.
#[derive(Clone, Copy, Debug, PartialEq, Eq)]
pub enum Empty {
    /// One that must not be followed: to the end of a block.
    Block,
    Null,
}

impl Call {
    /// Whether a slice of length 0 is lent, which can go with either pointer.
    pub fn lends_empty(&self) -> bool {
        match self {
            Call::Open(open) => open.image.is_empty(),
            Call::Take(take) => {
                [&take.image, &take.list, &take.result]
                    .iter()
                    .any(|words| words.is_empty())
                    || take.input.is_empty()
                    || take.store.is_empty()
                    || take.tray.is_empty()
            }
            Call::FrameBits { .. } => false,
            Call::FramePart { tray, .. } => tray.is_empty(),
            Call::HexLine { line, bytes } => line.is_empty() || bytes.is_empty(),
            Call::RecordLine { line, .. } => line.is_empty(),
            Call::Accept { input, .. } => input.is_empty(),
            Call::Compose(compose) => {
                compose.orders.is_empty() || compose.frames.is_empty() || compose.output.is_empty()
            }
            Call::Reply(reply) => reply.input.is_empty() || reply.buffer.is_empty(),
        }
    }

    /// The words that ask the driver for this call.
    pub fn request(&self, empty: Empty) -> Vec<u8> {
        let mut request = Request {
            bytes: Vec::new(),
            empty,
        };
        match self {
            Call::Open(open) => {
                let Open {
                    mask,
                    csr,
                    feen,
                    cnt,
                    cycle,
                    image,
                } = open;
                request.words(&[function::OPEN, *mask, *csr, *feen, *cnt, *cycle]);
                request.words_slice(image);
            }
            Call::Take(take) => request.take(take),
            Call::FrameBits { head, value } => {
                request.words(&[function::FRAME_BITS, *head, *value])
            }
            Call::FramePart { tray, bits } => {
                request.words(&[function::FRAME_PART]);
                request.bytes_slice(tray);
                request.words(&[*bits]);
            }
            Call::HexLine { line, bytes } => {
                request.words(&[function::HEX_LINE]);
                request.bytes_slice(line);
                request.bytes_slice(bytes);
            }
            Call::RecordLine { line, head, value } => {
                request.words(&[function::RECORD_LINE]);
                request.bytes_slice(line);
                request.words(&[*head, *value]);
            }
            Call::Accept {
                input,
                first,
                count,
            } => {
                request.words(&[function::ACCEPT]);
                request.bytes_slice(input);
                request.words(&[*first, *count]);
            }
            Call::Compose(compose) => request.compose(compose),
            Call::Reply(reply) => {
                request.words(&[function::REPLY]);
                request.bytes_slice(&reply.input);
                request.words(&[reply.first, reply.count, reply.expected]);
                request.bytes_slice(&reply.buffer);
            }
        }
        request.bytes
    }
}

struct Request {
    bytes: Vec<u8>,
    empty: Empty,
}

impl Request {
    fn words(&mut self, words: &[u64]) {
        self.bytes
            .extend(words.iter().flat_map(|w| w.to_le_bytes()));
    }

    /// What stands ahead of a slice's elements.
    fn slice(&mut self, length: usize) {
        let null = length == 0 && self.empty == Empty::Null;
        self.words(&[length as u64, u64::from(null)]);
    }

    fn words_slice(&mut self, words: &[u64]) {
        self.slice(words.len());
        self.words(words);
    }

    fn bytes_slice(&mut self, bytes: &[u8]) {
        self.slice(bytes.len());
        self.bytes.extend_from_slice(bytes);
    }

    fn compose(&mut self, compose: &Compose) {
        let Compose {
            mask,
            csr,
            feen,
            cnt,
            ..
        } = *compose;
        self.words(&[function::COMPOSE, mask, csr, feen, cnt]);
        self.words_slice(&compose.orders);
        self.bytes_slice(&compose.frames);
        self.bytes_slice(&compose.output);
    }

    fn take(&mut self, take: &Take) {
        self.words(&[function::TAKE]);
        self.words_slice(&take.image);
        self.bytes_slice(&take.input);
        self.words(&[take.first, take.count]);
        self.slice(take.store.len());
        self.bytes
            .extend(take.store.iter().flat_map(|word| word.to_le_bytes()));
        self.bytes_slice(&take.tray);
        self.words_slice(&take.list);
        self.words(&[take.free]);
        self.words_slice(&take.result);
    }
}
