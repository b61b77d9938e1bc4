//! The recogniser: from bits to commands ("Hunting", "Slow commands").

use crate::group::Group;
use crate::slow;
use crate::tray::FrameBit;
use crate::window::{meaning, slide, Meaning};

/// Where the recogniser stands. `held` is the number that the bits received
/// of a field make, highest first. Widths are generous so that a caller can
/// hand over values that are unsound.
#[derive(Clone, Copy, Debug, PartialEq, Eq)]
pub enum Recogniser {
    /// Document 01's "window", five bits.
    Hunting {
        window: u8,
    },
    Body {
        held: u8,
        received: u8,
    },
    Field3 {
        held: u8,
        received: u8,
    },
    Field4 {
        field3: u8,
        held: u8,
        received: u8,
    },
    Field5 {
        field3: u8,
        field4: u8,
        held: u32,
        received: u32,
        group: Group,
    },
}

/// A command or error whose last bit has come.
#[derive(Clone, Copy, Debug, PartialEq, Eq)]
pub enum Command {
    /// With the position of the bit that was hit, which is not 0 exactly
    /// when the LV1 is one with flip (document 02, F-1).
    Lv1 {
        position: u8,
    },
    /// BCR, ECR, CAL or SYNC, by its body.
    Fast {
        body: u8,
    },
    BadFast {
        body: u8,
    },
    Slow {
        field3: u8,
        field4: u8,
        /// Field 5, where the command keeps it.
        field5: u32,
        unsteady: bool,
    },
    BadSlow {
        field3: u8,
    },
}

/// What the recogniser asks for in one cycle.
#[derive(Clone, Copy, Debug, PartialEq, Eq)]
pub struct Step {
    pub leaves_run_mode: bool,
    pub frame_bit: Option<FrameBit>,
    pub command: Option<Command>,
}

pub const BCR: u8 = 0b0001;
pub const ECR: u8 = 0b0010;
pub const CAL: u8 = 0b0100;
pub const SYNC: u8 = 0b1000;
pub const SLOW: u8 = 0b1011;

/// Bits of a body, of Field 3 and of Field 4.
pub const FIELD_BITS: u8 = 4;

impl Step {
    const NOTHING: Step = Step {
        leaves_run_mode: false,
        frame_bit: None,
        command: None,
    };

    fn command(command: Command) -> Step {
        Step {
            command: Some(command),
            ..Step::NOTHING
        }
    }
}

impl Recogniser {
    /// Hunting with an empty window, as after every command.
    pub const IDLE: Recogniser = Recogniser::Hunting { window: 0 };

    /// Takes one bit; `cnt` is the present CNT.
    #[inline]
    pub fn step(&mut self, bit: bool, cnt: u16) -> Step {
        match *self {
            Recogniser::Hunting { window } => self.hunt(window, bit),
            Recogniser::Body { held, received } => self.body(held << 1 | u8::from(bit), received),
            Recogniser::Field3 { held, received } => {
                self.field3(held << 1 | u8::from(bit), received)
            }
            Recogniser::Field4 {
                field3,
                held,
                received,
            } => self.field4(field3, held << 1 | u8::from(bit), received, cnt),
            Recogniser::Field5 { .. } => self.field5(bit, cnt),
        }
    }

    #[inline]
    fn hunt(&mut self, window: u8, bit: bool) -> Step {
        let window = slide(window, bit);
        match meaning(window) {
            Meaning::Nothing => {
                *self = Recogniser::Hunting { window };
                Step::NOTHING
            }
            Meaning::Lv1 { position } => self.end(Command::Lv1 { position }),
            Meaning::Header => {
                *self = Recogniser::Body {
                    held: 0,
                    received: 0,
                };
                Step::NOTHING
            }
        }
    }

    fn body(&mut self, held: u8, received: u8) -> Step {
        let received = received + 1;
        if received < FIELD_BITS {
            *self = Recogniser::Body { held, received };
            return Step::NOTHING;
        }
        match held {
            BCR | ECR | CAL | SYNC => self.end(Command::Fast { body: held }),
            SLOW => {
                *self = Recogniser::Field3 {
                    held: 0,
                    received: 0,
                };
                // RunMode ends at the ninth header bit of any Slow.
                Step {
                    leaves_run_mode: true,
                    ..Step::NOTHING
                }
            }
            _ => self.end(Command::BadFast { body: held }),
        }
    }

    fn field3(&mut self, held: u8, received: u8) -> Step {
        let received = received + 1;
        *self = if received < FIELD_BITS {
            Recogniser::Field3 { held, received }
        } else {
            Recogniser::Field4 {
                field3: held,
                held: 0,
                received: 0,
            }
        };
        Step::NOTHING
    }

    fn field4(&mut self, field3: u8, held: u8, received: u8, cnt: u16) -> Step {
        let received = received + 1;
        if received < FIELD_BITS {
            *self = Recogniser::Field4 {
                field3,
                held,
                received,
            };
            return Step::NOTHING;
        }
        match slow::field5_cycles(field3, cnt) {
            None => self.end(Command::BadSlow { field3 }),
            // A Field 5 of length 0 ends with Field 4.
            Some(0) => self.end(Command::Slow {
                field3,
                field4: held,
                field5: 0,
                unsteady: false,
            }),
            Some(_) => {
                *self = Recogniser::Field5 {
                    field3,
                    field4: held,
                    held: 0,
                    received: 0,
                    group: Group::default(),
                };
                Step::NOTHING
            }
        }
    }

    fn field5(&mut self, bit: bool, cnt: u16) -> Step {
        let Recogniser::Field5 {
            field3,
            field4,
            held,
            received,
            group,
        } = self
        else {
            return Step::NOTHING;
        };
        let mut frame_bit = None;
        match *field3 {
            grouped if slow::has_groups(grouped) => {
                frame_bit = group
                    .take(*received % slow::GROUP_CYCLES, bit)
                    .map(|bit| FrameBit {
                        place: *received / slow::GROUP_CYCLES,
                        bit,
                    });
            }
            slow::WR_RECEIVER => {
                frame_bit = Some(FrameBit {
                    place: *received,
                    bit,
                });
            }
            kept if slow::keeps_field5(kept) => *held = *held << 1 | u32::from(bit),
            _ => {}
        }
        *received += 1;
        if slow::field5_cycles(*field3, cnt).is_some_and(|cycles| *received < cycles) {
            return Step {
                frame_bit,
                ..Step::NOTHING
            };
        }
        let command = Command::Slow {
            field3: *field3,
            field4: *field4,
            field5: *held,
            unsteady: group.unsteady,
        };
        Step {
            frame_bit,
            ..self.end(command)
        }
    }

    /// The window returns to 00000 after every command and error.
    fn end(&mut self, command: Command) -> Step {
        *self = Recogniser::IDLE;
        Step::command(command)
    }
}
