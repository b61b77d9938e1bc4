//! The separate reader: a plain reader of the MCC-I2.1 command line, one bit
//! a cycle, written from the papers. It depends on nothing but the standard
//! library, and knows nothing of the reader that is compared with it.
//!
//! "Document 01" is the paper that decides; comments cite its section names,
//! and the code stays close to its words. "Document 02" holds the requests
//! that change it, cited by their numbers.

#![forbid(unsafe_code)]

pub mod accept;
pub mod command;
pub mod compose;
pub mod composing;
pub mod cycle;
pub mod decoder;
pub mod effect;
pub mod group;
pub mod hex;
pub mod hunting;
pub mod limits;
pub mod listing;
pub mod message;
pub mod model;
pub mod order;
pub mod order_line;
pub mod plan;
pub mod program;
pub mod recogniser;
pub mod record;
pub mod refusal;
pub mod reply;
pub mod replying;
pub mod slow;
pub mod sound;
pub mod state;
pub mod system;
pub mod take;
pub mod timing;
pub mod tray;
pub mod window;
pub mod words;

pub use accept::{accept, Fault, Judge, WhyNot};
pub use command::Status;
pub use compose::{compose, Composer, NotComposed, Unfit};
pub use hex::hex_line;
pub use order::{Frame, Order};
pub use order_line::{order_line, WrongLine, WrongOrders};
pub use plan::Plan;
pub use program::{model, reading, reply, station, Program};
pub use recogniser::Recogniser;
pub use record::Record;
pub use refusal::{Refusal, Refused, Why};
pub use reply::{read_reply, DataBits, NoReply, Reply, ReplyReader};
pub use replying::NotWhole;
pub use sound::sound;
pub use state::{open, State, Warnings};
pub use system::System;
pub use take::{take, Answer, Ending};
pub use timing::Earlier;
pub use tray::frame_part;
