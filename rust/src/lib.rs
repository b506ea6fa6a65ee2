//! A software stand-in for the GBT-SCA slow control adapter.
//!
//! The work is done by `libsca.a`, whose every call is proved; this crate gives its calls types. `include/sca.h` is the
//! archive's manual. Nothing here is unsafe but [`boundary`], which hands slices over.
//!
//! A [`Receiver`] reads frames from cable bits, an [`Adapter`] answers their bodies, and [`transmit`] frames the answers:
//!
// The example is a program of examples/, which the tests build and run.
#![doc = concat!("```\n", include_str!("../examples/connect.rs"), "```")]
//!
//! What a logic probe saw goes in at once, as a [`Sample`] for each moment: [`Adapter::samples`].
//!
//! The last 64 events can be taken back, with a large journal the last 200: [`Adapter::with_journal`] begins with one,
//! [`Adapter::enlarge`] goes over to one, in the middle of a branch too.
//!
//! At the other end of the link a [`ControlRoom`] writes requests, reads their replies and interrupts, and keeps which
//! transactions are open. `examples/control_room.rs` has both ends, with a cable between them.
//!
//! A call that is refused gives a [`Refusal`] and changes nothing.

#![deny(unsafe_code)]
#![warn(missing_docs)]

mod adapter;
mod answers;
#[allow(unsafe_code)]
pub mod boundary;
mod bytes;
mod control_room;
mod link;
mod sizes;

pub use adapter::Adapter;
pub use answers::{text, Answer, Batch, Broken, Dropped, Edge, Heard, LinkCommand, Port, Received, Refusal, Reply};
pub use answers::{Request, Sample, Transaction};
pub use bytes::{Bodies, Body, Bytes, Frame};
pub use control_room::ControlRoom;
pub use link::{transmit, Listening, Receiver};
pub use sizes::JournalSize;
pub use sizes::{
    ANSWER_BYTES, BATCH_LEAST, BODY_LEAST, BODY_MOST, CABLE_MOST, I2C_FIRST, I2C_LAST, I2C_MOST, ID_MOST, INPUT_MOST,
    JOURNAL_BYTES, KEPT_MOST, LARGE_JOURNAL_BYTES, LARGE_KEPT_MOST, OUTPUT_LEAST, RECEIVER_BYTES, RECORD_BYTES,
    REPLY_BYTES, SAMPLES_MOST, STATE_BYTES, TRANSACTIONS_MOST, TRANSFER_BYTES, VERSION,
};

/// The version of the archive that was linked: [`VERSION`], where it is the one that this crate is made for.
pub fn version() -> u64 {
    boundary::sca_version()
}
