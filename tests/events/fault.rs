//! Changes to our side, by which the comparison shows that it can fail.

use crate::record::{CRB, CRC, CRD};

#[derive(Clone, Copy, PartialEq, Eq, Debug)]
pub enum Fault {
    Number,
    Port,
    Length,
    Body,
    OutputAfterBody,
    OutsideOutput,
    State,
    Master,
    RestoredState,
    RefusedState,
    Tag,
    Record,
    /// In a record of this tag.
    Group(u8),
    BehindRecord,
    UnusedJournal,
    RefusedJournal,
    RefusedOutput,
    KeptNumber,
    Created,
    /// In a large journal: 64 kept, and version 1 after an emptying.
    KeepsSixtyFour,
    EmptiedAsSmall,
    /// In a batch of pin samples.
    Batch(BatchFault),
    /// In an enlarging.
    Enlarge(EnlargeFault),
}

/// What a batch could do wrong.
#[derive(Clone, Copy, PartialEq, Eq, Debug)]
pub enum BatchFault {
    Number,
    NumberAlone,
    Port,
    Length,
    Frames,
    Sum,
    SumUnsent,
    Body,
    Order,
    SamplePlace,
    OutputBehind,
    OutsideOutput,
    State,
    Record,
    OneRecord,
    Unkept,
    StopsAtFrame,
    LastLeftOut,
    EmptyKept,
    FirstsDone,
    RefusedState,
    RefusedJournal,
    RefusedOutput,
}

/// What an enlarging could do wrong.
#[derive(Clone, Copy, PartialEq, Eq, Debug)]
pub enum EnlargeFault {
    Number,
    FirstChanged,
    SlotOfFirstChanged,
    KeptTooHigh,
    KeptTooLow,
    Version,
    FirstKept,
    OldestForgotten,
    NewestForgotten,
    RingOrder,
    BehindRecord,
    BehindKept,
    Unused,
    OutsideSecond,
    LargeTaken,
    LongerTaken,
    SecondFirst,
    RefusedSecond,
    RefusedFirst,
}

const FAULTS: [(Fault, &str); 23] = [
    (Fault::Number, "an event's number changed"),
    (Fault::Port, "a frame's port changed"),
    (Fault::Length, "a frame's length changed"),
    (Fault::Body, "a byte of a body changed"),
    (Fault::OutputAfterBody, "a byte of output after a body changed"),
    (Fault::OutsideOutput, "a byte behind the output changed"),
    (Fault::State, "a bit of the state after an event changed"),
    (Fault::Master, "a bit of an I2C master after an event changed"),
    (Fault::RestoredState, "a bit of the state after a step back changed"),
    (Fault::RefusedState, "a bit of the state at a refused call changed"),
    (Fault::Tag, "a record's tag changed"),
    (Fault::Record, "a bit of the core in a record changed"),
    (Fault::Group(CRB), "a bit of CRB's group in a record changed"),
    (Fault::Group(CRC), "a bit of CRC's group in a record changed"),
    (Fault::Group(CRD), "a bit of CRD's group in a record changed"),
    (Fault::BehindRecord, "a bit of a slot behind its record changed"),
    (Fault::UnusedJournal, "a bit of the journal that no call uses changed"),
    (Fault::RefusedJournal, "a bit of the journal at a refused call changed"),
    (Fault::RefusedOutput, "a byte of output at a refused call changed"),
    (Fault::KeptNumber, "the kept number changed"),
    (Fault::Created, "a bit of a new state changed"),
    (Fault::KeepsSixtyFour, "64 kept in a large journal"),
    (Fault::EmptiedAsSmall, "version 1 in a large journal made empty"),
];

const BATCH_FAULTS: [(BatchFault, &str); 23] = [
    (BatchFault::Number, "a batch's number changed"),
    (BatchFault::NumberAlone, "16 for a batch with GPIO disabled"),
    (BatchFault::Port, "a batch's port changed"),
    (BatchFault::Length, "a batch's length changed"),
    (BatchFault::Frames, "a batch's frames, one too few"),
    (BatchFault::Sum, "a batch's sum, one too high"),
    (BatchFault::SumUnsent, "lines counted that fired with INTENABLE 0"),
    (BatchFault::Body, "a byte of a batch's last body changed"),
    (BatchFault::Order, "two bodies in each other's place"),
    (BatchFault::SamplePlace, "a body at its sample's place"),
    (
        BatchFault::OutputBehind,
        "a byte of output behind a batch's bodies changed",
    ),
    (BatchFault::OutsideOutput, "a byte behind a batch's output changed"),
    (BatchFault::State, "a bit of the state after a batch changed"),
    (
        BatchFault::Record,
        "a bit of the oldest record that a batch left changed",
    ),
    (BatchFault::OneRecord, "one record for all samples"),
    (BatchFault::Unkept, "samples not kept with GPIO disabled"),
    (BatchFault::StopsAtFrame, "a batch that stops at its first frame"),
    (BatchFault::LastLeftOut, "a batch without its last sample"),
    (BatchFault::EmptyKept, "an empty batch that is kept"),
    (
        BatchFault::FirstsDone,
        "a refused batch that has done its first samples",
    ),
    (
        BatchFault::RefusedState,
        "a bit of the state at a refused batch changed",
    ),
    (
        BatchFault::RefusedJournal,
        "a bit of the journal at a refused batch changed",
    ),
    (BatchFault::RefusedOutput, "a byte of output at a refused batch changed"),
];

const ENLARGE_FAULTS: [(EnlargeFault, &str); 19] = [
    (EnlargeFault::Number, "an enlarging's number changed"),
    (
        EnlargeFault::FirstChanged,
        "a bit of the journal that is enlarged changed",
    ),
    (
        EnlargeFault::SlotOfFirstChanged,
        "a bit of a slot of the journal that is enlarged changed",
    ),
    (
        EnlargeFault::KeptTooHigh,
        "an enlarged journal's kept number, one too high",
    ),
    (
        EnlargeFault::KeptTooLow,
        "an enlarged journal's kept number, one too low",
    ),
    (EnlargeFault::Version, "version 1 in an enlarged journal"),
    (
        EnlargeFault::FirstKept,
        "the first slot as it was in an enlarged journal",
    ),
    (
        EnlargeFault::OldestForgotten,
        "an enlarged journal without its oldest record",
    ),
    (
        EnlargeFault::NewestForgotten,
        "an enlarged journal without its newest record",
    ),
    (
        EnlargeFault::RingOrder,
        "records of an enlarged journal in the order of their slots",
    ),
    (
        EnlargeFault::BehindRecord,
        "a slot of an enlarged journal not copied to its end",
    ),
    (
        EnlargeFault::BehindKept,
        "a bit of an enlarged journal behind the kept slots changed",
    ),
    (
        EnlargeFault::Unused,
        "a bit of an enlarged journal that no call uses changed",
    ),
    (EnlargeFault::OutsideSecond, "a byte behind the second buffer changed"),
    (EnlargeFault::LargeTaken, "a large journal enlarged"),
    (EnlargeFault::LongerTaken, "a second buffer taken that is too long"),
    (EnlargeFault::SecondFirst, "1 before 4 by an enlarging"),
    (
        EnlargeFault::RefusedSecond,
        "a bit of the second buffer at a refused enlarging changed",
    ),
    (
        EnlargeFault::RefusedFirst,
        "a bit of the journal at a refused enlarging changed",
    ),
];

/// Every fault, with its name.
pub fn faults() -> impl Iterator<Item = (Fault, &'static str)> {
    let in_a_batch = BATCH_FAULTS.map(|(fault, name)| (Fault::Batch(fault), name));
    let in_an_enlarging = ENLARGE_FAULTS.map(|(fault, name)| (Fault::Enlarge(fault), name));
    FAULTS.into_iter().chain(in_a_batch).chain(in_an_enlarging)
}
