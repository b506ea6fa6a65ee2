//! Changes to our side, by which the comparison shows that it can fail.

#[derive(Clone, Copy, PartialEq, Eq, Debug)]
pub enum Fault {
    Number,
    Consumed,
    Length,
    Body,
    OutputAfterBody,
    OutsideOutput,
    Cable,
    RefusedReceiver,
    ReturnedReceiver,
    FrameByte,
    FrameCount,
    OutputAfterFrame,
    NewReceiver,
}

pub const FAULTS: [(Fault, &str); 13] = [
    (Fault::Number, "a reading's number"),
    (Fault::Consumed, "a reading's bits consumed"),
    (Fault::Length, "a body's length"),
    (Fault::Body, "a byte of a body"),
    (Fault::OutputAfterBody, "a byte of output after a body"),
    (Fault::OutsideOutput, "a byte behind the output"),
    (Fault::Cable, "a bit of a frame on the cable"),
    (Fault::RefusedReceiver, "a receiver at a refused reading"),
    (Fault::ReturnedReceiver, "a returned receiver"),
    (Fault::FrameByte, "a byte of a frame sent"),
    (Fault::FrameCount, "the count of bytes sent"),
    (Fault::OutputAfterFrame, "a byte of output after a frame"),
    (Fault::NewReceiver, "a new receiver"),
];
