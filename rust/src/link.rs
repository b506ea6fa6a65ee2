//! The link: frames from cable bits, and cable bytes from bodies.

use crate::answers::{broken, done, looked_at, Heard, Received, Refusal};
use crate::boundary;
use crate::bytes::{Body, Frame};
use crate::sizes::{CABLE_MOST, INPUT_MOST, OUTPUT_LEAST, RECEIVER_BYTES};

/// Reads frames from cable bits. An unfinished frame is carried over from buffer to buffer.
#[derive(Clone, PartialEq, Eq, Debug)]
pub struct Receiver {
    bytes: [u8; RECEIVER_BYTES],
}

impl Receiver {
    /// A receiver that hunts for its first flag.
    pub fn new() -> Receiver {
        let mut bytes = [0; RECEIVER_BYTES];
        boundary::sca_receiver_new(&mut bytes);
        Receiver { bytes }
    }

    /// Reads `cable` from bit `start` on, least significant first, up to the first answer.
    pub fn receive(&mut self, cable: &[u8], start: usize) -> Result<Received, Refusal> {
        let mut output = [0; OUTPUT_LEAST];
        let received = boundary::sca_receive(&mut self.bytes, cable, start, &mut output);
        done(received.number)?;
        let heard = match (received.number, broken(received.number)) {
            (_, Some(broken)) => Heard::Broken(broken),
            (0, None) => Heard::HasFrame(Body::front(output, received.length)),
            _ => Heard::NoFrame,
        };
        Ok(Received {
            consumed: received.consumed,
            heard,
        })
    }

    /// All that a cable of any length holds, frame by frame.
    pub fn listen<'a>(&'a mut self, cable: &'a [u8]) -> Listening<'a> {
        Listening {
            receiver: self,
            cable,
            start: 0,
        }
    }

    /// The receiver's bytes, as `include/sca.h` lists them, to be kept and handed to [`Receiver::from_bytes`].
    pub fn to_bytes(&self) -> [u8; RECEIVER_BYTES] {
        self.bytes
    }

    /// A receiver that was kept; refused where its bytes are out of range. No bit is read.
    pub fn from_bytes(mut bytes: [u8; RECEIVER_BYTES]) -> Result<Receiver, Refusal> {
        // Without output the call is refused, with 1 where it does not find 6; 8 and 9 cannot be without input.
        looked_at(boundary::sca_receive(&mut bytes, &[], 0, &mut []).number)?;
        Ok(Receiver { bytes })
    }
}

impl Default for Receiver {
    fn default() -> Receiver {
        Receiver::new()
    }
}

/// What a cable holds, as [`Receiver::listen`] reads it. What is left unread when it is let go is not heard.
pub struct Listening<'a> {
    receiver: &'a mut Receiver,
    cable: &'a [u8],
    start: usize,
}

impl Iterator for Listening<'_> {
    type Item = Heard;

    fn next(&mut self) -> Option<Heard> {
        while !self.cable.is_empty() {
            let (now, later) = self.cable.split_at(self.cable.len().min(INPUT_MOST));
            let received = self
                .receiver
                .receive(now, self.start)
                .expect("a part of at most INPUT_MOST, from a bit in it");
            self.start += received.consumed;
            if received.heard != Heard::NoFrame {
                return Some(received.heard);
            }
            self.cable = later;
            self.start = 0;
        }
        None
    }
}

/// A body as a frame on the cable.
pub fn transmit(body: &[u8]) -> Result<Frame, Refusal> {
    let mut output = [0; CABLE_MOST];
    let sent = boundary::sca_transmit(body, &mut output);
    done(sent.number)?;
    Ok(Frame::front(output, sent.count))
}
