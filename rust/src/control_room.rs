//! The control room: the other end of the link.

use crate::answers::{done, looked_at, LinkCommand, Refusal, Reply, Request, Transaction};
use crate::boundary;
use crate::bytes::Body;
use crate::sizes::{OUTPUT_LEAST, RECORD_BYTES};

/// Bit 4 of a command's control.
const POLL: u32 = 0x10;

/// Writes requests and reads what the chip sends; keeps which transactions are open, and counts the requests modulo 8.
///
/// It knows the tables of commands, and nothing of a chip's state: whether a channel is enabled or busy is the chip's to say,
/// in the reply's ERR. A new one goes with a chip that is new or was just reset. Where a request was lost, or the chip was
/// stepped back or answers SREJ, send the lost body again, while the chip still expects its number, or connect anew; a record
/// is kept through that, since the chip keeps an open GO or start. What the chip no longer answers stays open. Of a port in
/// loopback nothing is to be handed to [`ControlRoom::reply`]: a request that comes back would be taken for its reply.
#[derive(Clone, PartialEq, Eq, Debug)]
pub struct ControlRoom {
    record: [u8; RECORD_BYTES],
}

impl ControlRoom {
    /// Nothing is open, and the next request is number 0.
    pub fn new() -> ControlRoom {
        let mut record = [0; RECORD_BYTES];
        boundary::sca_record_new(&mut record);
        ControlRoom { record }
    }

    /// A command of a channel, with its data: the body, and what is open from then on under the lowest TRN that was free. LEN
    /// is what the command's table asks; all 32 bits of data go out, whatever the command uses of them. Refused where the
    /// tables have no such command, or no TRN is free.
    pub fn request(&mut self, channel: u8, command: u8, data: u32) -> Result<Request, Refusal> {
        let mut output = [0; OUTPUT_LEAST];
        let given = boundary::sca_request(&mut self.record, channel.into(), command.into(), data, &mut output);
        done(given.number)?;
        let trn = output[2];
        Ok(Request {
            body: Body::front(output, given.length),
            transaction: Transaction { trn, channel, command },
        })
    }

    /// A body that the chip sent. A reply is matched by TRN and channel alone, and its TRN is free again; an interrupt is told
    /// apart. Refused where the body is not [`crate::REPLY_BYTES`] bytes, as that of an SREJ or an acknowledgement, or matches
    /// nothing that is open.
    pub fn reply(&mut self, body: &[u8]) -> Result<Reply, Refusal> {
        let mut output = [0; OUTPUT_LEAST];
        let given = boundary::sca_reply(&mut self.record, body, &mut output);
        done(given.number)?;
        let [trn, channel, command, error, length, d0, d1, d2, d3, ..] = output;
        let data = u32::from_le_bytes([d0, d1, d2, d3]);
        Ok(if given.interrupt {
            Reply::Interrupt {
                error,
                length,
                lines: data,
            }
        } else {
            Reply::Answered {
                transaction: Transaction { trn, channel, command },
                error,
                length,
                data,
            }
        })
    }

    /// The body of a command of the link, which the chip acknowledges with 00 63. After CONNECT and RESET the next request is
    /// number 0. What is open stays open: whoever resets the chip makes a new control room.
    pub fn command(&mut self, command: LinkCommand) -> Body {
        self.control(command as u32)
    }

    /// The same with bit 4 of its control set, which the chip acknowledges with 00 73.
    pub fn command_with_poll(&mut self, command: LinkCommand) -> Body {
        self.control(command as u32 | POLL)
    }

    /// What is open, by rising TRN.
    pub fn open(&self) -> impl Iterator<Item = Transaction> + '_ {
        // Of each TRN channel and command stand in two bytes, both 0 where it is free; those before TRN 1 have the number.
        (1..=0xFE)
            .zip(self.record[2..].chunks_exact(2))
            .filter(|(_, open)| open != &[0, 0])
            .map(|(trn, open)| Transaction {
                trn,
                channel: open[0],
                command: open[1],
            })
    }

    /// Whether the reply to this request is still to come.
    pub fn is_open(&self, transaction: Transaction) -> bool {
        self.open().any(|open| open == transaction)
    }

    /// The record's bytes, as `include/sca.h` lists them, to be kept and handed to [`ControlRoom::from_bytes`].
    pub fn record(&self) -> &[u8; RECORD_BYTES] {
        &self.record
    }

    /// A control room that was kept as bytes; refused where they are out of range.
    pub fn from_bytes(mut record: [u8; RECORD_BYTES]) -> Result<ControlRoom, Refusal> {
        // Without output the call is refused, with 1 where it does not find 6.
        looked_at(boundary::sca_reply(&mut record, &[], &mut []).number)?;
        Ok(ControlRoom { record })
    }

    /// The body of one of the six commands of the link: no other control is handed over, so that it is never refused.
    fn control(&mut self, control: u32) -> Body {
        let mut output = [0; OUTPUT_LEAST];
        let given = boundary::sca_command(&mut self.record, control, &mut output);
        Body::front(output, given.length)
    }
}

impl Default for ControlRoom {
    fn default() -> ControlRoom {
        ControlRoom::new()
    }
}
