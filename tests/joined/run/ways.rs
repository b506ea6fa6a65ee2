//! The ways between the two ends: what becomes of a body whose turn has come.

use super::chip::{kind_of, Event};
use super::{Checked, Run};
use crate::calls::{Fate, Lent, Turn, Way};
use crate::facts::promised;
use crate::queue::{End, Kind, Queue, Sent};
use crate::tables::{counts, is_start, CONNECT, POLL, RESET};
use reference::numbers::{DONE, FRAME};
use sca::REPLY_BYTES;

impl Run<'_> {
    fn queue(&mut self, to: End) -> &mut Queue {
        match to {
            End::Chip => &mut self.to_chip,
            End::Room => &mut self.to_room,
        }
    }

    pub(super) fn silence(&mut self) -> Checked {
        for to in [End::Chip, End::Room] {
            let lost = self.queue(to).silence();
            self.tally.flights(to).lost += lost as u64;
        }
        Ok(())
    }

    /// A body, and what arrives of it; nothing where none is on its way, or it is lost.
    fn turn(&mut self, to: End, turn: Turn) -> Result<Option<(Sent, Vec<u8>)>, String> {
        let sent = match self.queue(to).nth(turn.nth) {
            Some(sent) => sent.clone(),
            None => return Ok(None),
        };
        let body = match turn.fate {
            Fate::Never => None,
            _ => self.pass(&sent.body, turn.passage)?,
        };
        if body.is_none() {
            self.queue(to).used(turn.nth, Fate::Never);
            self.tally.flights(to).lost += 1;
        }
        Ok(body.map(|body| (sent, body)))
    }

    /// Its turn is over. A body whose call was refused for the output is on its way still.
    fn arrived(&mut self, to: End, turn: Turn, sent: &Sent, way: Way) {
        let overtaken = self.queue(to).overtaken(sent);
        self.queue(to).used(turn.nth, turn.fate);
        self.tally.flights(to).arrived(sent, overtaken, turn.passage, way);
    }

    pub(super) fn turn_to_room(&mut self, turn: Turn, lent: Lent) -> Checked {
        if let Some((sent, body)) = self.turn(End::Room, turn)? {
            if self.read(&sent, &body, lent)? {
                self.arrived(End::Room, turn, &sent, Way::Active);
            }
        }
        Ok(())
    }

    pub(super) fn turn_to_chip(&mut self, turn: Turn, way: Way, lent: Lent) -> Checked {
        if let Some((sent, body)) = self.turn(End::Chip, turn)? {
            if self.arrive(&sent, &body, way, lent)? {
                self.arrived(End::Chip, turn, &sent, way);
            }
        }
        Ok(())
    }

    /// A body arrives at the chip; whether it was taken.
    fn arrive(&mut self, sent: &Sent, body: &[u8], way: Way, lent: Lent) -> Result<bool, String> {
        let port = self.chip.port(way);
        let (whole, looped) = (body == &sent.body[..], self.chip.looped(port));
        let request = sent.request.filter(|_| whole && way == Way::Active && !looped);
        let due = request.filter(|_| self.chip.expects(body));
        let (number, reply) = match self.event(&Event::Frame { port, body }, lent)? {
            Some(given) => given,
            None => return Ok(false),
        };
        self.in_step(sent, whole, request.is_some(), due.is_some())?;
        if let Some(request) = due {
            self.answers(request, number, body, &reply)?;
        }
        match number {
            DONE => self.ledger.starts(body[3], due),
            FRAME => {
                let kind = kind_of(&reply, looped && body[1] & 1 == 0);
                self.tally.sent(kind, body);
                let answers = due.filter(|_| kind == Kind::Reply);
                self.to_room.send(reply, kind, answers);
            }
            _ => {}
        }
        Ok(true)
    }

    /// Requests that arrive in their order after a CONNECT or a RESET, none left out, have the numbers that are due.
    fn in_step(&mut self, sent: &Sent, whole: bool, heard: bool, due: bool) -> Checked {
        let in_step = heard && self.to_chip.is_next(sent);
        let zeroes = [CONNECT, RESET].contains(&(sent.body[1] & !POLL));
        if in_step || whole && sent.kind == Kind::LinkCommand && zeroes {
            self.to_chip.go_on_behind(sent);
        } else {
            self.to_chip.lose_step();
        }
        self.tally.in_step += u64::from(in_step);
        promised("a request in its order has the number that is due", due || !in_step)
    }

    /// A request that came in the number which the active, unlooped port expects is answered, or is a start. The control room knows the
    /// tables: only a channel that is off or busy, or NBYTE, stands against it.
    fn answers(&mut self, request: usize, number: u8, body: &[u8], reply: &[u8]) -> Checked {
        let (channel, command) = self.ledger.asked(request);
        let starts = is_start(channel, command);
        let holds = match number {
            DONE => starts,
            FRAME if reply.len() == REPLY_BYTES && reply[2..4] == [body[2], channel] => match reply[4] {
                0x00 => !starts,
                0x10 => counts(channel, command),
                error => error == 0x20 || error == 0x40,
            },
            _ => false,
        };
        promised("a request in its number is answered", holds)
    }
}
