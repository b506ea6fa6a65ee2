//! The bodies that are on their way from one end to the other.

use crate::calls::Fate;

/// Where bodies are on their way to.
#[derive(Clone, Copy, PartialEq, Eq, Debug)]
pub enum End {
    Chip,
    Room,
}

/// What a body is, by what sent it.
#[derive(Clone, Copy, PartialEq, Eq, PartialOrd, Ord, Debug)]
pub enum Kind {
    Request,
    LinkCommand,
    /// That a request brings at once.
    Reply,
    /// That the end of a start brings.
    Completed,
    Interrupt,
    Reject,
    Acknowledgement,
    /// Of a port in loopback.
    Echo,
}

#[derive(Clone)]
pub struct Sent {
    pub body: Vec<u8>,
    pub kind: Kind,
    /// The run's request that it is, or answers.
    pub request: Option<usize>,
    /// Its place among all that were sent this way.
    place: usize,
    /// How often it has arrived.
    pub arrived: u32,
}

#[derive(Default)]
pub struct Queue {
    bodies: Vec<Sent>,
    sent: usize,
    /// One that was sent before this place, and arrives, was overtaken.
    overtaking: usize,
    /// The place of the body that is to arrive next, where those before it have arrived in their order.
    next: Option<usize>,
}

impl Queue {
    pub fn send(&mut self, body: Vec<u8>, kind: Kind, request: Option<usize>) {
        self.bodies.push(Sent {
            body,
            kind,
            request,
            place: self.sent,
            arrived: 0,
        });
        self.sent += 1;
    }

    fn at(&self, nth: isize) -> Option<usize> {
        let count = self.bodies.len() as isize;
        (count > 0).then(|| nth.rem_euclid(count) as usize)
    }

    /// The nth body.
    pub fn nth(&self, nth: isize) -> Option<&Sent> {
        self.at(nth).map(|at| &self.bodies[at])
    }

    /// The nth body's turn has come and been used, by this fate.
    pub fn used(&mut self, nth: isize, fate: Fate) {
        if let Some(at) = self.at(nth) {
            if fate != Fate::Never {
                self.overtaking = self.overtaking.max(self.bodies[at].place);
                self.bodies[at].arrived += 1;
            }
            if fate != Fate::Again {
                self.bodies.remove(at);
            }
        }
    }

    /// Whether one that was sent later has arrived.
    pub fn overtaken(&self, sent: &Sent) -> bool {
        sent.place < self.overtaking
    }

    /// Whether it is the next of those that arrive in their order.
    pub fn is_next(&self, sent: &Sent) -> bool {
        self.next == Some(sent.place)
    }

    /// The order goes on behind this one.
    pub fn go_on_behind(&mut self, sent: &Sent) {
        self.next = Some(sent.place + 1);
    }

    pub fn lose_step(&mut self) {
        self.next = None;
    }

    /// What is sent from here on is not in the order of what was sent before; it is the next, or not.
    pub fn begin_anew(&mut self, next: bool) {
        self.sent += 1;
        self.next = next.then(|| self.sent);
    }

    /// All are lost; how many.
    pub fn silence(&mut self) -> usize {
        self.bodies.drain(..).count()
    }
}
