//! Which request of the run stands behind each open TRN, and behind each start that the chip has open.

use crate::queue::Sent;

const COUNT: usize = 256;

pub struct Ledger {
    /// Channel and command that each request was written for.
    asked: Vec<(u8, u8)>,
    /// By TRN. None where nothing is open, or what is open was not asked in this run.
    open: [Option<usize>; COUNT],
    /// By channel, the latest start that the chip took; none after a step back.
    started: [Option<usize>; COUNT],
}

impl Ledger {
    pub fn new() -> Ledger {
        Ledger {
            asked: Vec::new(),
            open: [None; COUNT],
            started: [None; COUNT],
        }
    }

    /// A request was written for this channel and command, with this TRN; its place.
    pub fn asks(&mut self, channel: u8, command: u8, transaction: u8) -> usize {
        let request = self.asked.len();
        self.asked.push((channel, command));
        self.open[usize::from(transaction)] = Some(request);
        request
    }

    /// Channel and command of a request.
    pub fn asked(&self, request: usize) -> (u8, u8) {
        self.asked[request]
    }

    /// The request that a body answers, if it is still open.
    pub fn answered_by(&self, sent: &Sent) -> Option<usize> {
        let behind = self.open[usize::from(*sent.body.get(2)?)];
        sent.request.filter(|request| behind == Some(*request))
    }

    pub fn closes(&mut self, transaction: u8) {
        self.open[usize::from(transaction)] = None;
    }

    /// The run goes on with another record.
    pub fn forget_open(&mut self) {
        self.open = [None; COUNT];
    }

    pub fn starts(&mut self, channel: u8, request: Option<usize>) {
        self.started[usize::from(channel)] = request;
    }

    /// The start that a completion ends.
    pub fn ends(&mut self, channel: u8) -> Option<usize> {
        self.started[usize::from(channel)].take()
    }

    pub fn forget_started(&mut self) {
        self.started = [None; COUNT];
    }
}
