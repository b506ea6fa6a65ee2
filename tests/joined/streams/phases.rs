//! Conversations: mostly in order, with what may get lost, come twice or come late.

use super::{enabling, Stream};
use crate::calls::{Call, Fate, Passage, Turn, Way};
use crate::spelled::LAST;
use crate::tables::{is_master, is_start, CONNECT, CONTROLLER, GO, GPIO, SPI, STARTS, TEST};
use sca::{CABLE_MOST, I2C_FIRST, I2C_LAST, RECORD_BYTES};

const WRITE_CONTROL: u8 = 0x30;

impl Stream<'_> {
    /// Requests, each answered before the next; rarely one gets lost.
    pub(super) fn exchanges(&mut self) {
        self.mostly_recover();
        for _ in 0..self.chance.between(1, 25) {
            let (channel, command) = self.any_command();
            let data = self.data_for(channel, command);
            self.exchange(channel, command, data);
            if self.chance.once_in(60) {
                self.any_request();
                self.turn_to_chip(-1, Fate::Never, Passage::Whole);
            }
        }
    }

    /// Every command of all channels but the masters, and of one master, in any order.
    pub(super) fn one_of_all(&mut self) {
        self.recover();
        self.all_on();
        let chosen = self.chance.between(usize::from(I2C_FIRST), usize::from(I2C_LAST)) as u8;
        let own = |channel: u8| !is_master(channel) || channel == chosen;
        let mut order: Vec<(u8, u8)> = self.commands.to_vec();
        order.retain(|(channel, _)| own(*channel));
        self.shuffle(&mut order);
        for (channel, command) in order {
            let data = if channel == CONTROLLER {
                self.word() | enabling(command)
            } else {
                self.data_for(channel, command)
            };
            if is_start(channel, command) && is_master(channel) {
                let count = self.chance.between(1, 16) as u32;
                self.exchange(channel, WRITE_CONTROL, count << 26);
            }
            self.exchange(channel, command, data);
        }
    }

    /// Several requests are under way; then replies, in any order. Now and then one is lost, comes twice, late or altered.
    pub(super) fn pipeline(&mut self) {
        self.mostly_recover();
        let rarely = self.one_of(&[8, 40, 1_000]);
        let count = self.chance.between(2, 40);
        for _ in 0..count {
            self.any_request();
            if self.chance.once_in(3) {
                self.unsafe_to_chip(0, rarely);
            }
        }
        for _ in 0..count {
            let nth = self.chance.below(2 * rarely).saturating_sub(2 * rarely - 3) as isize;
            self.unsafe_to_chip(nth, rarely);
            self.aside();
        }
        for _ in 0..self.chance.between(1, 2 * count) {
            let nth = self.chance.below(40) as isize;
            self.unsafe_to_room(nth, 6);
        }
    }

    /// What happens to the chip meanwhile.
    fn aside(&mut self) {
        match self.chance.below(8) {
            0 => self.sample(),
            1 => {
                let channel = self.chance.between(usize::from(SPI), usize::from(I2C_LAST)) as u8;
                self.complete(if channel == GPIO { SPI } else { channel });
            }
            2 => {
                let lent = self.lent();
                self.calls.push(Call::Upset { lent });
            }
            _ => {}
        }
    }

    fn turn_to_chip(&mut self, nth: isize, fate: Fate, passage: Passage) {
        let turn = Turn { nth, fate, passage };
        let lent = self.lent();
        let way = Way::Active;
        self.calls.push(Call::ToChip { turn, way, lent });
    }

    fn fate(&mut self, rarely: usize) -> Fate {
        match self.chance.below(2 * rarely) {
            0 => Fate::Never,
            1 => Fate::Again,
            _ => Fate::Once,
        }
    }

    /// Mostly as it is; else with a byte changed, of another length, or by a cable with a bit turned round.
    fn passage(&mut self, rarely: usize) -> Passage {
        if !self.chance.once_in(rarely) {
            return self.safe();
        }
        match self.chance.below(if self.cabled { 10 } else { 5 }) {
            0 => Passage::Length([9, 11, 2, self.chance.below(17), self.chance.below(20)][self.chance.below(5)]),
            1..=4 => self.changed(),
            _ => Passage::BrokenCable {
                bit: [self.chance.below(8 * CABLE_MOST), self.chance.below(8)][self.chance.below(2)],
            },
        }
    }

    /// A byte is another: of address and control, TRN, CH, LEN or ERR, CMD or LEN, or of the data.
    fn changed(&mut self) -> Passage {
        let at = self.chance.below(10);
        let byte = match at {
            2 => [0x00, 0xFF, self.chance.between(1, 12) as u8, self.chance.byte()][self.chance.below(4)],
            3 => [GPIO, self.chance.below(0x18) as u8, self.chance.byte()][self.chance.below(3)],
            _ => [self.chance.below(8) as u8, self.chance.byte()][self.chance.below(2)],
        };
        Passage::Put { at, byte }
    }

    pub(super) fn unsafe_to_chip(&mut self, nth: isize, rarely: usize) {
        let turn = Turn {
            nth,
            fate: self.fate(rarely),
            passage: self.passage(rarely),
        };
        let way = if self.chance.once_in(2 * rarely) {
            Way::Other
        } else {
            Way::Active
        };
        let lent = if self.chance.once_in(50) {
            self.short()
        } else {
            self.lent()
        };
        self.calls.push(Call::ToChip { turn, way, lent });
    }

    pub(super) fn unsafe_to_room(&mut self, nth: isize, rarely: usize) {
        let turn = Turn {
            nth,
            fate: self.fate(rarely),
            passage: self.passage(2 * rarely),
        };
        let lent = if self.chance.once_in(50) {
            self.short()
        } else {
            self.lent()
        };
        self.calls.push(Call::ToRoom { turn, lent });
    }

    /// Nothing is read until all 254 are open; then one in the middle is, and its TRN is used again.
    pub(super) fn fill(&mut self) {
        self.calls.push(Call::Silence);
        self.link_command(CONNECT, Way::Active);
        self.new_record();
        let adopted = self.chance.once_in(3);
        if adopted {
            let open = self.chance.between(LAST - 6, LAST);
            self.adopt(open);
            self.link_command(CONNECT, Way::Active);
        }
        for _ in 0..if adopted { 8 } else { LAST } {
            self.any_request();
            self.to_chip(-1);
        }
        for _ in 0..self.chance.between(1, 24) {
            self.while_full();
            let nth = self.chance.below(LAST) as isize;
            self.to_room(nth);
            self.any_request();
            if !self.chance.once_in(4) {
                self.to_chip(-1);
            }
        }
        for _ in 0..self.chance.between(1, 2 * LAST) {
            let nth = self.chance.below(LAST) as isize;
            self.unsafe_to_room(nth, 12);
        }
    }

    /// A record with so many transactions open, and any number.
    pub(super) fn adopt(&mut self, open: usize) {
        let mut transactions: Vec<usize> = (1..=LAST).collect();
        self.shuffle(&mut transactions);
        let mut record = vec![0; RECORD_BYTES];
        record[0] = self.chance.below(8) as u8;
        for transaction in &transactions[..open] {
            let (channel, command) = self.any_command();
            record[2 * transaction] = channel;
            record[2 * transaction + 1] = command;
        }
        self.calls.push(Call::Adopt { record });
    }

    /// Lines that interrupt, and requests between them.
    pub(super) fn interrupts(&mut self) {
        self.mostly_recover();
        self.listen_to_lines();
        for _ in 0..self.chance.between(1, 20) {
            self.sample();
            match self.chance.below(4) {
                0 => self.any_request(),
                1 => self.to_chip(0),
                _ => {}
            }
            if !self.chance.once_in(3) {
                let nth = self.one_of(&[-1, 0, 1]);
                self.to_room(nth);
            }
        }
        for _ in 0..self.chance.below(12) {
            let nth = self.chance.below(8) as isize;
            self.unsafe_to_room(nth, 4);
        }
    }

    /// Starts on several channels, requests to busy ones, and their ends in any order.
    pub(super) fn starts(&mut self) {
        self.mostly_recover();
        let mut channels: Vec<u8> = (SPI..=I2C_LAST).filter(|channel| *channel != GPIO).collect();
        self.shuffle(&mut channels);
        channels.truncate(self.chance.between(1, 17));
        for channel in channels.clone() {
            let mut command = GO;
            if is_master(channel) {
                let data = self.data_for(channel, WRITE_CONTROL);
                self.exchange(channel, WRITE_CONTROL, data);
                command = self.one_of(&STARTS);
            }
            let data = self.word();
            self.request(channel, command, data);
            self.to_chip(-1);
        }
        self.while_busy(&channels);
        self.shuffle(&mut channels);
        for channel in channels.clone() {
            if !self.chance.once_in(8) {
                self.complete(channel);
            }
            if self.chance.once_in(3) {
                let nth = self.chance.below(8) as isize;
                self.to_room(nth);
            }
        }
        for _ in 0..channels.len() {
            let nth = self.chance.below(17) as isize;
            self.unsafe_to_room(nth, 12);
        }
    }

    fn while_busy(&mut self, channels: &[u8]) {
        for _ in 0..self.chance.below(8) {
            let channel = self.one_of(channels);
            let commands = self.of_channel(channel);
            let command = self.one_of(&commands);
            let data = self.data_for(channel, command);
            self.request(channel, command, data);
            self.to_chip(-1);
            if self.chance.once_in(2) {
                self.to_room(-1);
            }
        }
        match self.chance.below(8) {
            0 => self.recover(),
            1 => self.link_command(CONNECT, Way::Active),
            2 => {
                let data = self.word();
                self.exchange(CONTROLLER, 0x02, data);
            }
            _ => {}
        }
    }

    /// A port in loopback sends requests back, which may then be read as replies.
    pub(super) fn loopback(&mut self) {
        self.mostly_recover();
        let way = self.one_of(&[Way::Active, Way::Active, Way::Other]);
        self.link_command(TEST, way);
        for _ in 0..self.chance.between(1, 12) {
            self.any_request();
            let way = self.one_of(&[Way::Active, Way::Active, Way::Other]);
            self.to_chip_on(-1, way);
            if !self.chance.once_in(4) {
                self.to_room(-1);
            }
        }
        self.mostly_recover();
    }

    /// Another record, or another chip.
    pub(super) fn anew(&mut self) {
        match self.chance.below(4) {
            0 => self.new_record(),
            1 => {
                let id = self.word() & 0xFF_FFFF;
                self.calls.push(Call::NewChip { id });
            }
            2 => {
                let open = self.chance.below(LAST + 1);
                self.adopt(open);
            }
            _ => {
                let length = [RECORD_BYTES - 1, RECORD_BYTES + 1, 0, self.chance.below(600)][self.chance.below(4)];
                self.calls.push(Call::NewRecord { length });
            }
        }
    }

    /// The chip is taken back, and perhaps the conversation goes on as if nothing had been.
    pub(super) fn back(&mut self) {
        for _ in 0..self.chance.between(1, 12) {
            self.any_request();
            self.to_chip(-1);
        }
        let most = self.one_of(&[4, 12, 70]);
        for _ in 0..self.chance.between(1, most) {
            self.calls.push(Call::StepBack);
        }
        for _ in 0..self.chance.between(1, 12) {
            self.any_request();
            self.unsafe_to_chip(-1, 12);
            self.unsafe_to_room(-1, 12);
        }
    }

    /// Anything.
    pub(super) fn unruly(&mut self) {
        for _ in 0..self.chance.between(5, 60) {
            let nth = self.chance.below(9) as isize - 2;
            match self.chance.below(12) {
                0..=2 => self.any_request(),
                3 | 4 => self.unsafe_to_chip(nth, 4),
                5 => self.to_chip(-1),
                6..=8 => self.unsafe_to_room(nth, 4),
                9 => self.aside(),
                10 => self.any_link_command(),
                _ => self.wrong(),
            }
        }
    }
}
