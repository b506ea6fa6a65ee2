//! Calls with something wrong, and damaged records.

use super::Stream;
use crate::calls::{Call, Damage, Fate, Lent, Passage, Turn};
use crate::spelled::LAST;
use crate::tables::{GPIO, LAST_CHANNEL, LINK_COMMANDS};
use sca::RECORD_BYTES;

impl Stream<'_> {
    /// Every command of a channel, known or not, is asked for, and is an entry of a record.
    pub(super) fn every_command(&mut self, channel: u8) {
        self.new_record();
        for command in 0..=0xFF {
            let data = self.word();
            self.request(channel, command, data);
        }
        for command in 0..=0xFF {
            let at = 2 * self.one_of(&[1, LAST, 0x80, 0x33]);
            let call = Box::new(self.room_call());
            let bytes = vec![channel, command];
            let damage = Damage::Bytes { at, bytes };
            self.calls.push(Call::Damaged { damage, call });
        }
        self.new_record();
        self.recover();
    }

    pub(super) fn refused(&mut self) {
        for _ in 0..self.chance.between(1, 16) {
            self.wrong();
            if self.chance.once_in(4) {
                self.any_request();
                self.to_chip(-1);
            }
        }
    }

    /// With all TRNs open: a request, which is refused, and perhaps one that is refused for something else too.
    pub(super) fn while_full(&mut self) {
        self.any_request();
        match self.chance.below(6) {
            0 => self.wrong_request(),
            1 => {
                let lent = self.short();
                self.known_request(lent);
            }
            _ => {}
        }
    }

    fn known_request(&mut self, lent: Lent) {
        let (channel, command) = self.any_command();
        self.calls.push(Call::Request {
            channel: u32::from(channel),
            command: u32::from(command),
            data: 0,
            lent,
        });
    }

    /// Room enough, or not.
    fn any_lent(&mut self) -> Lent {
        if self.chance.once_in(4) {
            self.short()
        } else {
            self.lent()
        }
    }

    pub(super) fn wrong(&mut self) {
        match self.chance.below(6) {
            0 => {
                let lent = self.short();
                self.known_request(lent);
            }
            1 | 2 => self.wrong_request(),
            3 => self.any_link_command(),
            _ => {
                let call = self.any_reply();
                self.calls.push(call);
            }
        }
    }

    /// A number whose low byte is this one, but for what stands above it.
    fn wide(&mut self, low: u8) -> u32 {
        let above = [0x100, 0xFF00, 0x1_0000, 0x8000_0000, 0xFFFF_FF00][self.chance.below(5)];
        above | u32::from(low)
    }

    /// A request for what the tables do not have.
    fn wrong_request(&mut self) {
        let (channel, command) = self.any_command();
        let (mut wrong, mut code) = (u32::from(channel), u32::from(command));
        match self.chance.below(8) {
            0 => wrong = self.wide(channel),
            1 => code = self.wide(command),
            2 => wrong = self.word(),
            3 => code = self.word(),
            4 => wrong = u32::MAX,
            5 => wrong = u32::from(LAST_CHANNEL) + 1,
            6 => code ^= 1 << self.chance.below(8),
            _ => code = u32::from(self.chance.byte()),
        }
        let (data, lent) = (self.word(), self.any_lent());
        self.calls.push(Call::Request {
            channel: wrong,
            command: code,
            data,
            lent,
        });
    }

    fn any_control(&mut self) -> u32 {
        let control = self.one_of(&LINK_COMMANDS);
        match self.chance.below(6) {
            0 => self.wide(control),
            1 => u32::from(self.chance.byte()),
            2 => u32::from(control ^ 1 << self.chance.below(8)),
            _ => u32::from(control),
        }
    }

    /// A link command, most often one of the six; it may stay under way.
    pub(super) fn any_link_command(&mut self) {
        let (control, lent) = (self.any_control(), self.any_lent());
        self.calls.push(Call::Command { control, lent });
        if self.chance.once_in(2) {
            self.unsafe_to_chip(-1, 12);
        }
    }

    /// Bytes that the chip never sent: of any length; of ten bytes, for a TRN that may be open; an interrupt.
    fn any_reply(&mut self) -> Call {
        let length = match self.chance.below(4) {
            0 => [0, 2, 9, 11, 16, self.chance.below(24)][self.chance.below(6)],
            _ => 10,
        };
        let mut body = self.chance.bytes(length);
        if length >= 4 {
            body[2] = [0x00, 0xFF, 0xFF, 1, 2, 3, self.chance.byte()][self.chance.below(7)];
            body[3] = [GPIO, GPIO, 0x00, 0x01, self.chance.below(0x16) as u8][self.chance.below(5)];
        }
        let lent = self.any_lent();
        Call::Reply { body, lent }
    }

    /// A call of the control room's.
    fn room_call(&mut self) -> Call {
        let lent = self.any_lent();
        match self.chance.below(5) {
            0 | 1 => {
                let (channel, command) = self.any_command();
                let unknown = self.chance.once_in(4);
                Call::Request {
                    channel: u32::from(channel) + if unknown { 0x40 } else { 0 },
                    command: u32::from(command),
                    data: self.word(),
                    lent,
                }
            }
            2 => Call::Command {
                control: self.any_control(),
                lent,
            },
            3 => self.any_reply(),
            _ => Call::ToRoom {
                turn: Turn {
                    nth: self.chance.below(8) as isize,
                    fate: Fate::Again,
                    passage: Passage::Whole,
                },
                lent,
            },
        }
    }

    pub(super) fn damaged(&mut self) {
        if self.chance.once_in(4) {
            let open = self.chance.below(LAST + 1);
            self.adopt(open);
        }
        for _ in 0..self.chance.between(1, 20) {
            let damage = self.damage();
            let call = Box::new(self.room_call());
            self.calls.push(Call::Damaged { damage, call });
        }
    }

    /// A frame number, byte 1, an entry, any byte or the length is another.
    fn damage(&mut self) -> Damage {
        let any = self.chance.byte();
        let bit = 1 << self.chance.below(8);
        let (at, bytes) = match self.chance.below(8) {
            0 => (0, vec![[8, 0x80, any, any & 7][self.chance.below(4)]]),
            1 => (1, vec![[bit, any][self.chance.below(2)]]),
            2..=4 => {
                let transaction = [1, LAST, self.chance.between(1, LAST)][self.chance.below(3)];
                let (channel, command) = self.any_command();
                let entry = match self.chance.below(4) {
                    0 => [channel, command],
                    1 => [channel, command ^ bit],
                    2 => [channel ^ bit, command],
                    _ => [any, self.chance.byte()],
                };
                (2 * transaction, entry.to_vec())
            }
            5 | 6 => (self.chance.below(RECORD_BYTES), vec![any]),
            _ => {
                let length = [
                    RECORD_BYTES - 1,
                    RECORD_BYTES + 1,
                    RECORD_BYTES - 2,
                    RECORD_BYTES + 2,
                    0,
                    1,
                    2,
                    self.chance.below(600),
                    512,
                ];
                return Damage::Length(self.one_of(&length));
            }
        };
        Damage::Bytes { at, bytes }
    }
}
