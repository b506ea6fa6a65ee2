//! Random runs of both ends: phases, each about one thing.

mod phases;
mod wrong;

use crate::calls::{Call, Fate, Lent, Passage, Turn, Way};
use crate::harness::chance::Chance;
use crate::tables::{is_master, is_start, CONNECT, CONTROLLER, GPIO, LAST_CHANNEL, POLL, RESET, SPI};
use sca::{OUTPUT_LEAST, RECORD_BYTES};

const WRITE_CRB: u8 = 0x02;
const WRITE_CRC: u8 = 0x04;
const WRITE_CRD: u8 = 0x06;
const WRITE_CONTROL: u8 = 0x30;
/// One run of so many goes by cable.
const CABLED: usize = 8;
/// So many runs ask for every command of one channel, each for another.
const ASKING: u64 = 256;

/// The calls of a run; `commands` are those that there are.
pub fn stream(chance: &mut Chance, commands: &[(u8, u8)], number: u64) -> Vec<Call> {
    let cabled = chance.once_in(CABLED);
    let mut stream = Stream {
        chance,
        commands,
        cabled,
        calls: Vec::new(),
    };
    stream.begin();
    if number < ASKING {
        stream.every_command(number as u8);
    }
    for _ in 0..stream.chance.between(3, 10) {
        stream.phase();
    }
    stream.calls
}

struct Stream<'a> {
    chance: &'a mut Chance,
    commands: &'a [(u8, u8)],
    /// Bodies go by cable.
    cabled: bool,
    calls: Vec<Call>,
}

impl Stream<'_> {
    fn begin(&mut self) {
        let id = self.word() & 0xFF_FFFF;
        self.calls.push(Call::NewChip { id });
        self.new_record();
        if !self.chance.once_in(8) {
            self.all_on();
        }
    }

    fn phase(&mut self) {
        match self.chance.below(32) {
            0..=6 => self.exchanges(),
            7..=12 => self.pipeline(),
            13..=15 => self.one_of_all(),
            16 => self.fill(),
            17 | 18 => self.interrupts(),
            19..=21 => self.starts(),
            22 => self.loopback(),
            23..=25 => self.refused(),
            26 | 27 => self.damaged(),
            28 => self.anew(),
            29 => self.back(),
            _ => self.unruly(),
        }
    }

    /// A word of one kind: any, few ones, many, one, none, all.
    fn word(&mut self) -> u32 {
        let chance = &mut self.chance;
        let mut any = || u32::from_le_bytes([chance.byte(), chance.byte(), chance.byte(), chance.byte()]);
        let (first, second, third) = (any(), any(), any());
        match self.chance.below(8) {
            0 => 0,
            1 => u32::MAX,
            2 => 1 << self.chance.below(32),
            3 => first & second & third,
            4 => first | second | third,
            _ => first,
        }
    }

    /// Enough room, every third time more.
    fn lent(&mut self) -> Lent {
        let more = if self.chance.once_in(3) {
            self.chance.below(25)
        } else {
            0
        };
        self.lent_of(OUTPUT_LEAST + more)
    }

    fn lent_of(&mut self, bytes: usize) -> Lent {
        let [a, b, c, d] = [
            self.chance.byte(),
            self.chance.byte(),
            self.chance.byte(),
            self.chance.byte(),
        ];
        Lent {
            bytes,
            seed: u32::from_le_bytes([a, b, c, d]),
        }
    }

    /// Too little, most often by one byte.
    fn short(&mut self) -> Lent {
        const ONE_LESS: usize = OUTPUT_LEAST - 1;
        let bytes = [ONE_LESS, ONE_LESS, 0, self.chance.below(OUTPUT_LEAST)][self.chance.below(4)];
        self.lent_of(bytes)
    }

    fn shuffle<T>(&mut self, order: &mut [T]) {
        for at in (1..order.len()).rev() {
            order.swap(at, self.chance.below(at + 1));
        }
    }

    fn one_of<T: Copy>(&mut self, list: &[T]) -> T {
        list[self.chance.below(list.len())]
    }

    /// The commands of a channel.
    fn of_channel(&self, channel: u8) -> Vec<u8> {
        let own = self.commands.iter().filter(|(known, _)| *known == channel);
        own.map(|(_, command)| *command).collect()
    }

    /// A command of any channel, each channel as often as another.
    fn any_command(&mut self) -> (u8, u8) {
        let channel = self.chance.below(usize::from(LAST_CHANNEL) + 1) as u8;
        let commands = self.of_channel(channel);
        (channel, self.one_of(&commands))
    }

    /// Data for a command: writes to the controller mostly leave all channels on, and CTRL mostly gets an NBYTE that will do.
    fn data_for(&mut self, channel: u8, command: u8) -> u32 {
        let data = self.word();
        if self.chance.once_in(12) {
            data
        } else if channel == CONTROLLER {
            data | enabling(command)
        } else if is_master(channel) && command == WRITE_CONTROL {
            data & !0x7C00_0000 | (self.chance.between(1, 16) as u32) << 26
        } else {
            data
        }
    }

    fn new_record(&mut self) {
        self.calls.push(Call::NewRecord { length: RECORD_BYTES });
    }

    /// The control room writes a request.
    fn request(&mut self, channel: u8, command: u8, data: u32) {
        let (channel, command, lent) = (u32::from(channel), u32::from(command), self.lent());
        self.calls.push(Call::Request {
            channel,
            command,
            data,
            lent,
        });
    }

    fn any_request(&mut self) {
        let (channel, command) = self.any_command();
        let data = self.data_for(channel, command);
        self.request(channel, command, data);
    }

    /// As a run's bodies go, without harm.
    fn safe(&mut self) -> Passage {
        if self.cabled {
            Passage::Cable
        } else {
            Passage::Whole
        }
    }

    fn to_chip(&mut self, nth: isize) {
        self.to_chip_on(nth, Way::Active);
    }

    fn to_chip_on(&mut self, nth: isize, way: Way) {
        let (fate, passage) = (Fate::Once, self.safe());
        let turn = Turn { nth, fate, passage };
        let lent = self.lent();
        self.calls.push(Call::ToChip { turn, way, lent });
    }

    fn to_room(&mut self, nth: isize) {
        let (fate, passage) = (Fate::Once, self.safe());
        let turn = Turn { nth, fate, passage };
        let lent = self.lent();
        self.calls.push(Call::ToRoom { turn, lent });
    }

    /// A request that is delivered at once, its completion if it is a start, and its reply.
    fn exchange(&mut self, channel: u8, command: u8, data: u32) {
        self.request(channel, command, data);
        self.to_chip(-1);
        if is_start(channel, command) {
            self.complete(channel);
        }
        self.to_room(-1);
    }

    /// What ends a start of this channel.
    fn complete(&mut self, channel: u8) {
        let lent = self.lent();
        if channel == SPI {
            let received = self.chance.bytes(16);
            self.calls.push(Call::Completion { received, lent });
            return;
        }
        let count = self.chance.below(17);
        let received = self.chance.bytes(count);
        self.calls.push(Call::I2cCompletion {
            channel: u32::from(channel),
            acknowledge: u32::from(!self.chance.once_in(4)),
            line_low: u32::from(self.chance.once_in(4)),
            received,
            lent,
        });
    }

    fn sample(&mut self) {
        let (levels, kind, lent) = (self.word(), self.chance.below(3) as u32, self.lent());
        self.calls.push(Call::Sample { levels, kind, lent });
    }

    /// A link command, delivered at once, and its acknowledgement.
    fn link_command(&mut self, control: u8, way: Way) {
        let poll = if self.chance.once_in(2) { POLL } else { 0 };
        let (control, lent) = (u32::from(control | poll), self.lent());
        self.calls.push(Call::Command { control, lent });
        self.to_chip_on(-1, way);
        self.to_room(-1);
    }

    /// All that can be enabled is.
    fn all_on(&mut self) {
        for command in [WRITE_CRB, WRITE_CRC, WRITE_CRD] {
            let data = self.word() | enabling(command);
            self.exchange(CONTROLLER, command, data);
        }
    }

    /// Both ends go on together: a CONNECT; or a RESET, and most often a new record.
    fn recover(&mut self) {
        if self.chance.once_in(2) {
            self.calls.push(Call::Silence);
        }
        let way = if self.chance.once_in(6) {
            Way::Other
        } else {
            Way::Active
        };
        let reset = self.chance.once_in(6);
        self.link_command(if reset { RESET } else { CONNECT }, way);
        let anew = if reset { 5 } else { 1 };
        if self.chance.below(6) < anew {
            self.new_record();
        }
        if reset || self.chance.once_in(2) {
            self.all_on();
        }
    }

    /// Mostly.
    fn mostly_recover(&mut self) {
        if !self.chance.once_in(8) {
            self.recover();
        }
    }

    /// GPIO's lines interrupt, by any edge.
    fn listen_to_lines(&mut self) {
        let (select, trigger) = (self.word() | self.word(), self.word());
        for (command, data) in [(0x20, 0), (0x30, select), (0x40, trigger), (0x80, 0), (0x60, 1)] {
            self.exchange(GPIO, command, data);
        }
    }
}

/// The bits of the controller's registers that a run mostly leaves on: all that enable a channel.
fn enabling(command: u8) -> u32 {
    match command {
        WRITE_CRB => 0xFE00_0000,
        WRITE_CRC => 0xFF00_0000,
        WRITE_CRD => 0x1F00_0000,
        _ => 0,
    }
}
