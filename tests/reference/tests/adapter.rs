//! Tests of the adapter's events, refusals and steps back, with journals of
//! both sizes.
//! An independent implementation, written from document 01 and change
//! requests 2026-01 to 2026-03, 2026-05 and 2026-06.

use reference::adapter::*;

/// An adapter with its journal, handed from call to call.
#[derive(Clone)]
struct Bench {
    state: State,
    journal: Journal,
}

/// Number, port and body of an answer.
type Given = (u8, u32, Vec<u8>);

impl Bench {
    fn new() -> Bench {
        Bench::sized(Size::Small)
    }

    /// A new adapter with an empty journal of a size.
    fn sized(size: Size) -> Bench {
        Bench {
            state: create(0x12_3456).1.unwrap(),
            journal: Journal::sized(size),
        }
    }

    fn given(answer: Answer, output: [u8; 16]) -> Given {
        assert!(output[answer.length..].iter().all(|byte| *byte == 0xA5));
        (answer.number, answer.port, output[..answer.length].to_vec())
    }

    fn frame(&mut self, port: u32, body: &[u8]) -> Given {
        let mut output = [0xA5; 16];
        let answer = frame(&mut self.state, &mut self.journal, port, body, &mut output);
        Bench::given(answer, output)
    }

    fn completion(&mut self, received: &[u8]) -> Given {
        let mut output = [0xA5; 16];
        let answer = completion(&mut self.state, &mut self.journal, received, &mut output);
        Bench::given(answer, output)
    }

    fn i2c(&mut self, channel: u8, acknowledge: u32, line_low: u32, received: &[u8]) -> Given {
        let mut output = [0xA5; 16];
        let answer = i2c_completion(
            &mut self.state,
            &mut self.journal,
            u32::from(channel),
            acknowledge,
            line_low,
            received,
            &mut output,
        );
        Bench::given(answer, output)
    }

    fn sample(&mut self, levels: u32, kind: u32) -> Given {
        let mut output = [0xA5; 16];
        let answer = sample(
            &mut self.state,
            &mut self.journal,
            levels,
            kind,
            &mut output,
        );
        Bench::given(answer, output)
    }

    fn upset(&mut self) -> Given {
        let mut output = [0xA5; 16];
        let answer = upset(&mut self.state, &mut self.journal, &mut output);
        Bench::given(answer, output)
    }

    fn back(&mut self) -> u8 {
        step_back(&mut self.state, &mut self.journal)
    }

    fn kept(&self) -> usize {
        kept(&self.journal).1
    }

    /// Sends a request in sequence on the active port; gives the answer.
    fn request(
        &mut self,
        transaction: u8,
        channel: u8,
        length: u8,
        command: u8,
        data: u32,
    ) -> Given {
        let [d0, d1, d2, d3] = data.to_le_bytes();
        let control = 2 * self.state.receive;
        let port = u32::from(self.state.active);
        let fields = [
            0,
            control,
            transaction,
            channel,
            length,
            command,
            d2,
            d3,
            d0,
            d1,
        ];
        self.frame(port, &fields)
    }

    /// Sends a request and gives ERR, LEN and data of its reply.
    fn ask(&mut self, channel: u8, length: u8, command: u8, data: u32) -> (u8, u8, u32) {
        let send = self.state.send;
        let (number, port, body) = self.request(0x5A, channel, length, command, data);
        assert_eq!((number, port), (0, u32::from(self.state.active)));
        assert_eq!(
            body[..4],
            [0, 2 * send + 32 * self.state.receive, 0x5A, channel]
        );
        assert_eq!(self.state.send, (send + 1) % 8);
        (
            body[4],
            body[5],
            u32::from_le_bytes([body[8], body[9], body[6], body[7]]),
        )
    }

    fn enable(&mut self, crb: u8, crd: u8) {
        assert_eq!(self.ask(0x00, 4, 0x02, u32::from(crb) << 24), (0, 2, 0));
        assert_eq!(self.ask(0x00, 4, 0x06, u32::from(crd) << 24), (0, 2, 0));
    }

    /// A bench on which every channel is enabled.
    fn ready() -> Bench {
        let mut bench = Bench::new();
        bench.enable(0xFE, 0x1F);
        assert_eq!(bench.ask(0x00, 4, 0x04, 0xFF00_0000), (0, 2, 0));
        bench
    }

    fn master(&mut self, channel: u8) -> &mut Master {
        &mut self.state.masters[usize::from(channel) - 3]
    }

    /// Sends a start with its own TRN; it must be accepted and change nothing
    /// of its master but what is open.
    fn start(&mut self, transaction: u8, channel: u8, length: u8, command: u8) {
        let open = Master {
            transaction,
            command,
            ..*self.master(channel)
        };
        let send = self.state.send;
        let given = self.request(transaction, channel, length, command, 0xF0DE_BC9A);
        assert_eq!(given, (17, 0, vec![]));
        assert_eq!((*self.master(channel), self.state.send), (open, send));
    }
}

/// The I2C channels with the command that writes their enable bit, and it.
const ENABLES: [(u8, u8, u8); 16] = [
    (0x03, 0x02, 0x08),
    (0x04, 0x02, 0x10),
    (0x05, 0x02, 0x20),
    (0x06, 0x02, 0x40),
    (0x07, 0x02, 0x80),
    (0x08, 0x04, 0x01),
    (0x09, 0x04, 0x02),
    (0x0A, 0x04, 0x04),
    (0x0B, 0x04, 0x08),
    (0x0C, 0x04, 0x10),
    (0x0D, 0x04, 0x20),
    (0x0E, 0x04, 0x40),
    (0x0F, 0x04, 0x80),
    (0x10, 0x06, 0x01),
    (0x11, 0x06, 0x02),
    (0x12, 0x06, 0x04),
];

/// What a start takes when it succeeds.
#[derive(Clone, Copy, PartialEq, Eq, Debug)]
enum Takes {
    Nothing,
    OneByte,
    Bytes,
}

/// The starts: command, LEN of request and reply, what they take.
const STARTS: [(u8, u8, u8, Takes); 11] = [
    (0x82, 4, 4, Takes::Nothing),
    (0x86, 4, 4, Takes::OneByte),
    (0x8A, 6, 4, Takes::Nothing),
    (0x8E, 4, 4, Takes::OneByte),
    (0xDA, 4, 6, Takes::Nothing),
    (0xDE, 4, 4, Takes::Bytes),
    (0xE2, 2, 2, Takes::Nothing),
    (0xE6, 2, 2, Takes::Bytes),
    (0xC2, 2, 2, Takes::Nothing),
    (0xC6, 2, 2, Takes::Nothing),
    (0xCA, 2, 2, Takes::Nothing),
];

/// The starts that look at NBYTE.
const MULTI: [u8; 4] = [0xDA, 0xDE, 0xE2, 0xE6];

/// Acknowledge, line low, and the STATUS that they give.
const PAIRS: [(u32, u32, u8); 4] = [(1, 0, 0x04), (1, 1, 0x08), (0, 0, 0x40), (0, 1, 0x48)];

const CONNECT: [u8; 2] = [0x00, 0x2F];
const RESET: [u8; 2] = [0x00, 0x8F];
const TEST: [u8; 2] = [0x00, 0xE3];

#[test]
fn creation() {
    assert_eq!(create(0x0100_0000), (7, None));
    assert_eq!(create(u32::MAX), (7, None));
    let (number, state) = create(0x00FF_FFFF);
    let state = state.unwrap();
    assert_eq!(number, 17);
    assert_eq!(
        state,
        State {
            id: 0x00FF_FFFF,
            ..State::default()
        }
    );
    assert!(in_range(&state));
}

#[test]
fn commands_on_either_port() {
    for port in [0, 1] {
        for (control, reply) in [
            (0x2F, 0x63),
            (0x3F, 0x73),
            (0x8F, 0x63),
            (0x9F, 0x73),
            (0xE3, 0x63),
            (0xF3, 0x73),
        ] {
            let mut bench = Bench::new();
            assert_eq!(bench.frame(port, &[0, control]), (0, port, vec![0, reply]));
            let test = control == 0xE3 || control == 0xF3;
            assert_eq!(u32::from(bench.state.active), if test { 0 } else { port });
            assert_eq!(bench.state.loopback[port as usize], test);
            let reset = control == 0x8F || control == 0x9F;
            assert_eq!(bench.kept(), if reset { 0 } else { 1 });
            let before = bench.state;
            assert_eq!(bench.frame(port, &[0, control, 0]), (14, 0, vec![]));
            assert_eq!(bench.frame(port, &[1, control]), (11, 0, vec![]));
            assert_eq!(bench.state, before);
        }
    }
}

#[test]
fn frame_checks_in_order() {
    let mut bench = Bench::new();
    let request = [0, 0, 1, 0, 2, 3, 0, 0, 0, 0];
    assert_eq!(bench.frame(0, &[9, 0x2F, 1]), (11, 0, vec![]));
    assert_eq!(bench.frame(1, &[0, 0x01]), (13, 0, vec![]));
    assert_eq!(bench.frame(1, &request), (12, 0, vec![]));
    assert_eq!(bench.frame(1, &[0, 0]), (12, 0, vec![]));
    assert_eq!(bench.frame(0, &[0, 0]), (14, 0, vec![]));
    assert_eq!(bench.frame(0, &[0, 2, 1]), (14, 0, vec![]));
    assert_eq!(
        bench.frame(0, &[0, 2, 1, 0, 2, 3, 0, 0, 0, 0]),
        (0, 0, vec![0, 0x0D])
    );
    assert_eq!(bench.kept(), 7);
    assert_eq!(bench.state, Bench::new().state);
    assert_eq!(bench.frame(0, &request).0, 0);
    assert_eq!((bench.state.send, bench.state.receive), (1, 1));
    // Bits 7 to 4 of control are not read.
    assert_eq!(bench.frame(0, &[0, 0xF2, 1, 0, 2, 3, 0, 0, 0, 0]).0, 0);
}

#[test]
fn every_odd_control_but_the_commands_is_13() {
    for control in (1..=255u8).step_by(2) {
        let mut bench = Bench::new();
        bench.frame(0, &TEST);
        let command = matches!(control, 0x2F | 0x3F | 0x8F | 0x9F | 0xE3 | 0xF3);
        let (number, _, _) = bench.frame(0, &[0, control]);
        assert_eq!(number, if command { 0 } else { 13 });
    }
}

#[test]
fn loopback_sends_bodies_back() {
    let mut bench = Bench::new();
    bench.frame(1, &TEST);
    let body: Vec<u8> = (0..16).map(|place| 2 * place).collect();
    let before = bench.state;
    for length in 2..=16 {
        let wanted = (0, 1, body[..length].to_vec());
        assert_eq!(bench.frame(1, &body[..length]), wanted);
    }
    assert_eq!(bench.state, before);
    // The active port still answers; both loopbacks end with CONNECT.
    assert_eq!(bench.ask(0x00, 2, 0x03, 0), (0, 4, 0));
    bench.frame(0, &TEST);
    assert_eq!(bench.state.loopback, [true, true]);
    bench.frame(1, &CONNECT);
    assert_eq!(bench.state.loopback, [false, false]);
    assert_eq!(
        (bench.state.active, bench.state.send, bench.state.receive),
        (1, 0, 0)
    );
}

#[test]
fn replies_leave_on_the_active_port_in_loopback() {
    let mut bench = Bench::new();
    bench.enable(0x06, 0);
    assert_eq!(bench.request(7, 0x01, 2, 0x72, 0), (17, 0, vec![]));
    bench.ask(0x02, 4, 0x60, 1);
    bench.ask(0x02, 4, 0x30, 1);
    bench.ask(0x02, 4, 0x40, 1);
    bench.frame(1, &CONNECT);
    bench.frame(1, &TEST);
    assert_eq!(
        bench.sample(1, 0),
        (0, 1, vec![0, 0, 0xFF, 2, 0, 4, 0, 0, 1, 0])
    );
    let mut received = [0; 16];
    received[..4].copy_from_slice(&[0x11, 0x22, 0x33, 0x44]);
    let wanted = vec![0, 2, 7, 1, 0, 6, 0x33, 0x44, 0x11, 0x22];
    assert_eq!(bench.completion(&received), (0, 1, wanted));
    assert_eq!(bench.completion(&received), (15, 0, vec![]));
}

#[test]
fn error_bits_in_order() {
    let mut bench = Bench::new();
    for transaction in [0x00, 0xFF] {
        let (_, _, body) = bench.request(transaction, 0x16, 9, 0x99, 1);
        assert_eq!(body[2..], [transaction, 0x16, 0x08, 2, 0, 0, 0, 0]);
    }
    for transaction in [0x01, 0xFE] {
        let (_, _, body) = bench.request(transaction, 0x00, 2, 0x03, 1);
        assert_eq!(body[2..], [transaction, 0x00, 0, 4, 0, 0, 0, 0]);
    }
    for channel in 0x16..=0xFF {
        assert_eq!(bench.ask(channel, 9, 0x99, 1), (0x02, 2, 0));
    }
    for channel in 0x01..=0x14 {
        assert_eq!(bench.ask(channel, 9, 0x99, 1), (0x20, 2, 0));
    }
    bench.enable(0xFE, 0x1F);
    bench.ask(0, 4, 0x04, 0xFF00_0000);
    for channel in 0x00..=0x15 {
        assert_eq!(bench.ask(channel, 9, 0x99, 1), (0x04, 2, 0));
    }
    for (channel, command) in [
        (0, 2),
        (1, 0),
        (1, 0x72),
        (2, 1),
        (3, 0x30),
        (0x12, 0x82),
        (0x13, 0xF1),
        (0x14, 0xD1),
        (0x15, 0x10),
    ] {
        assert_eq!(bench.ask(channel, 9, command, 1), (0x10, 2, 0));
    }
    bench.request(3, 0x01, 2, 0x72, 0);
    assert_eq!(bench.ask(0x01, 9, 0x99, 1), (0x40, 2, 0));
    assert_eq!(bench.ask(0x01, 2, 0x72, 1), (0x40, 2, 0));
    assert_eq!(bench.ask(0x02, 1, 0x01, 1), (0, 4, 0));
}

/// The register commands of a master: command, LEN of request and reply.
const MASTER_REGISTERS: [(u8, u8, u8); 13] = [
    (0x30, 1, 0),
    (0x31, 0, 1),
    (0x11, 0, 1),
    (0x20, 1, 0),
    (0x21, 0, 1),
    (0x40, 4, 0),
    (0x41, 0, 4),
    (0x50, 4, 0),
    (0x51, 0, 4),
    (0x60, 4, 0),
    (0x61, 0, 4),
    (0x70, 4, 0),
    (0x71, 0, 4),
];

/// Every command: channel, command, LEN of request and reply.
fn command_table() -> Vec<(u8, u8, u8, u8)> {
    let mut table = vec![(0x01, 0x72, 2, 6), (0x02, 0x01, 1, 4)];
    table.extend([(0x13, 0xF1, 4, 4), (0x13, 0xF0, 4, 2), (0x14, 0xD1, 4, 4)]);
    for write in [2, 4, 6] {
        table.extend([(0, write, 4, 2), (0, write + 1, 2, 4)]);
    }
    for write in [0x00, 0x10, 0x20, 0x30, 0x40, 0x50, 0x60] {
        table.extend([(1, write, 6, 2), (1, write + 1, 2, 6)]);
    }
    for write in [0x10, 0x20, 0x30, 0x40, 0x60, 0x70, 0x80, 0x90] {
        table.extend([(2, write, 4, 2), (2, write + 1, 1, 4)]);
    }
    for write in [0x10, 0x20, 0x30, 0x40] {
        table.extend([(0x15, write, 4, 1), (0x15, write + 1, 1, 4)]);
    }
    for channel in 0x03..=0x12 {
        table.extend(
            MASTER_REGISTERS.map(|(command, wanted, given)| (channel, command, wanted, given)),
        );
        table.extend(STARTS.map(|(command, wanted, given, _)| (channel, command, wanted, given)));
    }
    table
}

/// Whether a command has its reply only with a completion.
fn waits(channel: u8, command: u8) -> bool {
    let start = STARTS.iter().any(|row| row.0 == command);
    (channel, command) == (0x01, 0x72) || (0x03..=0x12).contains(&channel) && start
}

#[test]
fn every_channel_command_and_length() {
    let table = command_table();
    let mut ready = Bench::ready();
    for channel in 0x03..=0x12 {
        ready.ask(channel, 1, 0x30, 0x0400_0000);
    }
    for channel in 0x00..=0x15 {
        for command in 0..=255 {
            let row = table
                .iter()
                .find(|row| (row.0, row.1) == (channel, command));
            for length in 0..=7 {
                let mut bench = ready.clone();
                let (number, _, body) = bench.request(1, channel, length, command, 0xFFFF_FFFF);
                let go = waits(channel, command) && row.map_or(false, |row| row.2 == length);
                assert_eq!(number, if go { 17 } else { 0 });
                if go {
                    continue;
                }
                let wanted = match row {
                    None => (0x04, 2),
                    Some(row) if row.2 != length => (0x10, 2),
                    Some(row) => (0, row.3),
                };
                assert_eq!((body[4], body[5]), wanted);
                if wanted.0 != 0 {
                    let numbers = (bench.state.send, bench.state.receive);
                    let mut before = Bench {
                        state: State {
                            send: numbers.0,
                            receive: numbers.1,
                            ..ready.state
                        },
                        journal: Journal::new(),
                    };
                    if wanted.0 == 0x04 && (0x03..=0x12).contains(&channel) {
                        before.master(channel).status = 0x20;
                    }
                    assert_eq!(bench.state, before.state);
                    assert_eq!(body[6..], [0; 4]);
                }
            }
        }
    }
}

#[test]
fn every_register_reads_back_its_bits() {
    let mut bench = Bench::new();
    bench.enable(0xFF, 0xFF);
    assert_eq!(bench.ask(0, 2, 0x03, u32::MAX), (0, 4, 0xFE00_0000));
    assert_eq!(bench.ask(0, 2, 0x07, u32::MAX), (0, 4, 0x1F00_0000));
    bench.ask(0, 4, 0x04, 0xA5FF_FFFF);
    assert_eq!(bench.ask(0, 2, 0x05, u32::MAX), (0, 4, 0xA500_0000));
    let value = 0x89AB_CDEF;
    for (place, command) in [0x00, 0x10, 0x20, 0x30].iter().enumerate() {
        assert_eq!(bench.ask(1, 6, *command, value + place as u32), (0, 2, 0));
    }
    for (place, command) in [0x01, 0x11, 0x21, 0x31].iter().enumerate() {
        assert_eq!(bench.ask(1, 2, *command, 0), (0, 6, value + place as u32));
    }
    for (command, mask) in [(0x40, 0xFFFF), (0x50, 0xFFFF), (0x60, 0xFF)] {
        assert_eq!(bench.ask(1, 6, command, value), (0, 2, 0));
        assert_eq!(bench.ask(1, 2, command + 1, 0), (0, 6, value & mask));
    }
    for command in [0x10, 0x20, 0x30, 0x40, 0x60, 0x70, 0x80, 0x90] {
        let value = value ^ u32::from(command);
        let mask = if command == 0x60 { 1 } else { u32::MAX };
        assert_eq!(bench.ask(2, 4, command, value), (0, 2, 0));
        assert_eq!(bench.ask(2, 1, command + 1, 0), (0, 4, value & mask));
    }
    for command in [0x10, 0x20, 0x30, 0x40] {
        assert_eq!(
            bench.ask(0x15, 4, command, value + u32::from(command)),
            (0, 1, 0)
        );
        let read = (value + u32::from(command)) & 0xFF;
        assert_eq!(bench.ask(0x15, 1, command + 1, 0), (0, 4, read));
    }
    assert_eq!(bench.ask(0x14, 4, 0xD1, 0), (0, 4, 0x12_3456));
    assert!(in_range(&bench.state));
}

#[test]
fn upsets_count_wrap_and_clear() {
    let mut bench = Bench::new();
    bench.enable(0, 0x08);
    bench.state.seu = 0xFFFF_FFFE;
    assert_eq!(bench.upset(), (17, 0, vec![]));
    assert_eq!(bench.ask(0x13, 4, 0xF1, 0), (0, 4, 0xFFFF_FFFF));
    bench.upset();
    assert_eq!(bench.ask(0x13, 4, 0xF1, 0), (0, 4, 0));
    bench.upset();
    // Disabling does not touch the counter.
    bench.enable(0, 0x00);
    assert_eq!(bench.state.seu, 1);
    bench.enable(0, 0x08);
    assert_eq!(bench.ask(0x13, 4, 0xF0, 5), (0, 2, 0));
    assert_eq!(bench.state.seu, 0);
}

#[test]
fn disabling_zeroes_a_channel_and_drops_its_go() {
    let mut bench = Bench::new();
    bench.enable(0x06, 0);
    bench.ask(1, 6, 0x40, 0x1234);
    bench.ask(2, 4, 0x10, 0x1234);
    bench.request(9, 1, 2, 0x72, 0);
    // Writing CRB without a change keeps everything.
    bench.ask(0, 4, 0x02, 0x0600_0000);
    assert_eq!(
        (bench.state.spi.control, bench.state.spi.open_go),
        (0x1234, Some(9))
    );
    bench.ask(0, 4, 0x02, 0x0400_0000);
    assert_eq!(bench.state.spi, Spi::default());
    assert_eq!(bench.state.gpio.dataout, 0x1234);
    bench.ask(0, 4, 0x02, 0x0200_0000);
    assert_eq!(bench.state.gpio, Gpio::default());
    assert_eq!(bench.completion(&[0; 16]), (15, 0, vec![]));
    assert_eq!((bench.back(), bench.back(), bench.back()), (17, 17, 17));
    assert_eq!(bench.state.spi.open_go, Some(9));
    assert_eq!(bench.completion(&[0; 16]).0, 0);
}

#[test]
fn connect_keeps_the_go_and_reset_drops_it() {
    let mut bench = Bench::new();
    bench.enable(0x02, 0);
    bench.ask(0x15, 4, 0x10, 1);
    bench.upset();
    bench.request(9, 1, 2, 0x72, 0);
    bench.frame(0, &CONNECT);
    assert_eq!(bench.state.spi.open_go, Some(9));
    assert_eq!(bench.frame(1, &RESET), (0, 1, vec![0, 0x63]));
    assert_eq!(
        bench.state,
        State {
            active: 1,
            ..Bench::new().state
        }
    );
    assert_eq!((bench.kept(), bench.back()), (0, 5));
}

#[test]
fn completion_lengths() {
    for length in 0..=127u16 {
        let mut bench = Bench::new();
        bench.enable(0x02, 0);
        for word in 0..4 {
            bench.ask(1, 6, 0x10 * word, 0x5555_5555);
        }
        bench.ask(1, 6, 0x40, 0xFF80 | u32::from(length));
        bench.request(9, 1, 2, 0x72, 0);
        let (number, _, body) = bench.completion(&[0xAA; 16]);
        let bits = if length == 0 { 128 } else { length };
        let mask = if bits == 128 {
            u128::MAX
        } else {
            (1 << bits) - 1
        };
        let old = u128::from_le_bytes([0x55; 16]);
        let new = u128::from_le_bytes([0xAA; 16]);
        let wanted = old & !mask | new & mask;
        let data = bench.state.spi.data;
        let got = (0..4).fold(0, |sum, word| sum | u128::from(data[word]) << (32 * word));
        assert_eq!((number, got), (0, wanted));
        let low = u32::from_le_bytes([body[8], body[9], body[6], body[7]]);
        assert_eq!((low, body[4], body[5]), (wanted as u32, 0, 6));
        assert_eq!(bench.state.spi.open_go, None);
    }
}

#[test]
fn samples_follow_direction_clock_and_edge() {
    assert_eq!(Bench::new().sample(1, 0), (16, 0, vec![]));
    for (direction, clksel, edgesel, kind) in
        (0..24).map(|n| (n & 1, n >> 1 & 1, n >> 2 & 1, n >> 3))
    {
        let mut bench = Bench::new();
        bench.enable(0x04, 0);
        bench.ask(2, 4, 0x20, direction);
        bench.ask(2, 4, 0x80, clksel);
        bench.ask(2, 4, 0x90, edgesel);
        assert_eq!(bench.sample(1, kind), (17, 0, vec![]));
        let source = if clksel == 0 { 0 } else { 1 + edgesel };
        let taken = direction == 0 && kind == source;
        assert_eq!(bench.ask(2, 1, 0x01, 0), (0, 4, u32::from(taken)));
    }
}

#[test]
fn interrupts_fire_on_the_chosen_edge() {
    let mut bench = Bench::new();
    bench.enable(0x04, 0);
    bench.ask(2, 4, 0x30, 0x0000_FF0F);
    bench.ask(2, 4, 0x40, 0x0000_0F0F);
    bench.ask(2, 4, 0x70, 0xDEAD_BEEF);
    // Not enabled: DATAIN moves, INTS stays.
    assert_eq!(bench.sample(0xFFFF_FFFF, 0), (17, 0, vec![]));
    assert_eq!(
        (bench.state.gpio.datain, bench.state.gpio.ints),
        (u32::MAX, 0xDEAD_BEEF)
    );
    bench.ask(2, 4, 0x60, 0xFFFF_FFFF);
    // All fall: lines 15 to 12 are selected and have INTTRIG 0.
    let (number, _, body) = bench.sample(0, 0);
    assert_eq!(number, 0);
    assert_eq!(body[2..], [0xFF, 0x02, 0, 4, 0, 0, 0, 0xF0]);
    assert_eq!(bench.state.gpio.ints, 0xF000);
    assert_eq!(bench.sample(0, 0), (17, 0, vec![]));
    // All rise: lines 11 to 8 and 3 to 0 are selected and have INTTRIG 1.
    let (number, _, body) = bench.sample(0xFFFF_FFFF, 0);
    assert_eq!(number, 0);
    assert_eq!(body[2..], [0xFF, 0x02, 0, 4, 0, 0, 0x0F, 0x0F]);
    assert_eq!(bench.sample(0xFFFF_FFFF, 0), (17, 0, vec![]));
    assert_eq!(bench.state.gpio.ints, 0x0F0F);
}

/// Line 17, the only one that moves in the two tests below.
const LINE: u32 = 0x0002_0000;

#[test]
fn table_of_edges_for_one_line() {
    // Level before and after, INTTRIG, INTSEL, INTENABLE; the sample's number
    // and INTS afterwards, which held 0xDEADBEEF.
    for (before, after, inttrig, intsel, intenable, number, ints) in [
        // Rising.
        (0, LINE, 0, 0, 0, 17, 0xDEAD_BEEF),
        (0, LINE, 0, 0, 1, 17, 0xDEAD_BEEF),
        (0, LINE, 0, LINE, 0, 17, 0xDEAD_BEEF),
        (0, LINE, 0, LINE, 1, 17, 0xDEAD_BEEF),
        (0, LINE, LINE, 0, 0, 17, 0xDEAD_BEEF),
        (0, LINE, LINE, 0, 1, 17, 0xDEAD_BEEF),
        (0, LINE, LINE, LINE, 0, 17, 0xDEAD_BEEF),
        (0, LINE, LINE, LINE, 1, 0, 0x0002_0000),
        // Falling.
        (LINE, 0, 0, 0, 0, 17, 0xDEAD_BEEF),
        (LINE, 0, 0, 0, 1, 17, 0xDEAD_BEEF),
        (LINE, 0, 0, LINE, 0, 17, 0xDEAD_BEEF),
        (LINE, 0, 0, LINE, 1, 0, 0x0002_0000),
        (LINE, 0, LINE, 0, 0, 17, 0xDEAD_BEEF),
        (LINE, 0, LINE, 0, 1, 17, 0xDEAD_BEEF),
        (LINE, 0, LINE, LINE, 0, 17, 0xDEAD_BEEF),
        (LINE, 0, LINE, LINE, 1, 17, 0xDEAD_BEEF),
    ] {
        let mut bench = Bench::new();
        bench.enable(0x04, 0);
        assert_eq!(bench.sample(before, 0), (17, 0, vec![]));
        bench.ask(2, 4, 0x40, inttrig);
        bench.ask(2, 4, 0x30, intsel);
        bench.ask(2, 4, 0x70, 0xDEAD_BEEF);
        bench.ask(2, 4, 0x60, intenable);
        // Six requests were answered: control is 2 * 6 + 32 * 6.
        let given = match number {
            0 => (0, 0, vec![0, 0xCC, 0xFF, 2, 0, 4, 2, 0, 0, 0]),
            _ => (17, 0, vec![]),
        };
        assert_eq!(bench.sample(after, 0), given);
        assert_eq!(bench.ask(2, 1, 0x71, 0), (0, 4, ints));
        assert_eq!(bench.ask(2, 1, 0x01, 0), (0, 4, after));
        assert_eq!(bench.ask(2, 1, 0x41, 0), (0, 4, inttrig));
        // A level that stays is no edge.
        assert_eq!(bench.sample(after, 0), (17, 0, vec![]));
        assert_eq!(bench.state.gpio.ints, ints);
    }
}

#[test]
fn the_edge_that_samples_is_not_the_edge_that_fires() {
    // CLKSEL, EDGESEL, the kind that samples the line and the two that don't.
    for (clksel, edgesel, kind, others) in [
        (0, 0, 0, [1, 2]),
        (0, LINE, 0, [1, 2]),
        (LINE, 0, 1, [0, 2]),
        (LINE, LINE, 2, [0, 1]),
    ] {
        // Level before and after, INTTRIG; the sample's number and INTS.
        for (before, after, inttrig, number, ints) in [
            (0, LINE, 0, 17, 0),
            (0, LINE, LINE, 0, 0x0002_0000),
            (LINE, 0, 0, 0, 0x0002_0000),
            (LINE, 0, LINE, 17, 0),
        ] {
            let mut bench = Bench::new();
            bench.enable(0x04, 0);
            bench.ask(2, 4, 0x80, clksel);
            bench.ask(2, 4, 0x90, edgesel);
            bench.ask(2, 4, 0x40, inttrig);
            bench.ask(2, 4, 0x30, LINE);
            // INTENABLE is still 0, so this edge is told to nobody.
            assert_eq!(bench.sample(before, kind), (17, 0, vec![]));
            bench.ask(2, 4, 0x60, 1);
            for other in others {
                assert_eq!(bench.sample(after, other), (17, 0, vec![]));
                assert_eq!(bench.ask(2, 1, 0x01, 0), (0, 4, before));
                assert_eq!(bench.ask(2, 1, 0x71, 0), (0, 4, 0));
            }
            assert_eq!(bench.sample(after, kind).0, number);
            assert_eq!(bench.ask(2, 1, 0x01, 0), (0, 4, after));
            assert_eq!(bench.ask(2, 1, 0x71, 0), (0, 4, ints));
        }
    }
}

#[test]
fn refusals_in_order_change_nothing() {
    for size in [Size::Small, Size::Large] {
        refusals_of_a_damaged_journal(size);
        refusals_of_wrong_arguments(size);
    }
}

fn refusals_of_a_damaged_journal(size: Size) {
    let bad = State {
        send: 8,
        ..State::default()
    };
    for condition in [Condition::WrongLength, Condition::WrongLayout] {
        let mut journal = Journal::sized(size);
        journal.condition = condition;
        let (state, kept_journal) = (State::default(), journal.clone());
        let mut out = [7; 15];
        let mut s = bad;
        assert_eq!(frame(&mut s, &mut journal, 2, &[0], &mut out).number, 6);
        assert_eq!(completion(&mut s, &mut journal, &[0], &mut out).number, 6);
        let answer = i2c_completion(&mut s, &mut journal, 2, 2, 2, &[0; 17], &mut out);
        assert_eq!((answer.number, answer.port, answer.length), (6, 0, 0));
        assert_eq!(sample(&mut s, &mut journal, 0, 3, &mut out).number, 6);
        assert_eq!(upset(&mut s, &mut journal, &mut out).number, 6);
        assert_eq!(step_back(&mut s, &mut journal), 6);
        assert_eq!(s, bad);
        let mut s = state;
        assert_eq!(frame(&mut s, &mut journal, 2, &[0], &mut out).number, 4);
        assert_eq!(completion(&mut s, &mut journal, &[0], &mut out).number, 4);
        let answer = i2c_completion(&mut s, &mut journal, 2, 2, 2, &[0; 17], &mut out);
        assert_eq!((answer.number, answer.port, answer.length), (4, 0, 0));
        assert_eq!(sample(&mut s, &mut journal, 0, 3, &mut out).number, 4);
        assert_eq!(upset(&mut s, &mut journal, &mut out).number, 4);
        assert_eq!(step_back(&mut s, &mut journal), 4);
        assert_eq!(kept(&journal), (4, 0));
        assert_eq!((s, &journal, out), (state, &kept_journal, [7; 15]));
        let whole = condition == Condition::WrongLayout;
        assert_eq!(empty(&mut journal), if whole { 17 } else { 4 });
        assert_eq!(journal == Journal::sized(size), whole);
    }
}

fn refusals_of_wrong_arguments(size: Size) {
    let mut bench = Bench::sized(size);
    bench.upset();
    let before = bench.clone();
    let (s, j) = (&mut bench.state, &mut bench.journal);
    let mut out = [7; 15];
    assert_eq!(frame(s, j, 2, &[0], &mut out).number, 1);
    assert_eq!(completion(s, j, &[0], &mut out).number, 1);
    assert_eq!(i2c_completion(s, j, 2, 2, 2, &[0; 17], &mut out).number, 1);
    assert_eq!(i2c_completion(s, j, 3, 1, 0, &[], &mut []).number, 1);
    assert_eq!(sample(s, j, 0, 3, &mut out).number, 1);
    assert_eq!(upset(s, j, &mut out).number, 1);
    let mut out = [7; 16];
    assert_eq!(frame(s, j, 2, &[0], &mut out).number, 3);
    assert_eq!(completion(s, j, &[0; 15], &mut out).number, 3);
    assert_eq!(completion(s, j, &[0; 17], &mut out).number, 3);
    for channel in [0, 1, 2, 0x13, 0x14, 0xFF, 0x103, 0x112, 0x1_0003, u32::MAX] {
        let answer = i2c_completion(s, j, channel, 1, 0, &[], &mut out);
        assert_eq!((answer.number, answer.port, answer.length), (3, 0, 0));
    }
    assert_eq!(i2c_completion(s, j, 3, 1, 0, &[0; 17], &mut out).number, 3);
    assert_eq!(i2c_completion(s, j, 3, 1, 0, &[0; 300], &mut out).number, 3);
    assert_eq!(sample(s, j, 0, 3, &mut out).number, 3);
    for wide in [256, 257, 258, 0x1_0001, u32::MAX] {
        assert_eq!(frame(s, j, wide, &[0, 0x2F], &mut out).number, 3);
        assert_eq!(sample(s, j, 0, wide, &mut out).number, 3);
    }
    assert_eq!(frame(s, j, 0, &[0], &mut out).number, 2);
    assert_eq!(frame(s, j, 0, &[0; 17], &mut out).number, 2);
    assert_eq!(frame(s, j, 0, &[], &mut out).number, 2);
    assert_eq!((bench.state, bench.journal), (before.state, before.journal));
    assert_eq!(out, [7; 16]);
}

#[test]
fn ranges() {
    let spi = State {
        crb: 0x02,
        ..State::default()
    };
    let gpio = State {
        crb: 0x04,
        ..State::default()
    };
    let good = [
        State {
            send: 7,
            receive: 7,
            active: 1,
            loopback: [true; 2],
            ..State::default()
        },
        State {
            id: 0xFF_FFFF,
            seu: u32::MAX,
            crc: 0xFF,
            crd: 0x1F,
            dac: [0xFF; 4],
            ..State::default()
        },
        State {
            spi: Spi {
                control: 0xFFFF,
                open_go: Some(0xFF),
                ..Spi::default()
            },
            ..spi
        },
        State {
            gpio: Gpio {
                intenable: 1,
                datain: 1,
                ..Gpio::default()
            },
            ..gpio
        },
    ];
    good.iter().for_each(|state| assert!(in_range(state)));
    let bad = [
        State {
            send: 8,
            ..State::default()
        },
        State {
            receive: 8,
            ..State::default()
        },
        State {
            active: 2,
            ..State::default()
        },
        State {
            id: 0x0100_0000,
            ..State::default()
        },
        State {
            crb: 0x01,
            ..State::default()
        },
        State {
            crd: 0x20,
            ..State::default()
        },
        State {
            gpio: Gpio {
                intenable: 2,
                ..Gpio::default()
            },
            ..gpio
        },
        State {
            spi: Spi {
                control: 1,
                ..Spi::default()
            },
            ..gpio
        },
        State {
            spi: Spi {
                data: [0, 0, 0, 1],
                ..Spi::default()
            },
            ..gpio
        },
        State {
            spi: Spi {
                open_go: Some(0),
                ..Spi::default()
            },
            ..gpio
        },
        State {
            gpio: Gpio {
                edgesel: 1,
                ..Gpio::default()
            },
            ..spi
        },
    ];
    bad.iter().for_each(|state| assert!(!in_range(state)));
}

#[test]
fn each_master_has_its_own_enable_bit() {
    for (channel, write, bit) in ENABLES {
        let mut bench = Bench::new();
        let value = u32::from(bit) << 24;
        assert_eq!(bench.ask(0, 4, write, value | 0xFF_FFFF), (0, 2, 0));
        assert_eq!(bench.ask(0, 2, write + 1, 0), (0, 4, value));
        for other in 0x03..=0x12 {
            let wanted = if other == channel {
                (0, 1, 0)
            } else {
                (0x20, 2, 0)
            };
            assert_eq!(bench.ask(other, 0, 0x11, 0), wanted);
        }
        let mut bench = Bench::ready();
        assert_eq!(bench.ask(0, 4, write, !value), (0, 2, 0));
        for other in 0x03..=0x12 {
            let wanted = if other == channel {
                (0x20, 2, 0)
            } else {
                (0, 1, 0)
            };
            assert_eq!(bench.ask(other, 0, 0x11, 0), wanted);
        }
    }
}

#[test]
fn a_masters_registers_in_their_places() {
    let mut bench = Bench::ready();
    assert_eq!(bench.ask(0x0F, 1, 0x20, 0xA1FF_FFFF), (0, 0, 0));
    assert_eq!(bench.ask(0x0F, 1, 0x30, 0xFEFF_FFFF), (0, 0, 0));
    assert_eq!(bench.ask(0x0F, 4, 0x40, 0x0001_0203), (0, 0, 0));
    assert_eq!(bench.ask(0x0F, 4, 0x50, 0x0405_0607), (0, 0, 0));
    assert_eq!(bench.ask(0x0F, 4, 0x60, 0x0809_0A0B), (0, 0, 0));
    assert_eq!(bench.ask(0x0F, 4, 0x70, 0x0C0D_0E0F), (0, 0, 0));
    let written = Master {
        mask: 0xA1,
        control: 0xFE,
        data: [0, 1, 2, 3, 4, 5, 6, 7, 8, 9, 10, 11, 12, 13, 14, 15],
        ..Master::default()
    };
    assert_eq!(*bench.master(0x0F), written);
    assert_eq!(bench.ask(0x0F, 0, 0x21, u32::MAX), (0, 1, 0xA100_0000));
    assert_eq!(bench.ask(0x0F, 0, 0x31, u32::MAX), (0, 1, 0xFE00_0000));
    assert_eq!(bench.ask(0x0F, 0, 0x41, u32::MAX), (0, 4, 0x0001_0203));
    assert_eq!(bench.ask(0x0F, 0, 0x51, u32::MAX), (0, 4, 0x0405_0607));
    assert_eq!(bench.ask(0x0F, 0, 0x61, u32::MAX), (0, 4, 0x0809_0A0B));
    assert_eq!(bench.ask(0x0F, 0, 0x71, u32::MAX), (0, 4, 0x0C0D_0E0F));
    bench.master(0x0F).status = 0x6C;
    assert_eq!(bench.ask(0x0F, 0, 0x11, u32::MAX), (0, 1, 0x6C00_0000));
    *bench.master(0x0F) = Master::default();
    assert_eq!(bench.state.masters, [Master::default(); 16]);
}

#[test]
fn the_bytes_of_a_word_go_out_in_the_order_of_figure_4_4() {
    let mut bench = Bench::ready();
    let numbers = (bench.state.receive, bench.state.send);
    assert_eq!(numbers, (3, 3));
    // BYTE0 11, BYTE1 22, BYTE2 33, BYTE3 44.
    let write = [0, 6, 0x31, 0x10, 4, 0x40, 0x22, 0x11, 0x44, 0x33];
    let wrote = vec![0, 0x86, 0x31, 0x10, 0, 0, 0, 0, 0, 0];
    assert_eq!(bench.frame(0, &write), (0, 0, wrote));
    assert_eq!(bench.master(0x10).data[..5], [0x11, 0x22, 0x33, 0x44, 0]);
    let read = [0, 8, 0x32, 0x10, 0, 0x41, 9, 9, 9, 9];
    let given = vec![0, 0xA8, 0x32, 0x10, 0, 4, 0x22, 0x11, 0x44, 0x33];
    assert_eq!(bench.frame(0, &read), (0, 0, given));
    let write = [0, 10, 0x33, 0x10, 1, 0x20, 0x22, 0x5A, 0x44, 0x33];
    let wrote = vec![0, 0xCA, 0x33, 0x10, 0, 0, 0, 0, 0, 0];
    assert_eq!(bench.frame(0, &write), (0, 0, wrote));
    let read = [0, 12, 0x34, 0x10, 0, 0x21, 0, 0, 0, 0];
    let given = vec![0, 0xEC, 0x34, 0x10, 0, 1, 0, 0x5A, 0, 0];
    assert_eq!(bench.frame(0, &read), (0, 0, given));
}

#[test]
fn masters_do_not_share_registers() {
    let mut bench = Bench::ready();
    for channel in 0x03..=0x12u8 {
        let value = u32::from(channel) * 0x0101_0101;
        for (command, length) in [(0x20, 1), (0x30, 1), (0x40, 4), (0x50, 4), (0x60, 4)] {
            bench.ask(channel, length, command, value + u32::from(command));
        }
        bench.ask(channel, 4, 0x70, !value);
    }
    for channel in 0x03..=0x12u8 {
        let mut data = [channel; 16];
        data[3] = channel + 0x40;
        data[7] = channel + 0x50;
        data[11] = channel + 0x60;
        data[12..].fill(!channel);
        let wanted = Master {
            mask: channel,
            control: channel,
            data,
            ..Master::default()
        };
        assert_eq!(*bench.master(channel), wanted);
    }
}

/// A master with NBYTE 5 and something in every register.
fn full_master(invcom: u8) -> Master {
    Master {
        mask: 0x3C,
        control: 0x97,
        status: 0x48 | invcom,
        data: *b"ABCDEFGHIJKLMNOP",
        ..Master::default()
    }
}

#[test]
fn every_start_with_every_acknowledge_and_line() {
    let received = b"abcdefghijklmnop";
    let mut channel = 0x02;
    for (command, wanted, given, takes) in STARTS {
        for (acknowledge, line_low, status) in PAIRS {
            for (count, invcom) in [(0, 0), (1, 0x20), (3, 0), (5, 0x20), (6, 0), (16, 0x20)] {
                channel = if channel == 0x12 { 0x03 } else { channel + 1 };
                let mut bench = Bench::ready();
                *bench.master(channel) = full_master(invcom);
                bench.start(0xC3, channel, wanted, command);
                // Three requests were answered, the start had no reply.
                assert_eq!((bench.state.send, bench.state.receive), (3, 4));
                let answer = bench.i2c(channel, acknowledge, line_low, &received[..count]);
                let success = status == 0x04;
                let byte = match takes {
                    Takes::OneByte if success && count > 0 => b'a',
                    _ => 0,
                };
                let status = status | invcom;
                let body = vec![0, 0x86, 0xC3, channel, 0, given, byte, status, 0, 0];
                assert_eq!(answer, (0, 0, body));
                let mut after = Bench::ready().state;
                after.send = 4;
                after.receive = 4;
                let data = match (takes, success, count) {
                    (Takes::Bytes, true, 0) => *b"\0\0\0\0\0FGHIJKLMNOP",
                    (Takes::Bytes, true, 1) => *b"a\0\0\0\0FGHIJKLMNOP",
                    (Takes::Bytes, true, 3) => *b"abc\0\0FGHIJKLMNOP",
                    (Takes::Bytes, true, _) => *b"abcdeFGHIJKLMNOP",
                    _ => *b"ABCDEFGHIJKLMNOP",
                };
                after.masters[usize::from(channel) - 3] = Master {
                    status,
                    data,
                    ..full_master(0)
                };
                assert_eq!(bench.state, after);
                // No start is open any more.
                assert_eq!(bench.i2c(channel, 1, 0, b"x"), (15, 0, vec![]));
                assert_eq!(bench.state, after);
                let read = u32::from(status) << 24;
                assert_eq!(bench.ask(channel, 0, 0x11, 0), (0, 1, read));
            }
        }
    }
}

#[test]
fn any_bit_of_acknowledge_and_line_counts() {
    for wide in [1, 2, 0x100, 0x1_0000, 0x8000_0000, u32::MAX] {
        for (acknowledge, line_low, status) in PAIRS {
            let mut bench = Bench::ready();
            bench.start(1, 0x09, 4, 0x82);
            let (number, _, body) = bench.i2c(0x09, acknowledge * wide, line_low * wide, &[]);
            assert_eq!((number, body[7]), (0, status));
        }
    }
}

#[test]
fn a_completion_replaces_the_status_before_it() {
    let mut bench = Bench::ready();
    for (acknowledge, line_low, status) in PAIRS.iter().chain(PAIRS.iter().rev()) {
        bench.start(7, 0x12, 2, 0xC6);
        bench.i2c(0x12, *acknowledge, *line_low, &[]);
        assert_eq!(bench.master(0x12).status, *status);
    }
}

#[test]
fn byte_counts_at_a_start() {
    for count in [0u8, 1, 2, 15, 16, 17, 24, 31] {
        // FREQ and SCLMODE play no part in it.
        for others in [0x00, 0x83] {
            let control = count << 2 | others;
            let mut ready = Bench::ready();
            let value = u32::from(control) << 24;
            assert_eq!(ready.ask(0x08, 1, 0x30, value), (0, 0, 0));
            assert_eq!(ready.ask(0x08, 0, 0x31, 0), (0, 1, value));
            for (command, length, _, takes) in STARTS {
                let mut bench = ready.clone();
                if MULTI.contains(&command) && (count == 0 || count > 16) {
                    let master = *bench.master(0x08);
                    assert_eq!(bench.ask(0x08, length, command, 0), (0x10, 2, 0));
                    assert_eq!(bench.ask(0x08, length + 1, command, 0), (0x10, 2, 0));
                    assert_eq!(*bench.master(0x08), master);
                    assert_eq!(bench.i2c(0x08, 1, 0, &[1; 16]), (15, 0, vec![]));
                    continue;
                }
                bench.start(1, 0x08, length, command);
                assert_eq!(bench.i2c(0x08, 1, 0, &[9; 16]).0, 0);
                let mut data = [0; 16];
                if takes == Takes::Bytes {
                    data[..usize::from(count)].fill(9);
                }
                assert_eq!(bench.master(0x08).data, data);
            }
        }
    }
}

#[test]
fn an_unknown_command_stays_in_status() {
    let mut bench = Bench::new();
    // Not enabled, wrong TRN, wrong LEN, busy: another error goes out.
    assert_eq!(bench.ask(0x05, 0, 0x99, 0), (0x20, 2, 0));
    bench.enable(0x30, 0);
    assert_eq!(bench.request(0xFF, 0x05, 0, 0x99, 0).2[4], 0x08);
    assert_eq!(bench.ask(0x05, 1, 0x11, 0), (0x10, 2, 0));
    assert_eq!(bench.ask(0x05, 4, 0xDA, 0), (0x10, 2, 0));
    bench.start(1, 0x05, 4, 0x86);
    assert_eq!(bench.ask(0x05, 0, 0x99, 0), (0x40, 2, 0));
    assert_eq!(bench.i2c(0x05, 1, 0, &[]).0, 0);
    assert_eq!(bench.ask(0x05, 0, 0x11, 0), (0, 1, 0x0400_0000));
    // Every other command is unknown to a master.
    for command in 0..=255 {
        let known = STARTS.iter().any(|row| row.0 == command)
            || MASTER_REGISTERS.iter().any(|row| row.0 == command);
        if !known {
            let mut other = bench.clone();
            assert_eq!(other.ask(0x05, 0, command, u32::MAX), (0x04, 2, 0));
            let noted = Master {
                status: 0x24,
                ..Master::default()
            };
            assert_eq!(*other.master(0x05), noted);
            assert_eq!(other.state.masters[..2], bench.state.masters[..2]);
            assert_eq!(other.state.masters[3..], bench.state.masters[3..]);
        }
    }
    assert_eq!(bench.ask(0x05, 0, 0x99, 0), (0x04, 2, 0));
    assert_eq!(bench.ask(0x05, 0, 0x11, 0), (0, 1, 0x2400_0000));
    // It hinders no success and stands in every later STATUS.
    for (acknowledge, line_low, status) in PAIRS {
        bench.start(2, 0x05, 2, 0xCA);
        let (_, _, body) = bench.i2c(0x05, acknowledge, line_low, &[]);
        assert_eq!(body[2..], [2, 0x05, 0, 2, 0, status | 0x20, 0, 0]);
    }
    bench.frame(0, &CONNECT);
    assert_eq!(bench.ask(0x05, 0, 0x11, 0), (0, 1, 0x6800_0000));
    // Another master has none of it; disabling clears it.
    assert_eq!(bench.ask(0x04, 0, 0x11, 0), (0, 1, 0));
    bench.enable(0x10, 0);
    bench.enable(0x30, 0);
    assert_eq!(bench.ask(0x05, 0, 0x11, 0), (0, 1, 0));
    bench.ask(0x05, 0, 0x99, 0);
    bench.frame(0, &RESET);
    assert_eq!(*bench.master(0x05), Master::default());
}

#[test]
fn a_busy_master_takes_no_command() {
    for (start, length, _, _) in STARTS {
        let mut ready = Bench::ready();
        *ready.master(0x0A) = full_master(0);
        ready.start(0x77, 0x0A, length, start);
        for command in 0..=255 {
            for length in [0, 1, 2, 4, 6] {
                let mut bench = ready.clone();
                assert_eq!(bench.ask(0x0A, length, command, u32::MAX), (0x40, 2, 0));
                assert_eq!(bench.state.masters, ready.state.masters);
            }
        }
        // The errors before busy, and the other channels.
        assert_eq!(ready.request(0, 0x0A, length, start, 0).2[4], 0x08);
        assert_eq!(ready.ask(0x09, 0, 0x11, 0), (0, 1, 0));
        assert_eq!(ready.ask(0x0B, 0, 0x11, 0), (0, 1, 0));
        assert_eq!(ready.ask(0x01, 2, 0x41, 0), (0, 6, 0));
        assert_eq!(ready.i2c(0x09, 1, 0, &[]), (15, 0, vec![]));
        assert_eq!(ready.i2c(0x0B, 1, 0, &[]), (15, 0, vec![]));
        // An SPI completion is none of the master's.
        assert_eq!(ready.completion(&[0; 16]), (15, 0, vec![]));
        assert_eq!(ready.master(0x0A).transaction, 0x77);
        assert_eq!(ready.i2c(0x0A, 1, 0, &[]).2[2], 0x77);
    }
}

#[test]
fn sixteen_starts_at_once() {
    let mut bench = Bench::ready();
    for channel in 0x03..=0x12u8 {
        let (command, length, _, _) = STARTS[usize::from(channel) % 4];
        bench.start(0xA0 + channel, channel, length, command);
    }
    bench.request(0x99, 0x01, 2, 0x72, 0);
    for step in 0..16 {
        let channel = 0x03 + step * 5 % 16;
        let (_, _, given, takes) = STARTS[usize::from(channel) % 4];
        let byte = if takes == Takes::OneByte { channel } else { 0 };
        let (number, _, body) = bench.i2c(channel, 1, 0, &[channel]);
        assert_eq!(number, 0);
        assert_eq!(body[1], 2 * ((3 + step) % 8) + 32 * 4);
        assert_eq!(
            body[2..],
            [0xA0 + channel, channel, 0, given, byte, 4, 0, 0]
        );
    }
    assert_eq!(bench.completion(&[0; 16]).2[2], 0x99);
}

#[test]
fn disabling_a_busy_master_drops_its_start() {
    for (channel, write, bit) in ENABLES {
        for (command, length, _, _) in STARTS {
            let mut bench = Bench::ready();
            for other in 0x03..=0x12 {
                *bench.master(other) = full_master(0x20);
                bench.start(other, other, length, command);
            }
            let busy = bench.state.masters;
            let all = match write {
                0x02 => 0xFE,
                0x04 => 0xFF,
                _ => 0x1F,
            };
            // The same value again drops nothing.
            bench.ask(0, 4, write, u32::from(all) << 24);
            assert_eq!(bench.state.masters, busy);
            bench.ask(0, 4, write, u32::from(all & !bit) << 24);
            let mut masters = busy;
            masters[usize::from(channel) - 3] = Master::default();
            assert_eq!(bench.state.masters, masters);
            assert!(in_range(&bench.state));
            assert_eq!(bench.i2c(channel, 1, 0, &[1]), (15, 0, vec![]));
            assert_eq!(bench.ask(channel, 0, 0x11, 0), (0x20, 2, 0));
            // For good: enabling does not bring it back.
            bench.ask(0, 4, write, u32::from(all) << 24);
            assert_eq!(bench.i2c(channel, 1, 0, &[1]), (15, 0, vec![]));
            assert_eq!(bench.state.masters, masters);
            // The steps back do: 15, enabling, error reply, 15, disabling.
            (0..5).for_each(|_| assert_eq!(bench.back(), 17));
            assert_eq!(bench.state.masters, busy);
            let (number, _, body) = bench.i2c(channel, 1, 0, &[1]);
            assert_eq!((number, body[2], body[3]), (0, channel, channel));
        }
    }
}

#[test]
fn one_write_disables_all_masters_of_a_register() {
    for (write, places) in [(0x02, 0..5), (0x04, 5..13), (0x06, 13..16)] {
        let mut bench = Bench::ready();
        bench.state.masters = [full_master(0); 16];
        bench.ask(0, 4, write, 0);
        for place in 0..16 {
            let wanted = if places.contains(&place) {
                Master::default()
            } else {
                full_master(0)
            };
            assert_eq!(bench.state.masters[place], wanted);
        }
    }
}

#[test]
fn connect_keeps_a_start_and_reset_drops_it() {
    for (command, length, given, _) in STARTS {
        let mut bench = Bench::ready();
        *bench.master(0x0D) = full_master(0);
        bench.start(0x42, 0x0D, length, command);
        let open = bench.state.masters;
        assert_eq!(bench.frame(1, &CONNECT), (0, 1, vec![0, 0x63]));
        assert_eq!(bench.frame(1, &TEST), (0, 1, vec![0, 0x63]));
        assert_eq!(bench.state.masters, open);
        let mut reset = bench.clone();
        // The reply leaves on the active port, in loopback too, with the
        // numbers that CONNECT zeroed.
        let body = vec![0, 0, 0x42, 0x0D, 0, given, 0, 0x40, 0, 0];
        assert_eq!(bench.i2c(0x0D, 0, 0, &[5]), (0, 1, body));
        assert_eq!((bench.state.send, bench.state.receive), (1, 0));
        assert_eq!(reset.frame(0, &RESET), (0, 0, vec![0, 0x63]));
        assert_eq!(reset.state, Bench::new().state);
        assert_eq!((reset.kept(), reset.back()), (0, 5));
        assert_eq!(reset.i2c(0x0D, 1, 0, &[5]), (15, 0, vec![]));
        assert_eq!(reset.kept(), 1);
        assert_eq!(reset.state, Bench::new().state);
    }
}

#[test]
fn steps_back_restore_the_masters() {
    let mut bench = Bench::ready();
    let mut before = Vec::new();
    let channel = 0x11;
    // CTRL with NBYTE 16, DATA, an unknown command, a read, its completion.
    for (length, command, data) in [
        (1, 0x30, 0x4000_0000),
        (4, 0x70, 0x0102_0304),
        (0, 0x00, 0),
        (4, 0xDE, 0),
    ] {
        before.push(bench.state);
        bench.request(9, channel, length, command, data);
    }
    before.push(bench.state);
    assert_eq!(bench.i2c(channel, 1, 0, &[8; 15]).0, 0);
    let mut data = [8; 16];
    data[15] = 0;
    let read = Master {
        control: 0x40,
        status: 0x24,
        data,
        ..Master::default()
    };
    assert_eq!(*bench.master(channel), read);
    before.push(bench.state);
    assert_eq!(bench.i2c(channel, 1, 0, &[7; 16]), (15, 0, vec![]));
    assert_eq!(bench.kept(), 9);
    for state in before.iter().rev() {
        assert_eq!(bench.back(), 17);
        assert_eq!(bench.state, *state);
    }
    assert_eq!(bench.kept(), 3);
    // Another branch from the state with the open start.
    let mut branch = Bench {
        state: before[4],
        journal: Journal::new(),
    };
    let (_, _, body) = branch.i2c(channel, 0, 1, &[8; 16]);
    assert_eq!(body[2..], [9, channel, 0, 4, 0, 0x68, 0, 0]);
    assert_eq!(branch.master(channel).data[12..], [1, 2, 3, 4]);
    assert_eq!((branch.back(), branch.state), (17, before[4]));
}

#[test]
fn idle_and_disabled_masters_give_15_and_keep_the_event() {
    for bench in [Bench::new(), Bench::ready()] {
        for channel in 0x03..=0x12 {
            let mut bench = bench.clone();
            let (state, kept) = (bench.state, bench.kept());
            assert_eq!(bench.i2c(channel, 1, 0, &[1; 16]), (15, 0, vec![]));
            assert_eq!((bench.state, bench.kept()), (state, kept + 1));
        }
    }
}

#[test]
fn ranges_of_a_master() {
    let ready = Bench::ready().state;
    for place in 0..16 {
        let with = |master: Master| {
            let mut state = ready;
            state.masters[place] = master;
            in_range(&state)
        };
        let idle = Master::default();
        for status in 0..=255u8 {
            // Only bits 2, 3, 5 and 6 can be set, in any mixture.
            let good = status & 0b1001_0011 == 0;
            assert_eq!(with(Master { status, ..idle }), good);
        }
        for control in 0..=255u8 {
            // An idle master may have any CTRL, a multi-byte start not.
            assert!(with(Master { control, ..idle }));
            let count = control / 4 % 32;
            for (command, _, _, _) in STARTS {
                let good = !MULTI.contains(&command) || (1..=16).contains(&count);
                let open = Master {
                    control,
                    transaction: 1,
                    command,
                    ..idle
                };
                assert_eq!(with(open), good);
            }
        }
        for command in 0..=255u8 {
            let good = command == 0 || STARTS.iter().any(|row| row.0 == command);
            for transaction in [0, 1, 0x80, 0xFE, 0xFF] {
                let open = Master {
                    control: 0x04,
                    transaction,
                    command,
                    ..idle
                };
                let both = (transaction == 0) == (command == 0);
                assert_eq!(with(open), good && both);
            }
        }
        assert!(with(full_master(0x20)));
        assert!(with(Master {
            mask: 0xFF,
            data: [0xFF; 16],
            ..idle
        }));
    }
}

#[test]
fn a_disabled_master_is_all_zero() {
    let mut wrong = vec![
        Master {
            mask: 1,
            ..Master::default()
        },
        Master {
            control: 0x80,
            ..Master::default()
        },
        Master {
            status: 0x20,
            ..Master::default()
        },
        Master {
            transaction: 1,
            command: 0x82,
            ..Master::default()
        },
    ];
    for place in 0..16 {
        let mut master = Master::default();
        master.data[place] = 0x10;
        wrong.push(master);
    }
    for (channel, write, bit) in ENABLES {
        let place = usize::from(channel) - 3;
        let mut enabled = State::default();
        match write {
            0x02 => enabled.crb = bit,
            0x04 => enabled.crc = bit,
            _ => enabled.crd = bit,
        }
        let disabled = State {
            crb: 0xFE & !enabled.crb,
            crc: !enabled.crc,
            crd: 0x1F & !enabled.crd,
            ..State::default()
        };
        assert!(in_range(&enabled) && in_range(&disabled));
        for master in &wrong {
            let mut state = enabled;
            state.masters[place] = *master;
            assert!(in_range(&state));
            let mut state = disabled;
            state.masters[place] = *master;
            assert!(!in_range(&state));
            // Every call gives 6 and leaves it.
            let mut bench = Bench::new();
            bench.state = state;
            assert_eq!(bench.frame(0, &RESET), (6, 0, vec![]));
            assert_eq!(bench.completion(&[0; 16]), (6, 0, vec![]));
            assert_eq!(bench.i2c(channel, 1, 0, &[]), (6, 0, vec![]));
            assert_eq!(bench.sample(0, 0), (6, 0, vec![]));
            assert_eq!(bench.upset(), (6, 0, vec![]));
            assert_eq!((bench.back(), bench.kept()), (6, 0));
            assert_eq!(bench.state, state);
        }
    }
}

#[test]
fn sixty_four_and_sixty_five_events() {
    for events in [63, 64, 65, 200] {
        let mut bench = Bench::new();
        (0..events).for_each(|_| assert_eq!(bench.upset().0, 17));
        let most = events.min(64);
        assert_eq!(bench.kept(), most as usize);
        for step in 1..=most {
            assert_eq!(bench.back(), 17);
            assert_eq!(bench.state.seu, events - step);
        }
        assert_eq!(bench.back(), 5);
        assert_eq!(bench.state.seu, events - most);
    }
}

/// A small generator of repeatable numbers (xorshift).
struct Chance(u64);

impl Chance {
    fn next(&mut self) -> u64 {
        self.0 ^= self.0 << 13;
        self.0 ^= self.0 >> 7;
        self.0 ^= self.0 << 17;
        self.0 >> 16
    }

    fn below(&mut self, bound: u64) -> u64 {
        self.next() % bound
    }
}

#[derive(Clone, Debug)]
enum Event {
    Frame(u32, Vec<u8>),
    Completion(Vec<u8>),
    I2c(u8, u32, u32, Vec<u8>),
    Sample(u32, u32),
    Upset,
}

impl Bench {
    fn play(&mut self, event: &Event) -> Given {
        match event {
            Event::Frame(port, body) => self.frame(*port, body),
            Event::Completion(received) => self.completion(received),
            Event::I2c(channel, acknowledge, line_low, received) => {
                self.i2c(*channel, *acknowledge, *line_low, received)
            }
            Event::Sample(levels, kind) => self.sample(*levels, *kind),
            Event::Upset => self.upset(),
        }
    }
}

fn random_frame(chance: &mut Chance, state: &State) -> Event {
    let port = if chance.below(16) == 0 {
        chance.below(3) as u32
    } else {
        u32::from(state.active)
    };
    let body = match chance.below(40) {
        0 => vec![
            0,
            [0x2F, 0x3F, 0xE3, 0xF3, 0x8F, 0x9F][chance.below(6) as usize],
        ],
        1 => (0..chance.below(18))
            .map(|_| (chance.next() as u8) << 1)
            .collect(),
        _ => {
            // The masters' rows are many; half of the requests go elsewhere.
            let i2c = chance.below(2) == 0;
            let mut table = command_table();
            table.retain(|row| (0x03..=0x12).contains(&row.0) == i2c);
            let row = table[chance.below(table.len() as u64) as usize];
            let wrong = u8::from(chance.below(20) == 0);
            let mut body = vec![
                0,
                2 * ((state.receive + wrong) % 8),
                1 + chance.below(254) as u8,
            ];
            body.extend([row.0, row.2 + u8::from(chance.below(20) == 0), row.1]);
            body.extend((0..4).map(|_| chance.next() as u8));
            if row.0 == 0 {
                body[7] |= 0x06;
            }
            body
        }
    };
    Event::Frame(port, body)
}

/// Mostly the completion of a busy master, if there is one.
fn random_i2c(chance: &mut Chance, state: &State) -> Event {
    let busy: Vec<u8> = (0x03..=0x12)
        .filter(|channel| state.masters[usize::from(channel - 3)].command != 0)
        .collect();
    let channel = if busy.is_empty() || chance.below(4) == 0 {
        chance.below(0x16) as u8
    } else {
        busy[chance.below(busy.len() as u64) as usize]
    };
    let received = (0..chance.below(18)).map(|_| chance.next() as u8).collect();
    Event::I2c(
        channel,
        u32::from(chance.below(4) != 0),
        u32::from(chance.below(4) == 0),
        received,
    )
}

/// Whether an event is a RESET that is accepted unless it is refused.
fn is_reset(event: &Event) -> bool {
    matches!(event, Event::Frame(_, body) if body[..] == [0, 0x8F] || body[..] == [0, 0x9F])
}

fn random_event(chance: &mut Chance, state: &State) -> Event {
    match chance.below(12) {
        0 => Event::Completion((0..16).map(|_| chance.next() as u8).collect()),
        1 | 2 => Event::Sample(chance.next() as u32, chance.below(4) as u32),
        3 => Event::Upset,
        4 | 5 => random_i2c(chance, state),
        _ => random_frame(chance, state),
    }
}

#[test]
fn runs_with_steps_back_equal_runs_of_the_standing_events() {
    let mut chance = Chance(21);
    let mut seen = [0; 25];
    let mut i2c_replies = 0;
    for run in 0..300 {
        // Every second run finds all channels enabled already.
        let mut plain = Bench::new();
        if run % 2 == 1 {
            plain.state = Bench::ready().state;
        }
        let mut bench = plain.clone();
        let mut standing: Vec<(Event, Given)> = Vec::new();
        let mut number = 0;
        for _ in 0..200 {
            if chance.below(4) == 0 {
                assert_eq!(bench.back(), if number == 0 { 5 } else { 17 });
                if number > 0 {
                    number -= 1;
                    standing.pop();
                }
            } else {
                let event = random_event(&mut chance, &bench.state);
                let given = bench.play(&event);
                seen[given.0 as usize] += 1;
                i2c_replies += i32::from(matches!(event, Event::I2c(..)) && given.0 == 0);
                assert!(given.0 != 4 && given.0 != 6);
                if given.0 == 0 || given.0 >= 11 {
                    number = if is_reset(&event) {
                        0
                    } else {
                        (number + 1).min(64)
                    };
                    standing.push((event, given));
                }
            }
            assert_eq!(bench.kept(), number);
            assert!(in_range(&bench.state));
        }
        for (event, given) in &standing {
            assert_eq!(&plain.play(event), given);
        }
        assert_eq!(plain.state, bench.state);
    }
    for number in [0, 2, 3, 11, 12, 14, 15, 16, 17] {
        assert!(seen[number] > 0, "{} never came", number);
    }
    assert!(i2c_replies > 500, "only {} I2C replies", i2c_replies);
}

/// A batch's answer and the bodies that it sent.
type BatchGiven = (BatchAnswer, Vec<[u8; 10]>);

/// What an output holds before a batch.
fn pattern(length: usize) -> Vec<u8> {
    (0..length)
        .map(|place| 0xA5 ^ (place % 251) as u8)
        .collect()
}

impl Bench {
    /// A batch with an output of some length; bytes after the bodies stay.
    fn batch_into(&mut self, samples: &[Sample], length: usize) -> BatchGiven {
        let mut output = pattern(length);
        let answer = sample_batch(&mut self.state, &mut self.journal, samples, &mut output);
        let used = 10 * answer.frames;
        assert_eq!(output[used..], pattern(length)[used..]);
        let bodies = output[..used].chunks(10);
        let bodies = bodies.map(|body| body.try_into().unwrap()).collect();
        (answer, bodies)
    }

    fn batch(&mut self, samples: &[Sample]) -> BatchGiven {
        self.batch_into(samples, 2_560)
    }

    /// Lines 0 and 1 are selected and move together in `toggling`: line 0
    /// fires on rising, line 1 on falling, so that each sample fires one. Six
    /// requests were answered: both numbers are 6, and so is the kept one.
    fn toggled() -> Bench {
        let mut bench = Bench::new();
        bench.enable(0x04, 0);
        bench.ask(2, 4, 0x30, 0x3);
        bench.ask(2, 4, 0x40, 0x1);
        bench.ask(2, 4, 0x70, 0xDEAD_BEEF);
        bench.ask(2, 4, 0x60, 1);
        assert_eq!((bench.state.send, bench.state.receive), (6, 6));
        assert_eq!(bench.kept(), 6);
        bench
    }

    /// Each line fires on its own edges, as INTTRIG says, by the system clock.
    fn firing(inttrig: u32, intenable: u32) -> Bench {
        let mut bench = Bench::new();
        bench.enable(0x04, 0);
        bench.ask(2, 4, 0x30, 0xFFFF_FFFF);
        bench.ask(2, 4, 0x40, inttrig);
        bench.ask(2, 4, 0x70, 0xDEAD_BEEF);
        bench.ask(2, 4, 0x60, intenable);
        assert_eq!((bench.state.send, bench.state.receive), (6, 6));
        bench
    }
}

fn list(samples: &[(u32, u32)]) -> Vec<Sample> {
    let samples = samples.iter();
    samples
        .map(|&(levels, kind)| Sample { levels, kind })
        .collect()
}

/// Both lines of `Bench::toggled` rise, fall, rise and so on.
fn toggling(count: usize) -> Vec<Sample> {
    let levels = [0xFFFF_FFFF, 0x0000_0000].iter().cycle();
    levels
        .take(count)
        .map(|&levels| Sample { levels, kind: 0 })
        .collect()
}

/// The bodies of `toggling` on `Bench::toggled`: the send number starts at 6,
/// 32 times the receive number is 0xC0, INTS is 1 on rising and 2 on falling.
fn toggled_bodies(count: usize) -> Vec<[u8; 10]> {
    let controls = [0xCC, 0xCE, 0xC0, 0xC2, 0xC4, 0xC6, 0xC8, 0xCA];
    let numbered = controls.iter().cycle().zip([1, 2].iter().cycle());
    let bodies = numbered.map(|(&control, &ints)| [0, control, 0xFF, 2, 0, 4, 0, 0, ints, 0]);
    bodies.take(count).collect()
}

/// The answer of a batch that sent frames.
fn batch_sent(port: u32, frames: usize, sum: u32) -> BatchAnswer {
    BatchAnswer {
        number: 0,
        port,
        length: 10,
        frames,
        sum,
    }
}

/// The answer of a batch that sent none: all but the number is 0.
fn batch_silent(number: u8) -> BatchAnswer {
    BatchAnswer {
        number,
        port: 0,
        length: 0,
        frames: 0,
        sum: 0,
    }
}

/// Fourteen samples for `Bench::mixed`. Beside each: DATAIN and INTS after it
/// and how many frames were sent by then.
const MIXED: [(u32, u32, u32, u32, u8); 14] = [
    // All the lines of the system clock rise; of them 23 to 20 and 7 to 4 fire.
    (0xFFFF_FFFF, 0, 0x7FFF_00FF, 0x00F0_00F0, 1),
    // Nothing moves.
    (0xFFFF_FFFF, 0, 0x7FFF_00FF, 0x00F0_00F0, 1),
    // Lines 11 to 8 rise and fire.
    (0xFFFF_FFFF, 1, 0x7FFF_0FFF, 0x0000_0F00, 2),
    // Lines 15 to 12 rise, which fires none of them, then fall.
    (0xFFFF_FFFF, 2, 0x7FFF_FFFF, 0x0000_0F00, 2),
    (0x0000_0000, 2, 0x7FFF_0FFF, 0x0000_F000, 3),
    // Lines 23 to 16 and 7 to 4 fall; 19 to 16 fire.
    (0x7F00_0F0F, 0, 0x7F00_0F0F, 0x000F_0000, 4),
    // Lines 3 to 0 fall but are not selected.
    (0x7F00_0F00, 0, 0x7F00_0F00, 0x000F_0000, 4),
    // Lines 30, 28, 27 and 25 fall and fire.
    (0x2500_0000, 0, 0x2500_0F00, 0x5A00_0000, 5),
    // Line 23 rises and fires.
    (0x2580_0000, 0, 0x2580_0F00, 0x0080_0000, 6),
    // Lines 20 and 4 rise and fire; 29, 26, 24 and 23 fall, all but 23 fire.
    (0x0010_0010, 0, 0x0010_0F10, 0x2510_0010, 7),
    // Lines 11 to 8 fall, which fires none of them, then line 8 rises.
    (0xFFFF_0000, 1, 0x0010_0010, 0x2510_0010, 7),
    (0x0000_0100, 1, 0x0010_0110, 0x0000_0100, 8),
    // Lines 20 and 4 fall, which fires neither.
    (0x0000_0000, 0, 0x0000_0100, 0x0000_0100, 8),
    // As at first.
    (0xFFFF_FFFF, 0, 0x7FFF_01FF, 0x00F0_00F0, 9),
];

/// The bodies of `MIXED`: the send number starts at 1, the receive number is 2.
const MIXED_BODIES: [[u8; 10]; 9] = [
    [0x00, 0x42, 0xFF, 0x02, 0x00, 0x04, 0xF0, 0x00, 0xF0, 0x00],
    [0x00, 0x44, 0xFF, 0x02, 0x00, 0x04, 0x00, 0x00, 0x00, 0x0F],
    [0x00, 0x46, 0xFF, 0x02, 0x00, 0x04, 0x00, 0x00, 0x00, 0xF0],
    [0x00, 0x48, 0xFF, 0x02, 0x00, 0x04, 0x0F, 0x00, 0x00, 0x00],
    [0x00, 0x4A, 0xFF, 0x02, 0x00, 0x04, 0x00, 0x5A, 0x00, 0x00],
    [0x00, 0x4C, 0xFF, 0x02, 0x00, 0x04, 0x80, 0x00, 0x00, 0x00],
    [0x00, 0x4E, 0xFF, 0x02, 0x00, 0x04, 0x10, 0x25, 0x10, 0x00],
    [0x00, 0x40, 0xFF, 0x02, 0x00, 0x04, 0x00, 0x00, 0x00, 0x01],
    [0x00, 0x42, 0xFF, 0x02, 0x00, 0x04, 0xF0, 0x00, 0xF0, 0x00],
];

fn mixed_samples() -> Vec<Sample> {
    list(&MIXED.map(|(levels, kind, _, _, _)| (levels, kind)))
}

impl Bench {
    /// On port 1: line 31 is an output; lines 11 to 8 are sampled by a rising
    /// strobe, 15 to 12 by a falling one, the others by the system clock;
    /// lines 3 to 0 are not selected; 23 to 20 and 11 to 4 fire on rising, the
    /// others on falling. A GO is open, so the receive number is one ahead.
    fn mixed() -> Bench {
        let mut bench = Bench::new();
        bench.frame(1, &CONNECT);
        bench.enable(0x06, 0);
        assert_eq!(bench.request(0x31, 0x01, 2, 0x72, 0), (17, 0, vec![]));
        bench.ask(2, 4, 0x20, 0x8000_0000);
        bench.ask(2, 4, 0x80, 0x0000_FF00);
        bench.ask(2, 4, 0x90, 0x0000_F000);
        bench.ask(2, 4, 0x30, 0xFFFF_FFF0);
        bench.ask(2, 4, 0x40, 0x00F0_0FF0);
        bench.ask(2, 4, 0x70, 0xDEAD_BEEF);
        bench.ask(2, 4, 0x60, 1);
        assert_eq!((bench.state.send, bench.state.receive), (1, 2));
        assert_eq!(bench.kept(), 11);
        bench
    }
}

#[test]
fn a_batch_byte_by_byte() {
    let mut bench = Bench::mixed();
    let before = bench.state;
    let (answer, bodies) = bench.batch(&mixed_samples());
    assert_eq!(bodies, MIXED_BODIES);
    // 8, 4, 4, 4, 4, 1, 5, 1 and 8 lines fired.
    assert_eq!(answer, batch_sent(1, 9, 39));
    let gpio = Gpio {
        datain: 0x7FFF_01FF,
        ints: 0x00F0_00F0,
        ..before.gpio
    };
    // Nine frames on, the send number went from 1 over 0 to 2.
    let after = State {
        send: 2,
        gpio,
        ..before
    };
    assert_eq!(bench.state, after);
    assert_eq!(bench.kept(), 25);
    assert_eq!(bench.ask(2, 1, 0x71, 0), (0, 4, 0x00F0_00F0));
    assert_eq!(bench.ask(2, 1, 0x01, 0), (0, 4, 0x7FFF_01FF));
    // The GO is still open.
    assert_eq!(bench.completion(&[0; 16]).2[2], 0x31);
}

#[test]
fn every_front_part_of_a_batch() {
    for count in 0..=14 {
        let mut bench = Bench::mixed();
        let (answer, bodies) = bench.batch(&mixed_samples()[..count]);
        let (datain, ints, frames) = match count {
            0 => (0, 0xDEAD_BEEF, 0),
            _ => (MIXED[count - 1].2, MIXED[count - 1].3, MIXED[count - 1].4),
        };
        let sum = [0, 8, 12, 16, 20, 24, 25, 30, 31, 39][usize::from(frames)];
        let wanted = match frames {
            0 => batch_silent(17),
            _ => batch_sent(1, usize::from(frames), sum),
        };
        assert_eq!(answer, wanted);
        assert_eq!(bodies, MIXED_BODIES[..usize::from(frames)]);
        let gpio = (bench.state.gpio.datain, bench.state.gpio.ints);
        assert_eq!(gpio, (datain, ints));
        assert_eq!(bench.state.send, (1 + frames) % 8);
        assert_eq!(bench.kept(), 11 + count);
    }
}

#[test]
fn a_batch_leaves_on_the_active_port_in_loopback() {
    for port in [0, 1] {
        let mut bench = Bench::firing(0xFFFF_FFFF, 1);
        bench.frame(port, &CONNECT);
        bench.frame(port, &TEST);
        let (answer, bodies) = bench.batch(&list(&[(0x0000_0001, 0), (0x8000_0001, 0)]));
        assert_eq!(answer, batch_sent(port, 2, 2));
        // CONNECT zeroed the numbers.
        let first = [0, 0, 0xFF, 2, 0, 4, 0, 0, 1, 0];
        let second = [0, 2, 0xFF, 2, 0, 4, 0, 0x80, 0, 0];
        assert_eq!(bodies, [first, second]);
        assert_eq!((bench.state.send, bench.state.receive), (2, 0));
    }
}

#[test]
fn lines_that_fire_with_intenable_0_count_nothing() {
    let samples = list(&[(0xFFFF_FFFF, 0), (0, 0), (1, 0)]);
    let mut bench = Bench::firing(0xFFFF_FFFF, 0);
    let before = bench.clone();
    assert_eq!(bench.batch(&samples), (batch_silent(17), vec![]));
    let mut after = before.state;
    after.gpio.datain = 1;
    assert_eq!((bench.state, bench.kept()), (after, before.kept() + 3));
    assert_eq!(bench.state.gpio.ints, 0xDEAD_BEEF);
    // Enabled afterwards, only what moves then is told.
    bench.ask(2, 4, 0x60, 1);
    let (answer, bodies) = bench.batch(&list(&[(1, 0), (7, 0)]));
    assert_eq!(answer, batch_sent(0, 1, 2));
    // Seven requests were answered: control is 2 * 7 + 32 * 7.
    assert_eq!(bodies, [[0, 0xEE, 0xFF, 2, 0, 4, 0, 0, 6, 0]]);
    // The lines of the same list do fire with INTENABLE 1: 32, none and 1.
    let (answer, bodies) = Bench::firing(0xFFFF_FFFF, 1).batch(&samples);
    assert_eq!(answer, batch_sent(0, 2, 33));
    let first = [0, 0xCC, 0xFF, 2, 0, 4, 0xFF, 0xFF, 0xFF, 0xFF];
    let second = [0, 0xCE, 0xFF, 2, 0, 4, 0, 0, 1, 0];
    assert_eq!(bodies, [first, second]);
}

#[test]
fn lines_that_are_not_selected_or_do_not_fire_count_nothing() {
    // INTSEL 0: all move and none fires.
    let mut bench = Bench::firing(0xFFFF_FFFF, 1);
    bench.ask(2, 4, 0x30, 0);
    assert_eq!(bench.batch(&toggling(9)), (batch_silent(17), vec![]));
    assert_eq!(bench.state.gpio.datain, 0xFFFF_FFFF);
    // Half the lines are selected: 16 of 32 fire, on rising alone.
    bench.ask(2, 4, 0x30, 0x5555_5555);
    let (answer, bodies) = bench.batch(&list(&[(0, 0), (0xFFFF_FFFF, 0)]));
    assert_eq!(answer, batch_sent(0, 1, 16));
    // Eight requests were answered: both numbers are 0 again.
    let body = [0, 0x00, 0xFF, 2, 0, 4, 0x55, 0x55, 0x55, 0x55];
    assert_eq!(bodies, [body]);
    // All lines are outputs: none is sampled.
    bench.ask(2, 4, 0x20, 0xFFFF_FFFF);
    assert_eq!(bench.batch(&toggling(9)), (batch_silent(17), vec![]));
    assert_eq!(bench.state.gpio.ints, 0x5555_5555);
}

#[test]
fn more_than_one_line_in_an_interrupt() {
    // The lines, their number, and their bytes in Figure 4.4's order.
    for (lines, ones, data) in [
        (0x0000_0001, 1, [0x00, 0x00, 0x01, 0x00]),
        (0x8000_0000, 1, [0x00, 0x80, 0x00, 0x00]),
        (0x0000_0003, 2, [0x00, 0x00, 0x03, 0x00]),
        (0x8000_0001, 2, [0x00, 0x80, 0x01, 0x00]),
        (0x1248_1248, 8, [0x48, 0x12, 0x48, 0x12]),
        (0x1234_5678, 13, [0x34, 0x12, 0x78, 0x56]),
        (0x0F0F_0F0F, 16, [0x0F, 0x0F, 0x0F, 0x0F]),
        (0x7FFF_FFFF, 31, [0xFF, 0x7F, 0xFF, 0xFF]),
        (0xFFFF_FFFF, 32, [0xFF, 0xFF, 0xFF, 0xFF]),
    ] {
        let [d2, d3, d0, d1] = data;
        let first = [0, 0xCC, 0xFF, 2, 0, 4, d2, d3, d0, d1];
        let second = [0, 0xCE, 0xFF, 2, 0, 4, d2, d3, d0, d1];
        let samples = list(&[(lines, 0), (0, 0), (lines, 0)]);
        // On rising, twice.
        let (answer, bodies) = Bench::firing(0xFFFF_FFFF, 1).batch(&samples);
        assert_eq!(answer, batch_sent(0, 2, 2 * ones));
        assert_eq!(bodies, [first, second]);
        // On falling, once.
        let mut bench = Bench::firing(0, 1);
        let (answer, bodies) = bench.batch(&samples);
        assert_eq!((answer, bodies), (batch_sent(0, 1, ones), vec![first]));
        assert_eq!(bench.state.gpio.ints, lines);
        // The upper lines rise while the lower ones fall.
        let mut bench = Bench::firing(0xFFFF_0000, 1);
        assert_eq!(bench.sample(0x0000_FFFF & lines, 0), (17, 0, vec![]));
        let (answer, bodies) = bench.batch(&list(&[(0xFFFF_0000 & lines, 0)]));
        assert_eq!((answer, bodies), (batch_sent(0, 1, ones), vec![first]));
    }
}

#[test]
fn the_greatest_sum() {
    // 256 interrupts of all 32 lines can't follow each other, since a line
    // fires on one of its edges only: 128 are the most, and 256 of half.
    let mut bench = Bench::firing(0xFFFF_FFFF, 1);
    let (answer, bodies) = bench.batch(&toggling(256));
    assert_eq!((answer, bodies.len()), (batch_sent(0, 128, 4_096), 128));
    let mut bench = Bench::firing(0x0000_FFFF, 1);
    let (answer, bodies) = bench.batch(&toggling(256));
    assert_eq!(answer, batch_sent(0, 256, 4_096));
    assert_eq!(bodies[0][6..], [0x00, 0x00, 0xFF, 0xFF]);
    assert_eq!(bodies[255][6..], [0xFF, 0xFF, 0x00, 0x00]);
}

#[test]
fn a_batch_with_gpio_disabled_keeps_each_sample() {
    let samples = list(&[(0xFFFF_FFFF, 0), (0, 1), (1, 2), (1, 2), (2, 0)]);
    let mut others = Bench::ready();
    others.ask(0, 4, 0x02, 0xFA00_0000);
    empty(&mut others.journal);
    for disabled in [Bench::new(), others] {
        assert_eq!(disabled.state.crb & 0x04, 0);
        let (mut bench, mut single) = (disabled.clone(), disabled.clone());
        assert_eq!(bench.batch(&samples), (batch_silent(17), vec![]));
        assert_eq!((bench.state, bench.kept()), (disabled.state, 5));
        for one in &samples {
            assert_eq!(single.sample(one.levels, one.kind), (16, 0, vec![]));
        }
        assert_eq!(bench.journal, single.journal);
        for left in (0..5).rev() {
            assert_eq!((bench.back(), bench.kept()), (17, left));
            assert_eq!(bench.state, disabled.state);
        }
        assert_eq!(bench.back(), 5);
        // A batch of as many as can be, and one of none.
        assert_eq!(bench.batch(&toggling(256)), (batch_silent(17), vec![]));
        assert_eq!((bench.state, bench.kept()), (disabled.state, 64));
        assert_eq!(bench.batch(&[]), (batch_silent(17), vec![]));
        assert_eq!((bench.state, bench.kept()), (disabled.state, 64));
    }
}

#[test]
fn lists_of_many_lengths() {
    for count in [0, 1, 2, 63, 64, 65, 255, 256] {
        let mut bench = Bench::toggled();
        let before = bench.state;
        let (answer, bodies) = bench.batch(&toggling(count));
        let wanted = match count {
            0 => batch_silent(17),
            _ => batch_sent(0, count, count as u32),
        };
        assert_eq!(answer, wanted);
        assert_eq!(bodies, toggled_bodies(count));
        let (datain, ints) = match count {
            0 => (0, 0xDEAD_BEEF),
            1 | 63 | 65 | 255 => (0xFFFF_FFFF, 1),
            _ => (0, 2),
        };
        let mut after = before;
        after.send = ((6 + count) % 8) as u8;
        after.gpio.datain = datain;
        after.gpio.ints = ints;
        assert_eq!(bench.state, after);
        // Six requests were kept before.
        let kept_now = match count {
            0 => 6,
            1 => 7,
            2 => 8,
            _ => 64,
        };
        assert_eq!(bench.kept(), kept_now);
        // From an empty journal.
        let mut bench = Bench::toggled();
        assert_eq!(empty(&mut bench.journal), 17);
        bench.batch(&toggling(count));
        let kept_now = match count {
            0 | 1 | 2 | 63 | 64 => count,
            _ => 64,
        };
        assert_eq!(bench.kept(), kept_now);
    }
    for count in [257, 258, 512, 513, 65_536, 65_537] {
        let mut bench = Bench::toggled();
        let before = bench.clone();
        assert_eq!(bench.batch(&toggling(count)), (batch_silent(3), vec![]));
        assert_eq!(
            bench.batch_into(&toggling(count), 10 * count),
            (batch_silent(3), vec![])
        );
        assert_eq!(
            (bench.state, &bench.journal),
            (before.state, &before.journal)
        );
    }
}

#[test]
fn an_empty_list_changes_nothing() {
    let mut full = Bench::toggled();
    full.batch(&toggling(100));
    assert_eq!(full.kept(), 64);
    for ready in [Bench::new(), Bench::ready(), Bench::toggled(), full] {
        let mut bench = ready.clone();
        assert_eq!(bench.batch(&[]), (batch_silent(17), vec![]));
        assert_eq!((bench.state, &bench.journal), (ready.state, &ready.journal));
    }
}

#[test]
fn steps_back_through_a_batch() {
    let mut bench = Bench::mixed();
    let before = bench.state;
    bench.batch(&mixed_samples());
    assert_eq!((bench.state.send, bench.kept()), (2, 25));
    for count in (0..14).rev() {
        assert_eq!(bench.back(), 17);
        let (datain, ints, frames) = match count {
            0 => (0, 0xDEAD_BEEF, 0),
            _ => (MIXED[count - 1].2, MIXED[count - 1].3, MIXED[count - 1].4),
        };
        let mut after = before;
        after.send = (1 + frames) % 8;
        after.gpio.datain = datain;
        after.gpio.ints = ints;
        assert_eq!((bench.state, bench.kept()), (after, 11 + count));
        // Another branch from there: the rest of the list once more.
        let mut branch = bench.clone();
        let (answer, bodies) = branch.batch(&mixed_samples()[count..]);
        assert_eq!(answer.number, 0);
        assert_eq!(bodies, MIXED_BODIES[usize::from(frames)..]);
        assert_eq!((branch.state.send, branch.kept()), (2, 25));
    }
    assert_eq!(bench.state, before);
    // The request before the batch is taken back next.
    assert_eq!((bench.back(), bench.kept()), (17, 10));
    assert_eq!(bench.state.gpio.intenable, 0);
}

/// Takes back `most` of the `toggling` samples that stand on `Bench::toggled`,
/// all that the journal keeps; the others stand for good.
fn take_back_toggling(bench: &mut Bench, count: usize, most: usize) {
    assert_eq!(bench.kept(), most);
    for step in 1..=most {
        assert_eq!((bench.back(), bench.kept()), (17, most - step));
        let standing = count - step;
        let (datain, ints) = match standing {
            0 => (0, 0xDEAD_BEEF),
            some if some % 2 == 1 => (0xFFFF_FFFF, 1),
            _ => (0, 2),
        };
        let gpio = (bench.state.gpio.datain, bench.state.gpio.ints);
        assert_eq!(gpio, (datain, ints));
        assert_eq!(usize::from(bench.state.send), (6 + standing) % 8);
    }
    let stood = bench.state;
    assert_eq!((bench.back(), bench.kept()), (5, 0));
    assert_eq!(bench.state, stood);
}

#[test]
fn no_more_than_64_steps_back_through_a_batch() {
    // The samples, and how many of them stand for good.
    for (count, fixed) in [(64, 0), (65, 1), (255, 191), (256, 192)] {
        let mut bench = Bench::toggled();
        bench.batch(&toggling(count));
        take_back_toggling(&mut bench, count, 64);
        let mut plain = Bench::toggled();
        let (answer, _) = plain.batch(&toggling(fixed));
        assert_eq!((answer.frames, plain.state), (fixed, bench.state));
    }
    // After 60 samples, four of the six requests before them are kept too.
    let mut bench = Bench::toggled();
    let before = bench.state;
    bench.batch(&toggling(60));
    assert_eq!(bench.kept(), 64);
    (0..60).for_each(|_| assert_eq!(bench.back(), 17));
    assert_eq!((bench.state, bench.kept()), (before, 4));
    (0..4).for_each(|_| assert_eq!(bench.back(), 17));
    assert_eq!((bench.state.gpio, bench.kept()), (Gpio::default(), 0));
    assert_eq!((bench.state.receive, bench.back()), (2, 5));
}

#[test]
fn refusals_of_a_batch_in_order_change_nothing() {
    let good = Bench::toggled();
    let mut wrong_gpio = good.clone();
    wrong_gpio.state.crb = 0;
    let mut wrong_send = good.clone();
    wrong_send.state.send = 8;
    let benches = [(good, true), (wrong_gpio, false), (wrong_send, false)];
    let conditions = [
        Condition::Whole,
        Condition::WrongLength,
        Condition::WrongLayout,
    ];
    let outputs = [
        (0, false),
        (16, false),
        (2_559, false),
        (2_560, true),
        (2_561, true),
    ];
    let mut bad_kind = toggling(3);
    bad_kind[2].kind = 3;
    let mut both = toggling(257);
    both[0].kind = u32::MAX;
    let lists = [
        (toggling(257), 3),
        (bad_kind, 3),
        (both, 3),
        (toggling(5), 0),
        (vec![], 17),
    ];
    let mut seen = [0; 18];
    for (ready, state_good) in &benches {
        for condition in conditions {
            for (length, long_enough) in outputs {
                for (samples, number) in &lists {
                    let wanted = match (state_good, condition, long_enough) {
                        (false, _, _) => 6,
                        (true, Condition::WrongLength | Condition::WrongLayout, _) => 4,
                        (true, Condition::Whole, false) => 1,
                        (true, Condition::Whole, true) => *number,
                    };
                    let mut bench = ready.clone();
                    bench.journal.condition = condition;
                    let before = bench.clone();
                    let (answer, bodies) = bench.batch_into(samples, length);
                    seen[usize::from(wanted)] += 1;
                    if wanted == 0 {
                        assert_eq!(answer, batch_sent(0, 5, 5));
                        assert_eq!(bodies, toggled_bodies(5));
                        continue;
                    }
                    assert_eq!((answer, bodies), (batch_silent(wanted), vec![]));
                    assert_eq!((bench.state, bench.journal), (before.state, before.journal));
                }
            }
        }
    }
    // 6: 2 states, 3 conditions, 5 outputs, 5 lists. 4: 2 conditions, 5
    // outputs, 5 lists. 1: 3 outputs, 5 lists. 3: 2 outputs, 3 lists.
    let counts = [6, 4, 1, 3, 0, 17].map(|number: usize| seen[number]);
    assert_eq!(counts, [150, 50, 15, 6, 2, 2]);
}

#[test]
fn a_bad_kind_anywhere_in_the_list() {
    for count in [1, 2, 3, 64, 65, 255, 256] {
        for place in [0, count / 2, count - 1] {
            for kind in [3, 4, 0xFF, 0x100, 0x102, 0x1_0000, 0x8000_0000, u32::MAX] {
                let mut bench = Bench::toggled();
                let before = bench.clone();
                let mut samples = toggling(count);
                samples[place].kind = kind;
                assert_eq!(bench.batch(&samples), (batch_silent(3), vec![]));
                assert_eq!(
                    (bench.state, &bench.journal),
                    (before.state, &before.journal)
                );
                // The greatest good kind is taken in its place. It samples no
                // line here, and the sample after it then finds nothing new.
                samples[place].kind = 2;
                let lost = if place == count - 1 { 1 } else { 2 };
                let wanted = match count - lost {
                    0 => batch_silent(17),
                    some => batch_sent(0, some, some as u32),
                };
                assert_eq!(bench.batch(&samples).0, wanted);
                assert_eq!(bench.kept(), (6 + count).min(64));
            }
        }
    }
    // With GPIO disabled too.
    let mut bench = Bench::new();
    let refused = bench.batch(&list(&[(0, 0), (0, 3)]));
    assert_eq!((refused, bench.kept()), ((batch_silent(3), vec![]), 0));
}

#[test]
fn outputs_of_a_batch() {
    for count in [0, 1, 2, 255, 256] {
        for length in [0, 1, 9, 10, 15, 16, 20, 128, 2_550, 2_559] {
            let mut bench = Bench::toggled();
            let before = bench.clone();
            let refused = bench.batch_into(&toggling(count), length);
            assert_eq!(refused, (batch_silent(1), vec![]));
            assert_eq!(
                (bench.state, &bench.journal),
                (before.state, &before.journal)
            );
        }
        // `batch_into` looks at every byte after the bodies.
        for length in [2_560, 2_561, 2_570, 5_120, 70_000] {
            let mut bench = Bench::toggled();
            let (answer, bodies) = bench.batch_into(&toggling(count), length);
            let wanted = match count {
                0 => batch_silent(17),
                _ => batch_sent(0, count, count as u32),
            };
            assert_eq!((answer, bodies), (wanted, toggled_bodies(count)));
        }
    }
}

#[test]
fn bytes_after_the_bodies_stay() {
    let mut bench = Bench::mixed();
    let mut output = [0x5A; 3_000];
    let samples = mixed_samples();
    let answer = sample_batch(&mut bench.state, &mut bench.journal, &samples, &mut output);
    assert_eq!(answer, batch_sent(1, 9, 39));
    assert_eq!(output[..90], MIXED_BODIES.concat());
    assert_eq!(output[90..], [0x5A; 2_910]);
    // A shorter batch into the same output leaves the old bodies after it.
    let old = output;
    let samples = list(&[(0, 0), (0x0070_0000, 0), (0x0070_0000, 0)]);
    let answer = sample_batch(&mut bench.state, &mut bench.journal, &samples, &mut output);
    // Falling: 30 to 24 and 19 to 16, that is 11 lines; rising: 22 to 20.
    assert_eq!(answer, batch_sent(1, 2, 14));
    let falling = [0x00, 0x44, 0xFF, 0x02, 0x00, 0x04, 0x0F, 0x7F, 0x00, 0x00];
    let rising = [0x00, 0x46, 0xFF, 0x02, 0x00, 0x04, 0x70, 0x00, 0x00, 0x00];
    assert_eq!(output[..20], [falling, rising].concat());
    assert_eq!(output[20..], old[20..]);
}

/// Levels near the ones before, so that lines stay, rise and fall.
fn random_samples(chance: &mut Chance, count: usize) -> Vec<Sample> {
    let mut levels = chance.next() as u32;
    let mut samples = Vec::new();
    for _ in 0..count {
        levels ^= (chance.next() & chance.next() & chance.next()) as u32;
        let kind = chance.below(3) as u32;
        samples.push(Sample { levels, kind });
    }
    samples
}

fn random_gpio(chance: &mut Chance) -> Gpio {
    let mut any = || chance.next() as u32;
    let (direction, clksel) = (any() & any(), any());
    Gpio {
        dataout: any(),
        datain: any(),
        direction,
        intsel: any() & any(),
        inttrig: any(),
        ints: any(),
        clksel,
        edgesel: any(),
        intenable: u32::from(chance.below(5) != 0),
    }
}

#[test]
fn a_batch_equals_its_samples_one_by_one() {
    let mut chance = Chance(2_026);
    let (mut frames, mut silent, mut disabled, mut unanswered) = (0, 0, 0, 0);
    for round in 0..1_500 {
        let mut batched = Bench::ready();
        batched.state.send = chance.below(8) as u8;
        batched.state.receive = chance.below(8) as u8;
        batched.state.active = chance.below(2) as u8;
        batched.state.gpio = random_gpio(&mut chance);
        if round % 10 == 0 {
            batched.state.crb &= !0x04;
            batched.state.gpio = Gpio::default();
        }
        (0..chance.below(70)).for_each(|_| assert_eq!(batched.upset().0, 17));
        // Half of the rounds go on with a large journal.
        if round % 20 >= 10 {
            batched = batched.enlarged();
        }
        let mut single = batched.clone();
        let count = match chance.below(4) {
            0 => chance.below(257),
            1 => chance.below(70),
            _ => chance.below(12),
        };
        let samples = random_samples(&mut chance, count as usize);
        let (answer, bodies) = batched.batch(&samples);
        let (mut sent, mut sum) = (Vec::new(), 0);
        for one in &samples {
            let (number, port, body) = single.sample(one.levels, one.kind);
            let off = single.state.crb & 0x04 == 0;
            assert!(number == 0 && !off || number == if off { 16 } else { 17 });
            if number == 0 {
                assert_eq!(port, u32::from(single.state.active));
                sum += body[6..].iter().map(|byte| byte.count_ones()).sum::<u32>();
                sent.push(body);
            } else {
                disabled += i32::from(off);
                unanswered += i32::from(!off);
            }
        }
        let wanted = match sent.len() {
            0 => batch_silent(17),
            some => batch_sent(u32::from(single.state.active), some, sum),
        };
        assert_eq!(answer, wanted);
        assert_eq!(bodies.concat(), sent.concat());
        assert_eq!(batched.state, single.state);
        assert_eq!(batched.journal, single.journal);
        frames += sent.len();
        silent += i32::from(sent.is_empty());
        // As many steps back as there are, side by side.
        while single.kept() > 0 {
            assert_eq!((batched.back(), single.back()), (17, 17));
            assert_eq!(
                (batched.state, batched.kept()),
                (single.state, single.kept())
            );
        }
        assert_eq!((batched.back(), single.back()), (5, 5));
    }
    assert!(frames > 10_000, "only {} frames", frames);
    assert!(silent > 100, "only {} batches without a frame", silent);
    assert!(
        disabled > 1_000,
        "only {} samples with GPIO disabled",
        disabled
    );
    assert!(
        unanswered > 1_000,
        "only {} samples without a frame",
        unanswered
    );
}

#[test]
fn runs_with_batches_equal_runs_of_the_standing_events() {
    let mut chance = Chance(33);
    let (mut frames, mut refused, mut taken_back) = (0, 0, 0);
    for _ in 0..200 {
        let mut plain = Bench::new();
        plain.state = Bench::ready().state;
        plain.state.gpio = random_gpio(&mut chance);
        let mut bench = plain.clone();
        // Each sample of a batch stands by itself.
        let mut standing: Vec<Event> = Vec::new();
        let mut number = 0;
        for _ in 0..60 {
            match chance.below(3) {
                0 => {
                    for _ in 0..chance.below(9) {
                        assert_eq!(bench.back(), if number == 0 { 5 } else { 17 });
                        if number > 0 {
                            number -= 1;
                            taken_back += 1;
                            standing.pop();
                        }
                    }
                }
                1 => {
                    let count = match chance.below(8) {
                        0 => chance.below(260),
                        _ => chance.below(12),
                    };
                    let mut samples = random_samples(&mut chance, count as usize);
                    let bad = chance.below(10) == 0 && count > 0;
                    if bad {
                        samples[chance.below(count) as usize].kind += 3;
                    }
                    let (answer, _) = bench.batch(&samples);
                    if bad || count > 256 {
                        assert_eq!(answer, batch_silent(3));
                        refused += 1;
                    } else {
                        assert!(answer.number == 0 || answer.number == 17);
                        frames += answer.frames;
                        number = (number + samples.len()).min(64);
                        let events = samples.iter();
                        standing.extend(events.map(|one| Event::Sample(one.levels, one.kind)));
                    }
                }
                _ => {
                    let event = random_event(&mut chance, &bench.state);
                    let (given, _, _) = bench.play(&event);
                    assert!(given != 4 && given != 6);
                    if given == 0 || given >= 11 {
                        number = if is_reset(&event) {
                            0
                        } else {
                            (number + 1).min(64)
                        };
                        standing.push(event);
                    }
                }
            }
            assert_eq!(bench.kept(), number);
            assert!(in_range(&bench.state));
        }
        for event in &standing {
            plain.play(event);
        }
        assert_eq!(plain.state, bench.state);
    }
    assert!(frames > 1_000, "only {} frames", frames);
    assert!(refused > 100, "only {} batches refused", refused);
    assert!(taken_back > 1_000, "only {} steps back", taken_back);
}

/// The lengths of a second buffer that enlarging refuses.
const WRONG_SECOND_LENGTHS: [usize; 10] = [
    0,
    1,
    17_407,
    17_408,
    17_409,
    52_223,
    52_225,
    65_536 + 52_224,
    104_448,
    usize::MAX,
];

impl Bench {
    /// The bench with its journal enlarged. The kept number stays, and so
    /// does the small journal.
    fn enlarged(&self) -> Bench {
        let before = self.journal.clone();
        let (number, journal) = enlarge(&self.journal, 52_224);
        assert_eq!((number, &self.journal), (17, &before));
        let journal = journal.unwrap();
        assert_eq!(journal.size(), Size::Large);
        assert_eq!(journal.condition, Condition::Whole);
        assert_eq!(kept(&journal), kept(&before));
        Bench {
            state: self.state,
            journal,
        }
    }

    /// All channels enabled, an empty journal of a size, and the work of the
    /// first places done.
    fn at_work(size: Size, count: usize) -> Bench {
        let mut bench = Bench {
            state: Bench::ready().state,
            journal: Journal::sized(size),
        };
        bench.work_through(0..count);
        bench
    }

    fn work_through(&mut self, places: std::ops::Range<usize>) {
        places.for_each(|place| self.work(place));
    }

    /// One event for each place. They come in turns of five: a write of DAC A,
    /// an upset, a pin sample, a frame that is dropped, a write of DATAOUT.
    fn work(&mut self, place: usize) {
        let mark = place as u32 + 1;
        match place % 5 {
            0 => assert_eq!(self.ask(0x15, 4, 0x10, mark), (0, 1, 0)),
            1 => assert_eq!(self.upset(), (17, 0, vec![])),
            2 => assert_eq!(self.sample(mark, 0), (17, 0, vec![])),
            3 => self.drop_frame(),
            _ => assert_eq!(self.ask(0x02, 4, 0x10, mark), (0, 2, 0)),
        }
    }

    /// A frame whose number is one ahead: SREJ asks for the one due.
    fn drop_frame(&mut self) {
        let receive = self.state.receive;
        let ahead = 2 * ((receive + 1) % 8);
        let given = self.frame(0, &[0, ahead, 1, 0x15, 4, 0x10, 9, 9, 9, 9]);
        assert_eq!(given, (0, 0, vec![0, 0x0D + 32 * receive]));
    }

    /// Steps back, each time to the state due, as often as the kept number
    /// says, and once more, which is refused and changes nothing.
    fn back_to_the_refusal(&mut self, count: usize, steps: usize) {
        assert_eq!((self.kept(), self.state), (steps, due_after(count)));
        for step in 1..=steps {
            assert_eq!((self.back(), self.kept()), (17, steps - step));
            assert_eq!(self.state, due_after(count - step));
        }
        let before = self.clone();
        assert_eq!((self.back(), self.kept()), (5, 0));
        assert_eq!((self.state, &self.journal), (before.state, &before.journal));
    }
}

/// The state after the work of the first `count` places. The marks of places
/// 0, 5, 10 .. are 1, 6, 11 .., those of 2, 7, 12 .. are 3, 8, 13 .., those of
/// 4, 9, 14 .. are 5, 10, 15 ..; only the two writes are answered requests.
fn due_after(count: usize) -> State {
    let (dacs, upsets, samples, writes) =
        ((count + 4) / 5, (count + 3) / 5, (count + 2) / 5, count / 5);
    let answered = ((3 + dacs + writes) % 8) as u8;
    let gpio = Gpio {
        datain: (5 * samples).saturating_sub(2) as u32,
        dataout: 5 * writes as u32,
        ..Gpio::default()
    };
    State {
        id: 0x12_3456,
        send: answered,
        receive: answered,
        crb: 0xFE,
        crc: 0xFF,
        crd: 0x1F,
        seu: upsets as u32,
        gpio,
        dac: [(5 * dacs).saturating_sub(4) as u8, 0, 0, 0],
        ..State::default()
    }
}

#[test]
fn the_work_of_eleven_places() {
    // DAC A, SEU counter, DATAIN, DATAOUT and both link numbers after each.
    let wanted = [
        (0, 0, 0, 0, 3),
        (1, 0, 0, 0, 4),
        (1, 1, 0, 0, 4),
        (1, 1, 3, 0, 4),
        (1, 1, 3, 0, 4),
        (1, 1, 3, 5, 5),
        (6, 1, 3, 5, 6),
        (6, 2, 3, 5, 6),
        (6, 2, 8, 5, 6),
        (6, 2, 8, 5, 6),
        (6, 2, 8, 10, 7),
        (11, 2, 8, 10, 0),
    ];
    for (count, (dac, seu, datain, dataout, number)) in wanted.iter().enumerate() {
        let state = due_after(count);
        assert_eq!((state.dac, state.seu), ([*dac, 0, 0, 0], *seu));
        assert_eq!((state.gpio.datain, state.gpio.dataout), (*datain, *dataout));
        assert_eq!((state.send, state.receive), (*number, *number));
        assert_eq!(Bench::at_work(Size::Small, count).state, state);
    }
}

#[test]
fn the_length_says_the_size() {
    assert_eq!((Size::Small.bytes(), Size::Small.kept_most()), (17_408, 64));
    assert_eq!(
        (Size::Large.bytes(), Size::Large.kept_most()),
        (52_224, 200)
    );
    assert_eq!(Size::of(17_408), Some(Size::Small));
    assert_eq!(Size::of(52_224), Some(Size::Large));
    for bytes in [
        0, 1, 64, 200, 1_024, 16_384, 17_407, 17_409, 34_816, 51_200, 52_223, 52_225, 104_448,
    ] {
        assert_eq!(Size::of(bytes), None);
    }
    assert_eq!(Journal::new().size(), Size::Small);
    assert_eq!(Journal::default(), Journal::new());
    for size in [Size::Small, Size::Large] {
        let journal = Journal::sized(size);
        assert_eq!((journal.size(), kept(&journal)), (size, (17, 0)));
        assert_eq!(journal == Journal::new(), size == Size::Small);
    }
}

#[test]
fn steps_back_to_the_refusal_in_both_sizes() {
    // The events and the kept number after them.
    for (size, count, steps) in [
        (Size::Small, 0, 0),
        (Size::Small, 1, 1),
        (Size::Small, 63, 63),
        (Size::Small, 64, 64),
        (Size::Small, 65, 64),
        (Size::Small, 128, 64),
        (Size::Small, 199, 64),
        (Size::Small, 200, 64),
        (Size::Small, 201, 64),
        (Size::Large, 0, 0),
        (Size::Large, 1, 1),
        (Size::Large, 63, 63),
        (Size::Large, 64, 64),
        (Size::Large, 65, 65),
        (Size::Large, 128, 128),
        (Size::Large, 199, 199),
        (Size::Large, 200, 200),
        (Size::Large, 201, 200),
        (Size::Large, 400, 200),
        (Size::Large, 401, 200),
    ] {
        let mut bench = Bench::at_work(size, count);
        bench.back_to_the_refusal(count, steps);
        assert_eq!(bench.journal, Journal::sized(size));
        // What was refused has not used up a step of what comes later.
        let left = count - steps;
        bench.work(left);
        bench.back_to_the_refusal(left + 1, 1);
        // The room of the steps taken back is used again.
        bench.work_through(left..count + 7);
        let most = if size == Size::Small { 64 } else { 200 };
        bench.back_to_the_refusal(count + 7, most.min(steps + 7));
    }
}

#[test]
fn the_kept_number_along_a_run() {
    let mut small = Bench::at_work(Size::Small, 0);
    let mut large = Bench::at_work(Size::Large, 0);
    for count in 1..=64 {
        small.work(count - 1);
        large.work(count - 1);
        assert_eq!((small.kept(), large.kept()), (count, count));
    }
    for count in 65..=200 {
        small.work(count - 1);
        large.work(count - 1);
        assert_eq!((small.kept(), large.kept()), (64, count));
    }
    for count in 201..=210 {
        small.work(count - 1);
        large.work(count - 1);
        assert_eq!((small.kept(), large.kept()), (64, 200));
    }
    // Down and up again at the upper edge.
    assert_eq!((large.back(), large.kept()), (17, 199));
    assert_eq!((large.upset().0, large.kept()), (17, 200));
    assert_eq!((large.upset().0, large.kept()), (17, 200));
}

#[test]
fn enlarging_at_every_kept_number() {
    for count in 0..=64 {
        let mut small = Bench::at_work(Size::Small, count);
        let mut large = small.enlarged();
        let wanted: Vec<State> = (0..count).map(due_after).collect();
        assert!(large.journal.earlier().eq(&wanted));
        large.back_to_the_refusal(count, count);
        // The small one was left as it was.
        small.back_to_the_refusal(count, count);
    }
}

#[test]
fn enlarging_after_the_oldest_steps_are_gone() {
    for count in 65..=200 {
        let mut large = Bench::at_work(Size::Small, count).enlarged();
        let wanted: Vec<State> = (count - 64..count).map(due_after).collect();
        assert!(large.journal.earlier().eq(&wanted));
        large.back_to_the_refusal(count, 64);
    }
}

#[test]
fn enlarging_after_steps_back() {
    // The events and the kept number after them.
    for (count, most) in [(1, 1), (63, 63), (64, 64), (65, 64), (100, 64), (200, 64)] {
        let mut small = Bench::at_work(Size::Small, count);
        for steps in 0..=most {
            let (standing, left) = (count - steps, most - steps);
            let mut large = small.enlarged();
            // Another branch first, and back to where it began.
            (0..3).for_each(|_| assert_eq!(large.upset().0, 17));
            assert_eq!(large.kept(), left + 3);
            assert_eq!(large.state.seu, due_after(standing).seu + 3);
            (0..3).for_each(|_| assert_eq!(large.back(), 17));
            large.back_to_the_refusal(standing, left);
            // A step back in the small one leads to the next row.
            assert_eq!(small.back(), if left == 0 { 5 } else { 17 });
        }
    }
}

#[test]
fn an_enlarged_journal_keeps_two_hundred() {
    // Events before enlarging, those after it, and the kept number then. At
    // enlarging it is that of the events before, but 64 at most.
    for (before, after, steps) in [
        (0, 64, 64),
        (0, 65, 65),
        (0, 199, 199),
        (0, 200, 200),
        (0, 201, 200),
        (1, 198, 199),
        (1, 199, 200),
        (1, 200, 200),
        (63, 1, 64),
        (63, 2, 65),
        (63, 136, 199),
        (63, 137, 200),
        (63, 138, 200),
        (64, 1, 65),
        (64, 135, 199),
        (64, 136, 200),
        (64, 137, 200),
        (65, 1, 65),
        (65, 135, 199),
        (65, 136, 200),
        (65, 137, 200),
        (127, 136, 200),
        (128, 136, 200),
        (201, 135, 199),
        (201, 136, 200),
        (201, 137, 200),
        (201, 500, 200),
    ] {
        let mut large = Bench::at_work(Size::Small, before).enlarged();
        large.work_through(before..before + after);
        large.back_to_the_refusal(before + after, steps);
        assert_eq!(large.journal, Journal::sized(Size::Large));
    }
}

#[test]
fn both_journals_go_on_by_themselves() {
    let mut small = Bench::at_work(Size::Small, 70);
    let left = small.journal.clone();
    let mut large = small.enlarged();
    large.work_through(70..300);
    assert_eq!((&small.journal, small.kept()), (&left, 64));
    let grown = large.journal.clone();
    small.work_through(70..100);
    // The small one can be enlarged once more, as it is now.
    let mut second = small.enlarged();
    second.work_through(100..110);
    second.back_to_the_refusal(110, 74);
    small.back_to_the_refusal(100, 64);
    assert_eq!((&large.journal, large.kept()), (&grown, 200));
    large.back_to_the_refusal(300, 200);
}

#[test]
fn a_wrong_second_length_is_1() {
    for count in [0, 1, 63, 64, 65, 200] {
        let small = Bench::at_work(Size::Small, count);
        for length in WRONG_SECOND_LENGTHS {
            assert_eq!(enlarge(&small.journal, length), (1, None));
        }
        // Nothing was lost by it.
        assert_eq!(small.journal, Bench::at_work(Size::Small, count).journal);
        small.enlarged().back_to_the_refusal(count, count.min(64));
    }
}

/// Enlarging gives 4 for a second buffer of any length.
fn is_no_small_journal(journal: &Journal) {
    let before = journal.clone();
    assert_eq!(enlarge(journal, 52_224), (4, None));
    for length in WRONG_SECOND_LENGTHS {
        assert_eq!(enlarge(journal, length), (4, None));
    }
    assert_eq!(*journal, before);
}

#[test]
fn enlarging_what_is_no_small_journal_is_4_before_1() {
    for count in [0, 1, 63, 64, 65, 199, 200, 201] {
        let small = Bench::at_work(Size::Small, count);
        let large = Bench::at_work(Size::Large, count);
        is_no_small_journal(&large.journal);
        is_no_small_journal(&small.enlarged().journal);
        for condition in [Condition::WrongLength, Condition::WrongLayout] {
            for bench in [&small, &large] {
                let mut journal = bench.journal.clone();
                journal.condition = condition;
                is_no_small_journal(&journal);
            }
        }
        // A large one goes on after the refusal.
        large.clone().back_to_the_refusal(count, count.min(200));
    }
}

#[test]
fn enlarging_an_emptied_journal() {
    for condition in [Condition::Whole, Condition::WrongLayout] {
        let mut small = Bench::at_work(Size::Small, 70);
        small.journal.condition = condition;
        assert_eq!(empty(&mut small.journal), 17);
        assert_eq!(small.journal, Journal::new());
        let mut large = small.enlarged();
        assert_eq!(large.journal, Journal::sized(Size::Large));
        large.back_to_the_refusal(70, 0);
        large.work_through(70..271);
        large.back_to_the_refusal(271, 200);
    }
    let mut small = Bench::at_work(Size::Small, 70);
    assert_eq!(small.frame(0, &RESET), (0, 0, vec![0, 0x63]));
    let mut large = small.enlarged();
    assert_eq!(large.journal, Journal::sized(Size::Large));
    assert_eq!((large.back(), large.kept()), (5, 0));
}

/// As many upsets as go in and one more; then all are taken back that can be.
fn fill_with_upsets(bench: &mut Bench, most: usize) {
    let seu = bench.state.seu;
    for count in 1..=most {
        assert_eq!((bench.upset().0, bench.kept()), (17, count));
    }
    assert_eq!((bench.upset().0, bench.kept()), (17, most));
    (0..most).for_each(|_| assert_eq!(bench.back(), 17));
    assert_eq!((bench.state.seu, bench.kept()), (seu + 1, 0));
    assert_eq!(bench.back(), 5);
}

#[test]
fn reset_empties_a_journal_and_leaves_its_size() {
    // The events, and the kept number after one event more.
    for (size, count, more, most) in [
        (Size::Small, 0, 1, 64),
        (Size::Small, 63, 64, 64),
        (Size::Small, 64, 64, 64),
        (Size::Small, 200, 64, 64),
        (Size::Large, 0, 1, 200),
        (Size::Large, 63, 64, 200),
        (Size::Large, 64, 65, 200),
        (Size::Large, 199, 200, 200),
        (Size::Large, 200, 200, 200),
        (Size::Large, 201, 200, 200),
    ] {
        for (control, reply) in [(0x8F, 0x63), (0x9F, 0x73)] {
            let mut bench = Bench::at_work(size, count);
            // With information it is dropped, and kept as any event.
            assert_eq!(bench.frame(0, &[0, control, 0]), (14, 0, vec![]));
            assert_eq!((bench.kept(), bench.state), (more, due_after(count)));
            assert_eq!(bench.frame(0, &[0, control]), (0, 0, vec![0, reply]));
            assert_eq!(bench.journal, Journal::sized(size));
            assert_eq!((bench.kept(), bench.back()), (0, 5));
            assert_eq!(bench.state, Bench::new().state);
            fill_with_upsets(&mut bench, most);
        }
    }
}

#[test]
fn emptying_goes_by_the_length() {
    for (size, most) in [(Size::Small, 64), (Size::Large, 200)] {
        for count in [0, 1, 64, 65, 200, 201] {
            for condition in [Condition::Whole, Condition::WrongLayout] {
                let mut bench = Bench::at_work(size, count);
                bench.journal.condition = condition;
                assert_eq!(empty(&mut bench.journal), 17);
                assert_eq!(bench.journal, Journal::sized(size));
                assert_eq!(bench.journal.size(), size);
                bench.back_to_the_refusal(count, 0);
                fill_with_upsets(&mut bench, most);
            }
            let mut bench = Bench::at_work(size, count);
            bench.journal.condition = Condition::WrongLength;
            let before = bench.journal.clone();
            assert_eq!(empty(&mut bench.journal), 4);
            assert_eq!(bench.journal, before);
        }
    }
    // An enlarged one is emptied as a large one.
    let mut bench = Bench::at_work(Size::Small, 64).enlarged();
    assert_eq!(empty(&mut bench.journal), 17);
    assert_eq!(bench.journal, Journal::sized(Size::Large));
    fill_with_upsets(&mut bench, 200);
}

#[test]
fn lists_of_many_lengths_on_a_large_journal() {
    // The samples; the kept number after six requests and them, and after
    // them alone.
    for (count, with_requests, alone) in [
        (0, 6, 0),
        (1, 7, 1),
        (58, 64, 58),
        (59, 65, 59),
        (64, 70, 64),
        (65, 71, 65),
        (193, 199, 193),
        (194, 200, 194),
        (195, 200, 195),
        (199, 200, 199),
        (200, 200, 200),
        (201, 200, 200),
        (255, 200, 200),
        (256, 200, 200),
    ] {
        let mut large = Bench::toggled().enlarged();
        let (answer, bodies) = large.batch(&toggling(count));
        let wanted = match count {
            0 => batch_silent(17),
            _ => batch_sent(0, count, count as u32),
        };
        assert_eq!((answer, bodies), (wanted, toggled_bodies(count)));
        assert_eq!(large.kept(), with_requests);
        let mut small = Bench::toggled();
        small.batch(&toggling(count));
        assert_eq!(large.state, small.state);
        let mut large = Bench::toggled();
        large.journal = Journal::sized(Size::Large);
        large.batch(&toggling(count));
        assert_eq!((large.state, large.kept()), (small.state, alone));
    }
}

#[test]
fn no_more_than_200_steps_back_through_a_batch() {
    // The samples, and how many of them stand for good.
    for (count, fixed) in [(200, 0), (201, 1), (255, 55), (256, 56)] {
        let mut bench = Bench::toggled().enlarged();
        bench.batch(&toggling(count));
        take_back_toggling(&mut bench, count, 200);
        let mut plain = Bench::toggled();
        let (answer, _) = plain.batch(&toggling(fixed));
        assert_eq!((answer.frames, plain.state), (fixed, bench.state));
    }
    // After 196 samples, four of the six requests before them are kept too.
    let mut bench = Bench::toggled().enlarged();
    let before = bench.state;
    bench.batch(&toggling(196));
    assert_eq!(bench.kept(), 200);
    (0..196).for_each(|_| assert_eq!(bench.back(), 17));
    assert_eq!((bench.state, bench.kept()), (before, 4));
    (0..4).for_each(|_| assert_eq!(bench.back(), 17));
    assert_eq!((bench.state.gpio, bench.kept()), (Gpio::default(), 0));
    assert_eq!((bench.state.receive, bench.back()), (2, 5));
}

#[test]
fn enlarging_between_two_batches() {
    // The samples before enlarging and after it, and the kept number then;
    // an even number before, so that the lines go on in turns.
    for (before, after, steps) in [(100, 100, 164), (100, 136, 200), (256, 256, 200)] {
        let mut bench = Bench::toggled();
        bench.batch(&toggling(before));
        assert_eq!(bench.kept(), 64);
        let mut bench = bench.enlarged();
        let (answer, _) = bench.batch(&toggling(after));
        assert_eq!(answer, batch_sent(0, after, after as u32));
        take_back_toggling(&mut bench, before + after, steps);
    }
}

#[test]
fn refusals_of_a_batch_on_a_large_journal_change_nothing() {
    let mut bench = Bench::toggled().enlarged();
    bench.batch(&toggling(250));
    let before = bench.clone();
    let mut bad_kind = toggling(256);
    bad_kind[255].kind = 3;
    let refused = |bench: &mut Bench, samples: &[Sample], length: usize, number: u8| {
        let given = bench.batch_into(samples, length);
        assert_eq!(given, (batch_silent(number), vec![]));
        assert_eq!(bench.state, before.state);
        assert!(bench.journal.earlier().eq(before.journal.earlier()));
    };
    refused(&mut bench, &toggling(257), 2_560, 3);
    refused(&mut bench, &bad_kind, 2_560, 3);
    refused(&mut bench, &bad_kind, 2_559, 1);
    for condition in [Condition::WrongLength, Condition::WrongLayout] {
        bench.journal.condition = condition;
        refused(&mut bench, &bad_kind, 2_559, 4);
        refused(&mut bench, &[], 2_560, 4);
    }
    bench.journal.condition = Condition::Whole;
    refused(&mut bench, &[], 2_560, 17);
    take_back_toggling(&mut bench, 250, 200);
}

/// What a run of events and steps back leaves: the kept numbers of a small
/// journal and of the large one beside it, counted by the rules alone.
struct Counted {
    small: usize,
    large: usize,
}

impl Counted {
    fn event(&mut self) {
        self.small = (self.small + 1).min(64);
        self.large = (self.large + 1).min(200);
    }

    fn reset(&mut self) {
        self.small = 0;
        self.large = 0;
    }
}

/// A RESET would end most runs early; only few of them are let through.
fn random_event_with_few_resets(chance: &mut Chance, state: &State) -> Event {
    let event = random_event(chance, state);
    if is_reset(&event) && chance.below(8) != 0 {
        Event::Upset
    } else {
        event
    }
}

/// A small bench after a run of events and steps back.
fn random_small_bench(chance: &mut Chance) -> Bench {
    let mut bench = Bench::at_work(Size::Small, 0);
    for _ in 0..chance.below(150) {
        if chance.below(4) == 0 {
            bench.back();
        } else {
            let event = random_event_with_few_resets(chance, &bench.state);
            bench.play(&event);
        }
    }
    bench
}

/// The same event for both; they must not differ.
fn play_beside(small: &mut Bench, large: &mut Bench, event: &Event, counted: &mut Counted) {
    let given = small.play(event);
    assert_eq!(large.play(event), given);
    if given.0 == 0 || given.0 >= 11 {
        if is_reset(event) {
            counted.reset();
        } else {
            counted.event();
        }
    }
}

/// The same batch for both; they must not differ.
fn batch_beside(small: &mut Bench, large: &mut Bench, samples: &[Sample], counted: &mut Counted) {
    assert_eq!(small.batch(samples), large.batch(samples));
    samples.iter().for_each(|_| counted.event());
}

#[test]
fn after_enlarging_all_is_as_with_the_small_journal_until_that_gives_5() {
    let mut chance = Chance(2_606);
    let (mut steps, mut parted, mut both_refused, mut full) = (0, 0, 0, 0);
    for _ in 0..150 {
        let mut small = random_small_bench(&mut chance);
        let mut large = small.enlarged();
        let mut counted = Counted {
            small: small.kept(),
            large: small.kept(),
        };
        'run: for _ in 0..12 {
            for _ in 0..chance.below(60) {
                if chance.below(30) == 0 {
                    let count = chance.below(30) as usize;
                    let samples = random_samples(&mut chance, count);
                    batch_beside(&mut small, &mut large, &samples, &mut counted);
                } else {
                    let event = random_event_with_few_resets(&mut chance, &small.state);
                    play_beside(&mut small, &mut large, &event, &mut counted);
                }
                assert_eq!(small.state, large.state);
                assert_eq!((small.kept(), large.kept()), (counted.small, counted.large));
                full += i32::from(counted.large == 200);
            }
            for _ in 0..chance.below(50) {
                let numbers = (small.back(), large.back());
                match (counted.small, counted.large) {
                    (0, 0) => {
                        assert_eq!(numbers, (5, 5));
                        both_refused += 1;
                    }
                    (0, _) => {
                        // From here on the two have different events standing.
                        assert_eq!(numbers, (5, 17));
                        parted += 1;
                        break 'run;
                    }
                    _ => {
                        assert_eq!(numbers, (17, 17));
                        counted.small -= 1;
                        counted.large -= 1;
                        steps += 1;
                    }
                }
                assert_eq!(small.state, large.state);
                assert_eq!((small.kept(), large.kept()), (counted.small, counted.large));
            }
        }
    }
    assert!(steps > 5_000, "only {} steps back", steps);
    assert!(parted > 20, "only {} runs parted", parted);
    assert!(both_refused > 20, "only {} refused by both", both_refused);
    assert!(full > 100, "only {} events with 200 kept", full);
}

#[test]
fn runs_with_enlarging_equal_runs_of_the_standing_events() {
    let mut chance = Chance(6_202);
    let (mut taken_back, mut refused, mut full, mut beyond) = (0, 0, 0, 0);
    for run in 0..60 {
        let mut plain = Bench::new();
        if run % 2 == 1 {
            plain.state = Bench::ready().state;
        }
        let mut bench = plain.clone();
        let mut standing: Vec<(Event, Given)> = Vec::new();
        let (mut number, mut most) = (0, 64);
        let moment = chance.below(400);
        for turn in 0..700 {
            if turn == moment {
                assert_eq!(enlarge(&bench.journal, 17_408), (1, None));
                bench = bench.enlarged();
                assert_eq!(enlarge(&bench.journal, 52_224), (4, None));
                most = 200;
            }
            if chance.below(12) == 0 {
                for _ in 0..chance.below(14) {
                    assert_eq!(bench.back(), if number == 0 { 5 } else { 17 });
                    if number > 0 {
                        number -= 1;
                        taken_back += 1;
                        beyond += i32::from(number >= 64);
                        standing.pop();
                    }
                }
            } else {
                let event = random_event_with_few_resets(&mut chance, &bench.state);
                let given = bench.play(&event);
                assert!(given.0 != 4 && given.0 != 6);
                if given.0 == 0 || given.0 >= 11 {
                    number = if is_reset(&event) {
                        0
                    } else {
                        (number + 1).min(most)
                    };
                    standing.push((event, given));
                } else {
                    refused += 1;
                }
            }
            assert_eq!(bench.kept(), number);
            assert!(in_range(&bench.state));
            full += i32::from(number == 200);
        }
        for (event, given) in &standing {
            assert_eq!(&plain.play(event), given);
        }
        assert_eq!(plain.state, bench.state);
    }
    assert!(taken_back > 5_000, "only {} steps back", taken_back);
    assert!(beyond > 1_000, "only {} of them beyond the 64th", beyond);
    assert!(refused > 500, "only {} events refused", refused);
    assert!(full > 500, "only {} turns with 200 kept", full);
}
