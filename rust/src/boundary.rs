//! The calls of `libsca.a` as safe functions on slices, under the names that C has for them, and numbers as they come: for
//! who wants to lend the bytes and check the numbers without the crate's types. No other Rust file, of the crate or of the
//! tests, has unsafe code.

/// The calls as include/sca.h declares them.
mod library {
    use super::RawSample;

    #[link(name = "sca", kind = "static")]
    extern "C" {
        pub fn sca_version() -> u64;
        pub fn sca_receiver_new(receiver: *mut u8, receiver_length: usize) -> u64;
        pub fn sca_receive(
            receiver: *mut u8,
            receiver_length: usize,
            input: *const u8,
            input_length: usize,
            start: usize,
            output: *mut u8,
            output_length: usize,
        ) -> u64;
        pub fn sca_transmit(body: *const u8, body_length: usize, output: *mut u8, output_length: usize) -> u64;
        pub fn sca_create(state: *mut u8, state_length: usize, id: u32) -> u64;
        pub fn sca_empty(journal: *mut u8, journal_length: usize) -> u64;
        pub fn sca_kept(journal: *const u8, journal_length: usize) -> u64;
        pub fn sca_enlarge(journal: *const u8, journal_length: usize, second: *mut u8, second_length: usize) -> u64;
        pub fn sca_frame(
            state: *mut u8,
            state_length: usize,
            journal: *mut u8,
            journal_length: usize,
            port: u32,
            body: *const u8,
            body_length: usize,
            output: *mut u8,
            output_length: usize,
        ) -> u64;
        pub fn sca_completion(
            state: *mut u8,
            state_length: usize,
            journal: *mut u8,
            journal_length: usize,
            received: *const u8,
            received_length: usize,
            output: *mut u8,
            output_length: usize,
        ) -> u64;
        pub fn sca_i2c_completion(
            state: *mut u8,
            state_length: usize,
            journal: *mut u8,
            journal_length: usize,
            channel: u32,
            acknowledge: u32,
            line_low: u32,
            received: *const u8,
            received_length: usize,
            output: *mut u8,
            output_length: usize,
        ) -> u64;
        pub fn sca_sample(
            state: *mut u8,
            state_length: usize,
            journal: *mut u8,
            journal_length: usize,
            levels: u32,
            kind: u32,
            output: *mut u8,
            output_length: usize,
        ) -> u64;
        pub fn sca_samples(
            state: *mut u8,
            state_length: usize,
            journal: *mut u8,
            journal_length: usize,
            list: *const RawSample,
            count: usize,
            output: *mut u8,
            output_length: usize,
        ) -> u64;
        pub fn sca_upset(
            state: *mut u8,
            state_length: usize,
            journal: *mut u8,
            journal_length: usize,
            output: *mut u8,
            output_length: usize,
        ) -> u64;
        pub fn sca_step_back(state: *mut u8, state_length: usize, journal: *mut u8, journal_length: usize) -> u64;
        pub fn sca_record_new(record: *mut u8, record_length: usize) -> u64;
        pub fn sca_request(
            record: *mut u8,
            record_length: usize,
            channel: u32,
            command: u32,
            data: u32,
            output: *mut u8,
            output_length: usize,
        ) -> u64;
        pub fn sca_reply(
            record: *mut u8,
            record_length: usize,
            body: *const u8,
            body_length: usize,
            output: *mut u8,
            output_length: usize,
        ) -> u64;
        pub fn sca_command(
            record: *mut u8,
            record_length: usize,
            control: u32,
            output: *mut u8,
            output_length: usize,
        ) -> u64;
    }
}

/// What a reading gives.
#[derive(Clone, Copy, PartialEq, Eq, Debug)]
pub struct RawReceived {
    /// The number; [`crate::text`] has it in words.
    pub number: u8,
    /// The bits read.
    pub consumed: usize,
    /// The bytes of a body.
    pub length: usize,
}

/// What a transmission gives.
#[derive(Clone, Copy, PartialEq, Eq, Debug)]
pub struct RawSent {
    /// The number; [`crate::text`] has it in words.
    pub number: u8,
    /// The bytes of cable written.
    pub count: usize,
}

/// The version of the archive: no number and no answer.
pub fn sca_version() -> u64 {
    // Sound: nothing is handed over.
    unsafe { library::sca_version() }
}

/// Makes a receiver that hunts; gives the whole value, in which nothing stands above the number.
pub fn sca_receiver_new(receiver: &mut [u8]) -> u64 {
    // Sound: pointer and length are those of one live slice that is lent for this call alone.
    unsafe { library::sca_receiver_new(receiver.as_mut_ptr(), receiver.len()) }
}

/// Reads `input` from bit `start` on, up to the first answer.
pub fn sca_receive(receiver: &mut [u8], input: &[u8], start: usize, output: &mut [u8]) -> RawReceived {
    // Sound: as above, three times; that nothing is shared follows from the borrows.
    let result = unsafe {
        library::sca_receive(
            receiver.as_mut_ptr(),
            receiver.len(),
            input.as_ptr(),
            input.len(),
            start,
            output.as_mut_ptr(),
            output.len(),
        )
    };
    RawReceived {
        number: result as u8,
        consumed: (result >> 16) as usize,
        length: usize::from((result >> 8) as u8),
    }
}

/// Frames a body.
pub fn sca_transmit(body: &[u8], output: &mut [u8]) -> RawSent {
    // Sound: as above.
    let result = unsafe { library::sca_transmit(body.as_ptr(), body.len(), output.as_mut_ptr(), output.len()) };
    RawSent {
        number: result as u8,
        count: (result >> 8) as usize,
    }
}

/// What an event or a step back gives.
#[derive(Clone, Copy, PartialEq, Eq, Debug)]
pub struct RawAnswer {
    /// The number; [`crate::text`] has it in words.
    pub number: u8,
    /// The bytes of a body.
    pub length: usize,
    /// The port that it leaves on.
    pub port: u32,
}

impl RawAnswer {
    fn of(result: u64) -> RawAnswer {
        RawAnswer {
            number: result as u8,
            length: usize::from((result >> 8) as u8),
            port: u32::from((result >> 16) as u8),
        }
    }
}

/// A pin sample of a batch, laid out as C has it: `struct sca_pin_sample`.
#[repr(C)]
#[derive(Clone, Copy, PartialEq, Eq, Default, Debug)]
pub struct RawSample {
    /// Bit n is the level of line n.
    pub levels: u32,
    /// The edge kind.
    pub kind: u32,
}

/// What a batch gives.
#[derive(Clone, Copy, PartialEq, Eq, Debug)]
pub struct RawBatch {
    /// The number; [`crate::text`] has it in words.
    pub number: u8,
    /// The bytes of each body.
    pub length: usize,
    /// The port that they leave on.
    pub port: u32,
    /// How many bodies there are.
    pub frames: usize,
    /// The lines that fired, added up over the interrupts.
    pub sum: u32,
}

impl RawBatch {
    fn of(result: u64) -> RawBatch {
        RawBatch {
            number: result as u8,
            length: usize::from((result >> 8) as u8),
            port: u32::from((result >> 16) as u8),
            frames: usize::from((result >> 24) as u16),
            sum: (result >> 40) as u32,
        }
    }
}

/// What a journal keeps.
#[derive(Clone, Copy, PartialEq, Eq, Debug)]
pub struct RawKept {
    /// The number; [`crate::text`] has it in words.
    pub number: u8,
    /// The events that can be taken back.
    pub kept: usize,
}

/// Makes the state of a new adapter; gives the whole value, in which nothing stands above the number.
pub fn sca_create(state: &mut [u8], id: u32) -> u64 {
    // Sound: as above.
    unsafe { library::sca_create(state.as_mut_ptr(), state.len(), id) }
}

/// Makes a journal empty; gives the whole value, in which nothing stands above the number.
pub fn sca_empty(journal: &mut [u8]) -> u64 {
    // Sound: as above.
    unsafe { library::sca_empty(journal.as_mut_ptr(), journal.len()) }
}

/// The number of events that can be taken back.
pub fn sca_kept(journal: &[u8]) -> RawKept {
    // Sound: as above.
    let result = unsafe { library::sca_kept(journal.as_ptr(), journal.len()) };
    RawKept {
        number: result as u8,
        kept: (result >> 8) as usize,
    }
}

/// Makes a second buffer a large journal that keeps what a small one does; gives the whole value, in which nothing stands
/// above the number.
pub fn sca_enlarge(journal: &[u8], second: &mut [u8]) -> u64 {
    // Sound: as above.
    unsafe { library::sca_enlarge(journal.as_ptr(), journal.len(), second.as_mut_ptr(), second.len()) }
}

/// A frame body arrives on a port.
pub fn sca_frame(state: &mut [u8], journal: &mut [u8], port: u32, body: &[u8], output: &mut [u8]) -> RawAnswer {
    // Sound: as above.
    RawAnswer::of(unsafe {
        library::sca_frame(
            state.as_mut_ptr(),
            state.len(),
            journal.as_mut_ptr(),
            journal.len(),
            port,
            body.as_ptr(),
            body.len(),
            output.as_mut_ptr(),
            output.len(),
        )
    })
}

/// An SPI transfer is complete.
pub fn sca_completion(state: &mut [u8], journal: &mut [u8], received: &[u8], output: &mut [u8]) -> RawAnswer {
    // Sound: as above.
    RawAnswer::of(unsafe {
        library::sca_completion(
            state.as_mut_ptr(),
            state.len(),
            journal.as_mut_ptr(),
            journal.len(),
            received.as_ptr(),
            received.len(),
            output.as_mut_ptr(),
            output.len(),
        )
    })
}

/// An I2C transaction is complete; any acknowledge and line low but 0 mean 1.
pub fn sca_i2c_completion(
    state: &mut [u8],
    journal: &mut [u8],
    channel: u32,
    acknowledge: u32,
    line_low: u32,
    received: &[u8],
    output: &mut [u8],
) -> RawAnswer {
    // Sound: as above.
    RawAnswer::of(unsafe {
        library::sca_i2c_completion(
            state.as_mut_ptr(),
            state.len(),
            journal.as_mut_ptr(),
            journal.len(),
            channel,
            acknowledge,
            line_low,
            received.as_ptr(),
            received.len(),
            output.as_mut_ptr(),
            output.len(),
        )
    })
}

/// The pins are sampled.
pub fn sca_sample(state: &mut [u8], journal: &mut [u8], levels: u32, kind: u32, output: &mut [u8]) -> RawAnswer {
    // Sound: as above.
    RawAnswer::of(unsafe {
        library::sca_sample(
            state.as_mut_ptr(),
            state.len(),
            journal.as_mut_ptr(),
            journal.len(),
            levels,
            kind,
            output.as_mut_ptr(),
            output.len(),
        )
    })
}

/// The pins are sampled, many times in a row; the first sample stands first.
pub fn sca_samples(state: &mut [u8], journal: &mut [u8], list: &[RawSample], output: &mut [u8]) -> RawBatch {
    // Sound: as above; the list's length is in samples, as C counts them, and a sample is laid out as C has it.
    RawBatch::of(unsafe {
        library::sca_samples(
            state.as_mut_ptr(),
            state.len(),
            journal.as_mut_ptr(),
            journal.len(),
            list.as_ptr(),
            list.len(),
            output.as_mut_ptr(),
            output.len(),
        )
    })
}

/// A single event upset.
pub fn sca_upset(state: &mut [u8], journal: &mut [u8], output: &mut [u8]) -> RawAnswer {
    // Sound: as above.
    RawAnswer::of(unsafe {
        library::sca_upset(
            state.as_mut_ptr(),
            state.len(),
            journal.as_mut_ptr(),
            journal.len(),
            output.as_mut_ptr(),
            output.len(),
        )
    })
}

/// Takes the newest standing event back.
pub fn sca_step_back(state: &mut [u8], journal: &mut [u8]) -> RawAnswer {
    // Sound: as above.
    RawAnswer::of(unsafe {
        library::sca_step_back(state.as_mut_ptr(), state.len(), journal.as_mut_ptr(), journal.len())
    })
}

/// What a call of the control room gives.
#[derive(Clone, Copy, PartialEq, Eq, Debug)]
pub struct RawGiven {
    /// The number; [`crate::text`] has it in words.
    pub number: u8,
    /// The bytes written.
    pub length: usize,
    /// Whether an interrupt was read.
    pub interrupt: bool,
}

impl RawGiven {
    fn of(result: u64) -> RawGiven {
        RawGiven {
            number: result as u8,
            length: usize::from((result >> 8) as u8),
            interrupt: (result >> 16) & 1 == 1,
        }
    }
}

/// Makes a record with nothing open; gives the whole value, in which nothing stands above the number.
pub fn sca_record_new(record: &mut [u8]) -> u64 {
    // Sound: as above.
    unsafe { library::sca_record_new(record.as_mut_ptr(), record.len()) }
}

/// The body of a request.
pub fn sca_request(record: &mut [u8], channel: u32, command: u32, data: u32, output: &mut [u8]) -> RawGiven {
    // Sound: as above.
    RawGiven::of(unsafe {
        library::sca_request(
            record.as_mut_ptr(),
            record.len(),
            channel,
            command,
            data,
            output.as_mut_ptr(),
            output.len(),
        )
    })
}

/// What a reply or an interrupt says.
pub fn sca_reply(record: &mut [u8], body: &[u8], output: &mut [u8]) -> RawGiven {
    // Sound: as above.
    RawGiven::of(unsafe {
        library::sca_reply(
            record.as_mut_ptr(),
            record.len(),
            body.as_ptr(),
            body.len(),
            output.as_mut_ptr(),
            output.len(),
        )
    })
}

/// The body of a command of the link.
pub fn sca_command(record: &mut [u8], control: u32, output: &mut [u8]) -> RawGiven {
    // Sound: as above.
    RawGiven::of(unsafe {
        library::sca_command(
            record.as_mut_ptr(),
            record.len(),
            control,
            output.as_mut_ptr(),
            output.len(),
        )
    })
}
