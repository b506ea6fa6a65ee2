//! A journal's record as docs/JOURNAL.md has it: what is kept of the state before an event, and what a step back makes of it.

use crate::calls::Call;
use crate::image::{bytes_of, state_in};
use reference::adapter::{in_range, State};
use sca::STATE_BYTES;
use std::ops::Range;

/// The tags: the core alone, or the registers too that one of the controller's registers switches.
pub const CORE: u8 = 0;
pub const CRB: u8 = 1;
pub const CRC: u8 = 2;
pub const CRD: u8 = 3;
pub const TAGS: [u8; 4] = [CORE, CRB, CRC, CRD];

/// The state's bytes that every record has, behind its tag: the core but for the chip ID.
const CORE_BYTES: usize = 16;
/// Where the group's bytes stand in a record.
const GROUP_AT: usize = 1 + CORE_BYTES;
/// Where the groups of CRB, CRC and CRD begin in a state; the last ends with it.
const GROUPS: [usize; 3] = [20, 180, 348];

/// The state's bytes of a tag's group; none where it is no tag.
fn group(tag: u8) -> Option<Range<usize>> {
    match tag {
        CORE => Some(STATE_BYTES..STATE_BYTES),
        CRB => Some(GROUPS[0]..GROUPS[1]),
        CRC => Some(GROUPS[1]..GROUPS[2]),
        CRD => Some(GROUPS[2]..STATE_BYTES),
        _ => None,
    }
}

/// The tag of an event's record. The event alone decides, whatever the state is and whatever comes of it.
pub fn tag_of(event: &Call) -> u8 {
    match event {
        Call::Frame { body, .. } => match body[..] {
            [_, _, _, channel, _, command, _, _, _, _] => tag_of_request(channel, command),
            _ => CORE,
        },
        Call::Completion { .. } | Call::Sample { .. } => CRB,
        Call::I2cCompletion { channel, .. } => tag_of_channel(*channel),
        _ => CORE,
    }
}

fn tag_of_request(channel: u8, command: u8) -> u8 {
    match (channel, command) {
        (0x00, 0x02) => CRB,
        (0x00, 0x04) => CRC,
        (0x00, 0x06) => CRD,
        _ => tag_of_channel(u32::from(channel)),
    }
}

/// The tag of the register that enables a channel with registers of its own.
pub fn tag_of_channel(channel: u32) -> u8 {
    match channel {
        0x01..=0x07 => CRB,
        0x08..=0x0F => CRC,
        0x10..=0x12 => CRD,
        _ => CORE,
    }
}

/// The record of an event with this tag, from the state before it.
pub fn record_of(before: &State, tag: u8) -> Vec<u8> {
    let state = bytes_of(before);
    let group = group(tag).expect("a tag");
    [&[tag], &state[..CORE_BYTES], &state[group]].concat()
}

/// The bytes that a record of this tag has; those of an unknown one are the tag alone.
pub fn length_of(tag: u8) -> usize {
    group(tag).map_or(1, |group| GROUP_AT + group.len())
}

/// What a step back makes of the state handed in, by the record at the front of a slot; none where it is damaged.
pub fn restored(slot: &[u8], handed_in: &State) -> Option<State> {
    let group = group(slot[0])?;
    let mut state = bytes_of(handed_in);
    let kept = GROUP_AT..GROUP_AT + group.len();
    state[..CORE_BYTES].copy_from_slice(&slot[1..GROUP_AT]);
    state[group].copy_from_slice(&slot[kept]);
    state_in(&state).filter(in_range)
}
