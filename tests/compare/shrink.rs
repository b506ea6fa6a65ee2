//! Makes a failing stream short: as long as it still fails, calls and cable bytes are left out.

use crate::calls::Call;

pub fn shrunk(calls: &[Call], fails: impl Fn(&[Call]) -> bool) -> Vec<Call> {
    let mut best = calls.to_vec();
    loop {
        match smaller(&best).into_iter().find(|calls| fails(calls)) {
            Some(calls) => best = calls,
            None => return best,
        }
    }
}

/// The stream with something left out, the largest parts first.
fn smaller(calls: &[Call]) -> Vec<Vec<Call>> {
    let mut all = Vec::new();
    let mut width = (calls.len() + 1) / 2;
    while width > 0 {
        for at in (0..calls.len()).step_by(width) {
            let end = calls.len().min(at + width);
            all.push([&calls[..at], &calls[end..]].concat());
        }
        width /= 2;
    }
    for (at, call) in calls.iter().enumerate() {
        for shorter in shorter(call) {
            let mut calls = calls.to_vec();
            calls[at] = shorter;
            all.push(calls);
        }
    }
    all
}

/// A reading of fewer cable bytes, or from a later bit.
fn shorter(call: &Call) -> Vec<Call> {
    let mut all = Vec::new();
    if let Call::Read { input, start, room } = call {
        let (start, room) = (*start, *room);
        let length = input.bytes.len();
        for cut in [length / 2, length / 4, 1] {
            if input.zeros > 0 || cut == 0 {
                continue;
            }
            let back = input.bytes[..length - cut].to_vec();
            if start <= 8 * back.len() {
                all.push(Call::Read {
                    input: back.into(),
                    start,
                    room,
                });
            }
            if start + 8 * cut <= 8 * length {
                let front = input.bytes[cut..].to_vec();
                all.push(Call::Read {
                    input: front.into(),
                    start,
                    room,
                });
            }
        }
        if start % 8 < 7 && start < 8 * length {
            all.push(Call::Read {
                input: input.clone(),
                start: start + 1,
                room,
            });
        }
    }
    all
}
