//! Makes a failing run short: as long as it still fails, calls are left out, then samples of its batches and calls of
//! those aside.

use crate::calls::Call;
use crate::harness::fewest::fewest;

pub fn shrunk(calls: &[Call], fails: impl Fn(&[Call]) -> bool) -> Vec<Call> {
    let mut best = fewest(calls, &fails);
    for at in 0..best.len() {
        let with = |call: Call| {
            let mut calls = best.clone();
            calls[at] = call;
            calls
        };
        let fewer = with_fewest(&best[at], &|call| fails(&with(call)));
        best = with(fewer);
    }
    best
}

/// A call with as few samples of its batch, or calls aside, as still fail.
fn with_fewest(call: &Call, fails: &dyn Fn(Call) -> bool) -> Call {
    match call {
        Call::Samples { list, room } => {
            let of = |list: &[_]| Call::Samples {
                list: list.to_vec(),
                room: *room,
            };
            of(&fewest(list, |list| fails(of(list))))
        }
        Call::Aside { calls } => {
            let of = |calls: &[_]| Call::Aside { calls: calls.to_vec() };
            of(&fewest(calls, |calls| fails(of(calls))))
        }
        _ => match call.on_copy() {
            Some(inner) => call.with_on_copy(with_fewest(inner, &|inner| fails(call.with_on_copy(inner)))),
            None => call.clone(),
        },
    }
}
