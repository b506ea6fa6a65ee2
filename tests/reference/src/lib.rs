//! An independent implementation of the slow control adapter, written from
//! document 01 and change requests 2026-01 to 2026-03, 2026-05 and 2026-06:
//! its link, its events with step back through a journal of either size, its
//! bench listing, and the control room's end.

#![forbid(unsafe_code)]

pub mod adapter;
pub mod control;
pub mod link;
pub mod listing;
pub mod numbers;
mod request;
mod state;
pub mod swift;
