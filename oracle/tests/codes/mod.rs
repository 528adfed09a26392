//! The codes of entries, typed from document 01 and not taken from the judge. No test has a use for each.

#![allow(dead_code)]

pub const PUSH: u64 = 0;
pub const FORCE_PUSH: u64 = 1;
pub const POP: u64 = 2;
pub const LEN: u64 = 3;
pub const IS_EMPTY: u64 = 4;
pub const IS_FULL: u64 = 5;
pub const CLOSE: u64 = 6;
pub const IS_CLOSED: u64 = 7;
pub const ACT: u64 = 8;
pub const FAIL: u64 = 9;
