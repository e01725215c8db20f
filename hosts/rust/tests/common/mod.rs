//! The rules of the traces of document 01 and of changes 1 and 2, each alone in its sheet; and a monitor's bytes that hold another count.
#![allow(dead_code)]

use guard::MonitorBytes;

/// T: kind 2, P = 0[2,3], Q = 1[1,2], t = 10.
pub const T: [u8; 36] = [
    0x4C, 0x4F, 0x42, 1, 0, 2, 0, 0, 0, 0, 0, 0, 0, 1, 2, 1, 1, 0, 10, 0, 0, 0, 0, 1, 0, 2, 0, 3, 0, 0, 1, 1, 1, 0, 2, 0,
];

/// R: kind 1, {0, 1} all before 2, bounds [1,1]; the printed case's book.lob.
pub const R: [u8; 34] = [
    0x4C, 0x4F, 0x42, 1, 0, 0, 0, 0, 0, 0, 0, 0, 0, 1, 1, 1, 0, 2, 0, 0, 0, 0, 0, 2, 0, 1, 0, 1, 0, 1, 1, 0, 1, 0,
];

/// N: R as kind 0 with any.
pub const N: [u8; 34] = [
    0x4C, 0x4F, 0x42, 1, 0, 0, 0, 0, 0, 0, 0, 0, 0, 1, 0, 1, 0, 2, 0, 0, 0, 0, 1, 2, 0, 1, 0, 1, 0, 1, 1, 0, 1, 0,
];

/// In version 2. S: kind 2, P = {0[1,2], 1[1,1]} all shuffled, Q = 9[1,2], t = 10.
pub const S: [u8; 41] = [
    0x4C, 0x4F, 0x42, 2, 0, 0, 2, 0, 0, 0, 0, 0, 0, 1, 2, 1, 1, 0, 10, 0, 0, 0, 2, 2, 0, 1, 0, 2, 0, 1, 1, 0, 1, 0, 0, 1, 9, 1, 0, 2, 0,
];

/// A: P = 3[1,1] then {0[1,1], 1[2,2]} any, Q and t as in S.
pub const A: [u8; 48] = [
    0x4C, 0x4F, 0x42, 2, 0, 0, 2, 0, 0, 0, 0, 0, 0, 1, 2, 2, 1, 0, 10, 0, 0, 0, 0, 1, 3, 1, 0, 1, 0, 1, 2, 0, 1, 0, 1, 0, 1, 2, 0, 2, 0, 0, 1, 9, 1,
    0, 2, 0,
];

/// O: kind 1, {0[2,3], 1[1,2]} any shuffled before 2.
pub const O: [u8; 34] = [
    0x4C, 0x4F, 0x42, 2, 0, 0, 0, 0, 0, 0, 0, 0, 0, 1, 1, 1, 0, 2, 0, 0, 0, 0, 3, 2, 0, 2, 0, 3, 0, 1, 1, 0, 2, 0,
];

/// W: kind 1, {0[1,2], 1[2,2]} all shuffled, then {3[1,1], 4[2,2]} any shuffled, before 2.
pub const W: [u8; 46] = [
    0x4C, 0x4F, 0x42, 2, 0, 0, 0, 0, 0, 0, 0, 0, 0, 1, 1, 2, 0, 2, 0, 0, 0, 0, 2, 2, 0, 1, 0, 2, 0, 1, 2, 0, 2, 0, 3, 2, 3, 1, 0, 1, 0, 4, 2, 0, 2, 0,
];

/// Ranges without an upper end, v = 0. E: kind 2, P = 0[2,0], Q = 9[1,2], t = 10.
pub const E: [u8; 36] = [
    0x4C, 0x4F, 0x42, 2, 0, 0, 2, 0, 0, 0, 0, 0, 0, 1, 2, 1, 1, 0, 10, 0, 0, 0, 0, 1, 0, 2, 0, 0, 0, 0, 1, 9, 1, 0, 2, 0,
];

/// F: P = {0[1,0], 1[1,1]} all, Q = 9[1,0], t = 10.
pub const F: [u8; 41] = [
    0x4C, 0x4F, 0x42, 2, 0, 0, 2, 0, 0, 0, 0, 0, 0, 1, 2, 1, 1, 0, 10, 0, 0, 0, 0, 2, 0, 1, 0, 0, 0, 1, 1, 0, 1, 0, 0, 1, 9, 1, 0, 0, 0,
];

/// G: F with P shuffled.
pub const G: [u8; 41] = [
    0x4C, 0x4F, 0x42, 2, 0, 0, 2, 0, 0, 0, 0, 0, 0, 1, 2, 1, 1, 0, 10, 0, 0, 0, 2, 2, 0, 1, 0, 0, 0, 1, 1, 0, 1, 0, 0, 1, 9, 1, 0, 0, 0,
];

/// H: kind 1, 0[2,0], then {1[1,0], 3[2,2]} any shuffled, before 2.
pub const H: [u8; 41] = [
    0x4C, 0x4F, 0x42, 2, 0, 0, 0, 0, 0, 0, 0, 0, 0, 1, 1, 2, 0, 2, 0, 0, 0, 0, 0, 1, 0, 2, 0, 0, 0, 3, 2, 1, 1, 0, 0, 0, 3, 2, 0, 2, 0,
];

/// Where the number taken begins, four bytes: the guard's own, and known to these tests alone.
const TAKEN: usize = 512;

/// The bytes of a session that has taken so many.
pub fn with_taken(mut bytes: MonitorBytes, taken: u32) -> MonitorBytes {
    bytes[TAKEN..TAKEN + 4].copy_from_slice(&taken.to_le_bytes());
    bytes
}
