//! The fingerprint of a text, as crates/gsd_fingerprint/specs/Fingerprint.antt defines it, and names made
//! to have one and the same.

use std::collections::HashSet;

fn word(text: &[u8], at: usize) -> u64 {
    u64::from_le_bytes(text[at..at + 8].try_into().unwrap())
}

/// The state `h` after the word `w`.
fn mixed(h: u64, w: u64) -> u64 {
    let x = h ^ w;
    2_654_435_761 * (x % (1 << 32)) + 1_580_030_131 * (x >> 32)
}

/// The state `h` after `n` words, from `at` on, each `far` bytes behind the one before.
fn lane(far: usize, text: &[u8], at: usize, n: usize, h: u64) -> u64 {
    (0..n).fold(h, |h, i| mixed(h, word(text, at + far * i)))
}

/// The state after whole blocks of four words, each word in a lane of its own, and the length.
fn blocks(text: &[u8]) -> u64 {
    let lanes = [0, 8, 16, 24].map(|at| lane(32, text, at, text.len() / 32, 0));
    mixed(lanes.into_iter().fold(0, mixed), text.len() as u64)
}

/// Of a text of at least eight bytes.
fn fingerprint(text: &[u8]) -> u32 {
    let length = text.len();
    let words = lane(8, text, length / 32 * 32, length % 32 / 8, blocks(text));
    let last = mixed(words, word(text, length - 8));
    last as u32 ^ (last >> 32) as u32
}

/// So many names of 1,023 bytes that differ in two words near their end and have one fingerprint. The
/// first word is chosen, and the second so that both lead to one state.
pub fn shared(count: usize) -> Vec<Vec<u8>> {
    let plain = [b'x'; 1023];
    let at = plain.len() / 32 * 32;
    let before = blocks(&plain);
    let both = mixed(before, word(&plain, at)) ^ word(&plain, at + 8);
    let name = |n: usize| {
        let first: [u8; 8] = format!("{n:08}").into_bytes().try_into().unwrap();
        let second = mixed(before, u64::from_le_bytes(first)) ^ both;
        let mut name = plain.to_vec();
        name[at..at + 8].copy_from_slice(&first);
        name[at + 8..at + 16].copy_from_slice(&second.to_le_bytes());
        name
    };
    let names: Vec<_> = (0..).map(name).filter(|name| !name.contains(&0)).take(count).collect();
    assert!(names.iter().all(|name| fingerprint(name) == fingerprint(&plain)));
    assert_eq!(names.iter().collect::<HashSet<_>>().len(), count);
    names
}
