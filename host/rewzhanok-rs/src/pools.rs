//! Walks and audits xor-linked lists in slices of the caller's own: a safe wrapper of the proved C entries for pools.
//! Words, names, ends, marks and refusals are described in include/rewzhanok_pools.h.
//!
//! ```
//! use rewzhanok::pools::{audit, name, walk};
//! // Nodes 0, 1, 2 are on a list, and node 3 is unlinked.
//! let (words, mut marks) = ([4, 4, 4, 1], [0; 4]);
//! assert_eq!(walk(&words, name(0), name(2), &mut marks), Ok(3));
//! assert_eq!(marks, [1, 1, 1, 0]);
//! let counted = audit(&words, &[name(0)], &[name(2)], &mut marks).unwrap();
//! assert_eq!((counted.on_lists, counted.stranded), (3, 0));
//! ```

use std::fmt;

/// The most nodes of a pool.
pub const MOST_NODES: usize = 1_000_000;

/// The most lists of an audit.
pub const MOST_LISTS: usize = 64;

const WALK_NUMBERS: usize = 1;
const AUDIT_NUMBERS: usize = 4;

extern "C" {
    fn rewzhanok_walk(
        words: *const u32,
        words_len: usize,
        head: u32,
        tail: u32,
        marks: *mut u8,
        marks_len: usize,
        numbers: *mut u32,
        numbers_len: usize,
    ) -> u32;

    fn rewzhanok_audit(
        words: *const u32,
        words_len: usize,
        heads: *const u32,
        heads_len: usize,
        tails: *const u32,
        tails_len: usize,
        marks: *mut u8,
        marks_len: usize,
        numbers: *mut u32,
        numbers_len: usize,
    ) -> u32;
}

/// Why a call was refused, and what it tells all the same.
#[derive(Clone, Copy, Debug, PartialEq, Eq)]
pub enum Refused {
    /// Refusal 1: too many nodes or lists, or not one mark a node. No mark was written.
    Size,
    /// Refusal 4: the ends of a list do not hold; of an audit, the lowest such list, else 0. No mark was written.
    EndsDoNotHold(u32),
    /// Refusal 10: a list's chain has a fault. Of a walk, how many nodes it stood on; of an audit, the lowest such list. Every mark is 0.
    NoListing(u32),
}

impl fmt::Display for Refused {
    fn fmt(&self, f: &mut fmt::Formatter<'_>) -> fmt::Result {
        f.write_str(match self {
            Refused::Size => "refusal 1: too many nodes or lists, or not one mark a node",
            Refused::EndsDoNotHold(_) => "refusal 4: the ends of a list do not hold",
            Refused::NoListing(_) => "refusal 10: the chain of a list has a fault",
        })
    }
}

impl std::error::Error for Refused {}

/// What an audit counts.
#[derive(Clone, Copy, Debug, PartialEq, Eq)]
pub struct Audited {
    pub on_lists: u32,
    /// Linked, and on no list.
    pub stranded: u32,
}

/// The name of a node; null, which is 0, for a number so great that its name is no word.
pub fn name(node: u32) -> u32 {
    node.checked_add(1).and_then(|next| next.checked_mul(2)).unwrap_or(0)
}

/// The number that a call returned, with the first of its numbers. 12 cannot be: there is room.
fn judged(answer: u32, first: u32) -> Result<(), Refused> {
    match answer {
        0 => Ok(()),
        1 => Err(Refused::Size),
        4 => Err(Refused::EndsDoNotHold(first)),
        10 => Err(Refused::NoListing(first)),
        other => unreachable!("the entry answers {other}"),
    }
}

/// Walks the list with these ends, and tells how many nodes are on it. Done, their marks are 1 and all others 0.
pub fn walk(words: &[u32], head: u32, tail: u32, marks: &mut [u8]) -> Result<u32, Refused> {
    let mut numbers = [0; WALK_NUMBERS];
    // Sound: all are slices, so they have the lengths given and what is written overlaps nothing; the entry stays inside them.
    let answer = unsafe {
        rewzhanok_walk(
            words.as_ptr(),
            words.len(),
            head,
            tail,
            marks.as_mut_ptr(),
            marks.len(),
            numbers.as_mut_ptr(),
            numbers.len(),
        )
    };
    judged(answer, numbers[0]).map(|()| numbers[0])
}

/// Audits the lists with these heads and tails, as many as there are of both. Done, the mark of each node on list k is k + 1, and
/// that of a node on no list is 0.
pub fn audit(words: &[u32], heads: &[u32], tails: &[u32], marks: &mut [u8]) -> Result<Audited, Refused> {
    let mut numbers = [0; AUDIT_NUMBERS];
    // Sound: as of a walk. Slices that are only read may be the same.
    let answer = unsafe {
        rewzhanok_audit(
            words.as_ptr(),
            words.len(),
            heads.as_ptr(),
            heads.len(),
            tails.as_ptr(),
            tails.len(),
            marks.as_mut_ptr(),
            marks.len(),
            numbers.as_mut_ptr(),
            numbers.len(),
        )
    };
    let [list, on_lists, stranded, _] = numbers;
    judged(answer, list).map(|()| Audited { on_lists, stranded })
}
