//! Buffers to lend to a call: filled with a pattern, with more of it before and after the lent part,
//! so that a stray byte shows wherever it lands.

use std::sync::LazyLock;

use crate::answers::code;
use crate::draw::Draw;
use crate::lists::RECORD;

/// Bytes before the lent part, an odd number so that it is not aligned, and after it.
const GUARD: usize = 61;
/// The longest list has 1,081 records.
const LONGEST: usize = 1_090 * RECORD;

static PATTERN: LazyLock<Vec<u8>> = LazyLock::new(|| Draw::new(165).bytes(LONGEST));

pub struct LentBuffer {
    bytes: Vec<u8>,
}

impl LentBuffer {
    /// A buffer of this length that holds the pattern.
    pub fn new(length: usize) -> LentBuffer {
        LentBuffer::holding(&PATTERN[..length])
    }

    /// A buffer that holds these bytes between its guards.
    pub fn holding(contents: &[u8]) -> LentBuffer {
        let guard = &PATTERN[..GUARD];
        LentBuffer {
            bytes: [guard, contents, guard].concat(),
        }
    }

    /// The part to lend.
    pub fn lent(&mut self) -> &mut [u8] {
        let end = self.bytes.len() - GUARD;
        &mut self.bytes[GUARD..end]
    }

    /// What the lent part holds now, after making sure that the guards were left alone.
    pub fn contents(&self) -> &[u8] {
        let (before, rest) = self.bytes.split_at(GUARD);
        let (contents, after) = rest.split_at(rest.len() - GUARD);
        let guard = &PATTERN[..GUARD];
        assert!(before == guard, "bytes before the buffer changed");
        assert!(after == guard, "bytes after the buffer changed");
        contents
    }

    /// The filled start of a buffer that held the pattern, after making sure that the rest still
    /// does.
    pub fn filled(&self, filled: usize) -> Vec<u8> {
        let contents = self.contents();
        assert!(
            contents[filled..] == PATTERN[filled..contents.len()],
            "bytes past the answer changed"
        );
        contents[..filled].to_vec()
    }
}

/// Scratch to lend: numbers between guards.
pub struct LentScratch {
    numbers: Vec<u32>,
}

/// Stands in the guards and in scratch that wasn't used yet.
const UNUSED: u32 = 0xa5a5_5a5a;
const NUMBERS_GUARD: usize = 7;

impl LentScratch {
    pub fn new(length: usize) -> LentScratch {
        LentScratch {
            numbers: vec![UNUSED; length + 2 * NUMBERS_GUARD],
        }
    }

    pub fn lent(&mut self) -> &mut [u32] {
        let end = self.numbers.len() - NUMBERS_GUARD;
        &mut self.numbers[NUMBERS_GUARD..end]
    }

    /// Makes sure that only a check that answered 0 or 7 used the scratch, and none the guards.
    pub fn assert_kept(mut self, code: u64) {
        if code == code::DONE || code == code::NOT_SOUND {
            self.lent().fill(UNUSED);
        }
        let kept = self.numbers.iter().all(|number| *number == UNUSED);
        assert!(kept, "scratch changed with {code}");
    }
}

#[cfg(test)]
mod tests {
    use super::*;

    /// Changes one byte of a buffer of 20 bytes, guards included, and says that 10 were filled.
    fn change(at: usize) {
        let mut buffer = LentBuffer::new(20);
        buffer.lent()[..10].fill(7);
        buffer.bytes[at] ^= 1;
        assert_eq!(buffer.filled(10), [7; 10]);
    }

    #[test]
    #[should_panic(expected = "bytes before the buffer changed")]
    fn stray_byte_before() {
        change(GUARD - 1);
    }

    #[test]
    #[should_panic(expected = "bytes past the answer changed")]
    fn stray_byte_past_the_answer() {
        change(GUARD + 10);
    }

    #[test]
    #[should_panic(expected = "bytes after the buffer changed")]
    fn stray_byte_after() {
        change(GUARD + 20);
    }

    #[test]
    fn filled_and_kept() {
        let mut buffer = LentBuffer::new(20);
        buffer.lent()[..10].fill(7);
        assert_eq!(buffer.filled(10), [7; 10]);
        assert_eq!(LentBuffer::holding(&[1, 2, 3]).contents(), [1, 2, 3]);
    }

    #[test]
    #[should_panic(expected = "scratch changed with 14")]
    fn scratch_changed_by_a_refused_check() {
        let mut scratch = LentScratch::new(3);
        scratch.lent()[2] = 0;
        scratch.assert_kept(14);
    }

    #[test]
    #[should_panic(expected = "scratch changed with 0")]
    fn number_changed_after_the_scratch() {
        let mut scratch = LentScratch::new(3);
        scratch.numbers[NUMBERS_GUARD + 3] = 0;
        scratch.assert_kept(0);
    }

    #[test]
    fn scratch_used_by_a_check() {
        let mut scratch = LentScratch::new(3);
        scratch.lent().fill(1);
        scratch.assert_kept(7);
    }
}
