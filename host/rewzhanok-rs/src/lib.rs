//! Runs command lines on a desk of xor-linked lists: a safe wrapper of the proved C entry.
//! The lines, the answers and the refusals are described in include/rewzhanok.h.
//!
//! ```
//! let answers = rewzhanok::run(b"1100000005\n0900000000\n").unwrap();
//! assert_eq!(answers, b"00ffffffff\n000005ffff\n");
//! ```

pub mod pools;

use std::fmt;

/// The greatest number of command bytes that one call takes.
pub const MOST_COMMANDS: usize = 65_536;

/// The bytes of one answer, with its line feed.
pub const ANSWER: usize = 11;

const REFUSED: u32 = u32::MAX;

extern "C" {
    fn rewzhanok_run(commands: *const u8, commands_len: usize, answers: *mut u8, answers_len: usize) -> u32;
}

/// Refusal 12: the input is longer than [`MOST_COMMANDS`], or the room for the answers is too small. No line was run.
#[derive(Clone, Copy, Debug, PartialEq, Eq)]
pub struct Refused;

impl fmt::Display for Refused {
    fn fmt(&self, f: &mut fmt::Formatter<'_>) -> fmt::Result {
        f.write_str("refusal 12: too many command bytes, or too little room for the answers")
    }
}

impl std::error::Error for Refused {}

/// How many lines there are: one for each line feed, and one more if the last byte is not a line feed.
pub fn lines(commands: &[u8]) -> usize {
    let ended = commands.iter().filter(|&&byte| byte == b'\n').count();
    ended + matches!(commands.last(), Some(&byte) if byte != b'\n') as usize
}

/// Runs the lines on a fresh desk and writes their answers to the front of `answers`. Gives the number of bytes
/// written; the bytes after them, and under refusal all bytes, stay as they were.
pub fn run_into(commands: &[u8], answers: &mut [u8]) -> Result<usize, Refused> {
    // Sound: both parts are slices, so they have the lengths given and do not overlap, and the entry stays inside them.
    let got = unsafe { rewzhanok_run(commands.as_ptr(), commands.len(), answers.as_mut_ptr(), answers.len()) };
    match got {
        REFUSED => Err(Refused),
        written => Ok(written as usize),
    }
}

/// Runs the lines on a fresh desk and gives their answers.
pub fn run(commands: &[u8]) -> Result<Vec<u8>, Refused> {
    if commands.len() > MOST_COMMANDS {
        return Err(Refused);
    }
    let mut answers = vec![0; ANSWER * lines(commands)];
    let written = run_into(commands, &mut answers)?;
    answers.truncate(written);
    Ok(answers)
}

#[cfg(test)]
mod tests {
    use super::*;

    const RUN: &str = "1100000005 1100000007 0900000000 0100000009 0100000007 \
                       0300000000 0700010000 1400000000 0e01000000 1400000000";
    const ANSWERS: &str = "00ffffffff 00ffffffff 000005ffff 000005ffff 090005ffff \
                           0000090005 000009ffff 0000020000 00ffffffff 0000010001";

    fn text(words: &str) -> Vec<u8> {
        words.split_whitespace().flat_map(|word| [word.as_bytes(), b"\n"].concat()).collect()
    }

    #[test]
    fn whole_run() {
        assert_eq!(run(&text(RUN)), Ok(text(ANSWERS)));
    }

    #[test]
    fn each_call_is_fresh() {
        assert_eq!(run(&text(RUN)), Ok(text(ANSWERS)));
        assert_eq!(run(b"1400000000\n"), Ok(b"0000000000\n".to_vec()));
    }

    #[test]
    fn nothing() {
        assert_eq!(run(b""), Ok(vec![]));
        assert_eq!(run_into(b"", &mut []), Ok(0));
    }

    #[test]
    fn too_long() {
        assert_eq!(run(&vec![b'\n'; MOST_COMMANDS]).map(|answers| answers.len()), Ok(ANSWER * MOST_COMMANDS));
        assert_eq!(run(&vec![b'\n'; MOST_COMMANDS + 1]), Err(Refused));
        assert_eq!(run_into(&vec![b'0'; MOST_COMMANDS + 1], &mut [7; 100]), Err(Refused));
    }

    #[test]
    fn line_that_is_not_ended() {
        assert_eq!(run(b"1100000005\n0900000000"), Ok(b"00ffffffff\n000005ffff\n".to_vec()));
        assert_eq!(lines(b"1100000005\n0900000000"), 2);
        assert_eq!(lines(b"\n\n"), 2);
    }

    #[test]
    fn room() {
        let mut answers = [7; 23];
        assert_eq!(run_into(b"\n\n", &mut answers[..21]), Err(Refused));
        assert_eq!(answers, [7; 23]);
        assert_eq!(run_into(b"\n\n", &mut answers), Ok(22));
        assert_eq!(&answers, b"0bffffffff\n0bffffffff\n\x07");
    }
}
