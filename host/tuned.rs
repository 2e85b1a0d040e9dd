// A baseline for timing: the desk as a Rust program tuned by hand. Big blocks in, ten digits read and written
// eight at a time, one answer buffer. Sound lists only, so it makes no test of ends or cursors.
mod tuned_lists;

use std::io::{self, Read, Write};
use tuned_lists::{Desk, LISTS, NODES, NONE};

const BLOCK: usize = 1 << 16;
const KEPT: usize = 11;
const ONES: u64 = 0x0101_0101_0101_0101;
const HIGH: u64 = 0x80 * ONES;
const NODE: u8 = 1;
const OTHER: u8 = 2;
const LIST: u8 = 4;

/// What each command uses; nothing for those that are not there.
const USES: [u8; 256] = {
    let mut uses = [0; 256];
    let mut command = 0x01;
    while command < 0x14 {
        uses[command] = match command {
            0x01 | 0x02 | 0x04 | 0x10 | 0x11 => LIST | NODE,
            0x05..=0x08 | 0x0c => LIST | OTHER,
            _ => LIST,
        };
        command += 1;
    }
    uses
};

/// The value of a digit, 16 if it is none.
const DIGIT: [u8; 256] = {
    let mut digit = [16; 256];
    let mut value = 0;
    while value < 16 {
        digit[b"0123456789abcdef"[value] as usize] = value as u8;
        value += 1;
    }
    digit
};

/// The value of eight lower-case digits. The second part is false if one is no digit.
fn eight(text: [u8; 8]) -> (u32, bool) {
    let x = u64::from_be_bytes(text);
    let low = x & !HIGH;
    let digit = (low + 0x50 * ONES) & !(low + 0x46 * ONES);
    let letter = (low + 0x1f * ONES) & !(low + 0x19 * ONES) & HIGH;
    let good = (digit | letter) & !x & HIGH == HIGH;
    let mut v = (low & (0x0f * ONES)) + (letter >> 7) * 9;
    v = (v | v >> 4) & 0x00ff_00ff_00ff_00ff;
    v = (v | v >> 8) & 0x0000_ffff_0000_ffff;
    ((v | v >> 16) as u32, good)
}

/// Eight digits of a value.
fn digits(value: u32) -> [u8; 8] {
    let mut x = value as u64;
    x = (x & 0xffff_0000) << 16 | x & 0xffff;
    x = (x & 0x0000_ff00_0000_ff00) << 8 | x & 0x0000_00ff_0000_00ff;
    x = (x & 0x00f0_00f0_00f0_00f0) << 4 | x & 0x000f_000f_000f_000f;
    let letter = (x + 0x06 * ONES) >> 4 & ONES;
    (x + 0x30 * ONES + letter * 0x27).to_be_bytes()
}

fn put(out: &mut [u8; 11], refusal: u32, shown: u32, other: u32) {
    out[0] = b'0';
    out[1] = b"0123456789abcdef"[refusal as usize & 15];
    out[2..10].copy_from_slice(&digits(shown << 16 | other));
    out[10] = b'\n';
}

/// Runs one line of ten digits; false, with nothing done, for a line that is refused 11.
fn line(desk: &mut Desk, text: &[u8; 11], out: &mut [u8; 11]) -> bool {
    let (front, good) = eight(text[..8].try_into().unwrap());
    let (high, low) = (DIGIT[text[8] as usize], DIGIT[text[9] as usize]);
    if !good || (high | low) > 15 {
        return false;
    }
    let (command, at) = (front >> 24, (front >> 16 & 0xff) as usize);
    let other = (front >> 8 & 0xff) as usize;
    let node = (front & 0xff) << 8 | (high as u32) << 4 | low as u32;
    if command == 0x14 && front << 8 | node == 0 {
        let (on, stranded) = desk.audit();
        put(out, 0, on, stranded);
        return true;
    }
    let uses = USES[command as usize];
    if uses == 0 || node != 0 && uses & NODE == 0 || other != 0 && uses & OTHER == 0 {
        return false;
    }
    if at >= LISTS || other >= LISTS {
        put(out, 2, NONE, NONE);
        return true;
    }
    let refusal = refusal(desk, command, at, other, node, uses);
    let handed = if refusal == 0 { desk.edit(command, at, other, node) } else { NONE };
    put(out, refusal, desk.shown(at), handed);
    true
}

fn refusal(desk: &Desk, command: u32, at: usize, other: usize, node: u32, uses: u8) -> u32 {
    if uses & OTHER != 0 {
        if at == other {
            return 3;
        }
        return if command >= 0x07 && !desk.is_empty(other) { 6 } else { 0 };
    }
    if uses & NODE != 0 {
        if node >= NODES {
            return 7;
        }
        if command == 0x04 && desk.at_null(at) {
            return 8;
        }
        return if desk.is_linked(node) { 9 } else { 0 };
    }
    match command {
        0x03 if desk.at_null(at) => 8,
        0x12 | 0x13 if desk.is_empty(at) => 8,
        _ => 0,
    }
}

/// Runs the lines that are whole; gives how much was read and how much was written.
fn block(desk: &mut Desk, input: &[u8], answers: &mut [u8]) -> (usize, usize) {
    let (mut read, mut written) = (0, 0);
    loop {
        let rest = &input[read..];
        let out = &mut answers[written..written + 11];
        let out: &mut [u8; 11] = out.try_into().unwrap();
        if rest.len() >= 11 && rest[10] == b'\n' && line(desk, rest[..11].try_into().unwrap(), out) {
            read += 11;
        } else if let Some(length) = rest.iter().position(|&byte| byte == b'\n') {
            *out = *b"0bffffffff\n";
            read += length + 1;
        } else {
            return (read, written);
        }
        written += 11;
    }
}

fn main() -> io::Result<()> {
    let mut input = io::stdin().lock();
    let mut output = io::stdout().lock();
    let mut desk = Desk::new();
    let mut bytes = vec![0; KEPT + BLOCK + 1];
    let mut answers = vec![0; 11 * (BLOCK + 2)];
    let mut kept = 0;
    loop {
        let count = input.read(&mut bytes[kept..kept + BLOCK])?;
        let mut end = kept + count;
        if count == 0 && kept > 0 {
            bytes[end] = b'\n';
            end += 1;
        }
        let (read, written) = block(&mut desk, &bytes[..end], &mut answers);
        output.write_all(&answers[..written])?;
        if count == 0 {
            return output.flush();
        }
        // Of a line that is not whole, eleven bytes are enough to know that it is too long.
        kept = (end - read).min(KEPT);
        bytes.copy_within(read..read + kept, 0);
    }
}
