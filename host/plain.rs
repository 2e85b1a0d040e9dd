// A baseline for timing: the desk as an ordinary Rust program, over index words in a vector.
// Lines on standard input, answers on standard output. Sound lists only, so it makes no test of ends or cursors.
mod plain_lists;

use plain_lists::{name, number, Desk, List, LISTS, NODES, NONE, UNLINKED};
use std::io::{self, BufRead, BufWriter, Write};

struct Line {
    command: u8,
    list: usize,
    other: usize,
    node: usize,
}

fn uses_node(command: u8) -> bool {
    matches!(command, 0x01 | 0x02 | 0x04 | 0x10 | 0x11)
}

fn uses_other(command: u8) -> bool {
    matches!(command, 0x05..=0x08 | 0x0c)
}

/// None for a line that is refused 11.
fn parse(line: &[u8]) -> Option<Line> {
    if line.len() != 10 || !line.iter().all(|b| matches!(b, b'0'..=b'9' | b'a'..=b'f')) {
        return None;
    }
    let value = u64::from_str_radix(std::str::from_utf8(line).ok()?, 16).ok()?;
    let command = (value >> 32) as u8;
    let list = (value >> 24 & 0xff) as usize;
    let other = (value >> 16 & 0xff) as usize;
    let node = (value & 0xffff) as usize;
    if !(0x01..=0x14).contains(&command)
        || node != 0 && !uses_node(command)
        || other != 0 && !uses_other(command)
        || list != 0 && command == 0x14
    {
        return None;
    }
    Some(Line { command, list, other, node })
}

impl Desk {
    /// The refusal number, 0 if the command is accepted.
    fn refusal(&self, line: &Line) -> u32 {
        let other = uses_other(line.command);
        if line.list >= LISTS || other && line.other >= LISTS {
            return 2;
        }
        let list = &self.lists[line.list];
        match line.command {
            _ if other && line.list == line.other => 3,
            0x07 | 0x08 | 0x0c if self.lists[line.other].head != 0 => 6,
            command if uses_node(command) && line.node >= NODES => 7,
            0x03 | 0x04 if list.cursor.current == 0 => 8,
            0x12 | 0x13 if list.head == 0 => 8,
            command if uses_node(command) && self.words[line.node] != UNLINKED => 9,
            _ => 0,
        }
    }

    /// Makes an accepted edit and gives the node that it hands out.
    fn edit(&mut self, line: &Line) -> u32 {
        let (at, other, new) = (line.list, line.other, name(line.node));
        if matches!(line.command, 0x0b | 0x0f..=0x13) {
            self.lists[at].cursor.current = 0;
        }
        if uses_node(line.command) {
            self.words[line.node] = 0;
        }
        let mut out = NONE;
        match line.command {
            0x01 | 0x10 => self.put_after(at, new, new),
            0x02 | 0x11 => self.put_before(at, new, new),
            0x03 => return self.remove(at),
            0x04 => return self.replace(at, new),
            0x05 => self.splice(at, other, true),
            0x06 => self.splice(at, other, false),
            0x07 => self.split_after(at, other),
            0x08 => self.split_before(at, other),
            0x09 => self.move_next(at),
            0x0a => self.move_prev(at),
            0x0b => self.reverse(at),
            0x0c => self.take(at, other),
            0x0d => self.clear(at),
            0x0e => self.lists[at] = List::default(),
            0x12 => out = self.pop(at, true),
            0x13 => out = self.pop(at, false),
            _ => {}
        }
        if matches!(line.command, 0x0b | 0x0f..=0x13) {
            self.null_cursor(at);
        }
        out
    }

    fn answer(&mut self, line: &[u8]) -> (u32, u32, u32) {
        let Some(line) = parse(line) else {
            return (11, NONE, NONE);
        };
        if line.command == 0x14 {
            let (on, stranded) = self.audit();
            return (0, on, stranded);
        }
        match self.refusal(&line) {
            2 => (2, NONE, NONE),
            0 => {
                let out = self.edit(&line);
                (0, number(self.lists[line.list].cursor.current), out)
            }
            refusal => (refusal, number(self.lists[line.list].cursor.current), NONE),
        }
    }
}

fn main() -> io::Result<()> {
    let mut input = io::stdin().lock();
    let mut output = BufWriter::new(io::stdout().lock());
    let mut desk = Desk::new();
    let mut line = Vec::new();
    while input.read_until(b'\n', &mut line)? > 0 {
        if line.last() == Some(&b'\n') {
            line.pop();
        }
        let (refusal, shown, out) = desk.answer(&line);
        writeln!(output, "{refusal:02x}{shown:04x}{out:04x}")?;
        line.clear();
    }
    output.flush()
}
