// The lists of the tuned baseline. A node's name is its number plus 1 and null is 0, whose word is a dump that
// nothing reads, so that a neighbour need not be tested before it is mended.

pub const NODES: u32 = 1024;
pub const LISTS: usize = 8;
pub const NONE: u32 = 0xffff;
const UNLINKED: u32 = u32::MAX;
const SLOTS: usize = 2048;

/// The ends and the cursor. At null, `prev` is the tail and `next` the head.
#[derive(Clone, Copy)]
struct List {
    head: u32,
    tail: u32,
    current: u32,
    prev: u32,
    next: u32,
}

const EMPTY: List = List { head: 0, tail: 0, current: 0, prev: 0, next: 0 };

/// A list with these ends and the cursor at null.
fn whole(head: u32, tail: u32) -> List {
    List { head, tail, current: 0, prev: tail, next: head }
}

pub struct Desk {
    words: [u32; SLOTS],
    lists: [List; LISTS],
}

impl Desk {
    pub fn new() -> Desk {
        Desk { words: [UNLINKED; SLOTS], lists: [EMPTY; LISTS] }
    }

    #[inline(always)]
    fn word(&mut self, name: u32) -> &mut u32 {
        &mut self.words[name as usize & (SLOTS - 1)]
    }

    #[inline(always)]
    fn list(&mut self, at: usize) -> &mut List {
        &mut self.lists[at & (LISTS - 1)]
    }

    pub fn is_empty(&self, at: usize) -> bool {
        self.lists[at & (LISTS - 1)].head == 0
    }

    pub fn at_null(&self, at: usize) -> bool {
        self.lists[at & (LISTS - 1)].current == 0
    }

    pub fn is_linked(&self, node: u32) -> bool {
        self.words[(node as usize + 1) & (SLOTS - 1)] != UNLINKED
    }

    /// The number of the node under the cursor; null wraps round to ffff.
    #[inline(always)]
    pub fn shown(&self, at: usize) -> u32 {
        self.lists[at & (LISTS - 1)].current.wrapping_sub(1) & NONE
    }

    /// Puts a chain between two neighbours and mends the ends.
    #[inline(always)]
    fn put(&mut self, list: &mut List, start: u32, end: u32, prev: u32, next: u32) {
        *self.word(prev) ^= next ^ start;
        *self.word(next) ^= prev ^ end;
        *self.word(start) ^= prev;
        *self.word(end) ^= next;
        list.head = if prev == 0 { start } else { list.head };
        list.tail = if next == 0 { end } else { list.tail };
    }

    fn put_after(&mut self, at: usize, start: u32, end: u32) {
        let mut list = *self.list(at);
        let List { current, next, .. } = list;
        self.put(&mut list, start, end, current, next);
        list.next = start;
        list.prev = if list.current == 0 { list.tail } else { list.prev };
        *self.list(at) = list;
    }

    fn put_before(&mut self, at: usize, start: u32, end: u32) {
        let mut list = *self.list(at);
        let List { current, prev, .. } = list;
        self.put(&mut list, start, end, prev, current);
        list.prev = end;
        list.next = if list.current == 0 { list.head } else { list.next };
        *self.list(at) = list;
    }

    /// Takes a node out from between its neighbours; gives its number.
    #[inline(always)]
    fn cut_out(&mut self, list: &mut List, name: u32, prev: u32, next: u32) -> u32 {
        *self.word(prev) ^= name ^ next;
        *self.word(next) ^= name ^ prev;
        *self.word(name) = UNLINKED;
        list.head = if prev == 0 { next } else { list.head };
        list.tail = if next == 0 { prev } else { list.tail };
        name - 1
    }

    fn remove(&mut self, at: usize) -> u32 {
        let mut list = *self.list(at);
        let List { current, prev, next, .. } = list;
        let out = self.cut_out(&mut list, current, prev, next);
        if list.next == 0 {
            list = whole(list.head, list.tail);
        } else {
            list.current = list.next;
            list.next = *self.word(list.current) ^ list.prev;
        }
        *self.list(at) = list;
        out
    }

    fn replace(&mut self, at: usize, new: u32) -> u32 {
        let mut list = *self.list(at);
        let old = list.current;
        *self.word(old) = UNLINKED;
        *self.word(new) = list.prev ^ list.next;
        *self.word(list.prev) ^= old ^ new;
        *self.word(list.next) ^= old ^ new;
        list.head = if list.prev == 0 { new } else { list.head };
        list.tail = if list.next == 0 { new } else { list.tail };
        list.current = new;
        *self.list(at) = list;
        old - 1
    }

    fn splice(&mut self, command: u32, at: usize, other: usize) {
        let part = *self.list(other);
        *self.list(other) = EMPTY;
        if part.head != 0 && command == 0x05 {
            self.put_after(at, part.head, part.tail);
        } else if part.head != 0 {
            self.put_before(at, part.head, part.tail);
        }
    }

    fn split_after(&mut self, at: usize, other: usize) {
        let mut list = *self.list(at);
        if list.current == 0 {
            *self.list(other) = list;
            *self.list(at) = EMPTY;
            return;
        }
        let tail = if list.next == 0 { 0 } else { list.tail };
        *self.list(other) = whole(list.next, tail);
        *self.word(list.next) ^= list.current;
        *self.word(list.current) = list.prev;
        list.tail = list.current;
        list.next = 0;
        *self.list(at) = list;
    }

    fn split_before(&mut self, at: usize, other: usize) {
        let mut list = *self.list(at);
        if list.current == 0 {
            *self.list(other) = list;
            *self.list(at) = EMPTY;
            return;
        }
        let head = if list.prev == 0 { 0 } else { list.head };
        *self.list(other) = whole(head, list.prev);
        *self.word(list.prev) ^= list.current;
        *self.word(list.current) = list.next;
        list.head = list.current;
        list.prev = 0;
        *self.list(at) = list;
    }

    fn move_next(&mut self, at: usize) {
        let List { head, tail, current, next, .. } = *self.list(at);
        let beyond = *self.word(next) ^ current;
        let list = self.list(at);
        list.current = next;
        list.prev = if next == 0 { tail } else { current };
        list.next = if next == 0 { head } else { beyond };
    }

    fn move_prev(&mut self, at: usize) {
        let List { head, tail, current, prev, .. } = *self.list(at);
        let beyond = *self.word(prev) ^ current;
        let list = self.list(at);
        list.current = prev;
        list.next = if prev == 0 { head } else { current };
        list.prev = if prev == 0 { tail } else { beyond };
    }

    fn clear(&mut self, at: usize) {
        let (mut prev, mut name) = (0, self.list(at).head);
        while name != 0 {
            let next = *self.word(name) ^ prev;
            *self.word(name) = UNLINKED;
            (prev, name) = (name, next);
        }
        *self.list(at) = EMPTY;
    }

    fn pop(&mut self, at: usize, front: bool) -> u32 {
        let mut list = *self.list(at);
        let name = if front { list.head } else { list.tail };
        let inner = *self.word(name);
        let out = if front {
            self.cut_out(&mut list, name, 0, inner)
        } else {
            self.cut_out(&mut list, name, inner, 0)
        };
        *self.list(at) = whole(list.head, list.tail);
        out
    }

    /// Nodes on lists, by walking them, and linked nodes on no list.
    pub fn audit(&mut self) -> (u32, u32) {
        let mut on = 0;
        for at in 0..LISTS {
            let (mut prev, mut name) = (0, self.lists[at].head);
            while name != 0 {
                on += 1;
                (prev, name) = (name, *self.word(name) ^ prev);
            }
        }
        let pool = &self.words[1..=NODES as usize];
        let linked = pool.iter().map(|&word| (word != UNLINKED) as u32).sum::<u32>();
        (on, linked - on)
    }

    /// Makes an accepted edit; gives the number of the node that it hands out.
    pub fn edit(&mut self, command: u32, at: usize, other: usize, node: u32) -> u32 {
        let (new, List { head, tail, .. }) = (node + 1, *self.list(at));
        match command {
            0x01 | 0x02 | 0x10 | 0x11 => {
                *self.word(new) = 0;
                if command >= 0x10 {
                    *self.list(at) = whole(head, tail);
                }
                if command & 1 == (command < 0x10) as u32 {
                    self.put_after(at, new, new);
                } else {
                    self.put_before(at, new, new);
                }
            }
            0x03 => return self.remove(at),
            0x04 => return self.replace(at, new),
            0x05 | 0x06 => self.splice(command, at, other),
            0x07 => self.split_after(at, other),
            0x08 => self.split_before(at, other),
            0x09 => self.move_next(at),
            0x0a => self.move_prev(at),
            0x0b => *self.list(at) = whole(tail, head),
            0x0c => {
                *self.list(other) = whole(head, tail);
                *self.list(at) = EMPTY;
            }
            0x0d => self.clear(at),
            0x0e => *self.list(at) = EMPTY,
            0x0f => *self.list(at) = whole(head, tail),
            0x12 => return self.pop(at, true),
            _ => return self.pop(at, false),
        }
        NONE
    }
}
