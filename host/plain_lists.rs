// The lists of the plain baseline: index words in a vector, and the edits on them.

pub const NODES: usize = 1024;
pub const LISTS: usize = 8;
pub const UNLINKED: u32 = 1;
pub const NONE: u32 = 0xffff;

/// Three names: the node under the cursor and those beside it. 0 is null.
#[derive(Clone, Copy, Default)]
pub struct Cursor {
    pub current: u32,
    pub prev: u32,
    pub next: u32,
}

#[derive(Clone, Copy, Default)]
pub struct List {
    pub head: u32,
    pub tail: u32,
    pub cursor: Cursor,
}

pub struct Desk {
    pub words: Vec<u32>,
    pub lists: Vec<List>,
}

pub fn name(node: usize) -> u32 {
    2 * (node as u32 + 1)
}

pub fn number(name: u32) -> u32 {
    if name == 0 {
        NONE
    } else {
        name / 2 - 1
    }
}

impl Desk {
    pub fn new() -> Desk {
        Desk { words: vec![UNLINKED; NODES], lists: vec![List::default(); LISTS] }
    }

    fn word(&mut self, name: u32) -> &mut u32 {
        &mut self.words[(name / 2 - 1) as usize]
    }

    /// Trades one neighbour of a node for another; nothing to do at null.
    fn trade(&mut self, name: u32, old: u32, new: u32) {
        if name != 0 {
            *self.word(name) ^= old ^ new;
        }
    }

    pub fn null_cursor(&mut self, at: usize) {
        let list = &mut self.lists[at];
        list.cursor = Cursor { current: 0, prev: list.tail, next: list.head };
    }

    /// Puts the chain from `start` to `end` between two neighbours, and mends the list's ends.
    fn put(&mut self, at: usize, start: u32, end: u32, prev: u32, next: u32) {
        self.trade(prev, next, start);
        self.trade(next, prev, end);
        *self.word(start) ^= prev;
        *self.word(end) ^= next;
        if prev == 0 {
            self.lists[at].head = start;
        }
        if next == 0 {
            self.lists[at].tail = end;
        }
    }

    pub fn put_after(&mut self, at: usize, start: u32, end: u32) {
        let List { head, cursor, .. } = self.lists[at];
        if cursor.current == 0 {
            self.put(at, start, end, 0, head);
            self.null_cursor(at);
        } else {
            self.put(at, start, end, cursor.current, cursor.next);
            self.lists[at].cursor.next = start;
        }
    }

    pub fn put_before(&mut self, at: usize, start: u32, end: u32) {
        let List { tail, cursor, .. } = self.lists[at];
        if cursor.current == 0 {
            self.put(at, start, end, tail, 0);
            self.null_cursor(at);
        } else {
            self.put(at, start, end, cursor.prev, cursor.current);
            self.lists[at].cursor.prev = end;
        }
    }

    /// Takes the node out from between its neighbours.
    fn cut_out(&mut self, at: usize, name: u32, prev: u32, next: u32) -> u32 {
        self.trade(prev, name, next);
        self.trade(next, name, prev);
        if prev == 0 {
            self.lists[at].head = next;
        }
        if next == 0 {
            self.lists[at].tail = prev;
        }
        *self.word(name) = UNLINKED;
        number(name)
    }

    pub fn remove(&mut self, at: usize) -> u32 {
        let Cursor { current, prev, next } = self.lists[at].cursor;
        let out = self.cut_out(at, current, prev, next);
        if next == 0 {
            self.null_cursor(at);
        } else {
            let beyond = *self.word(next) ^ prev;
            self.lists[at].cursor = Cursor { current: next, prev, next: beyond };
        }
        out
    }

    pub fn replace(&mut self, at: usize, new: u32) -> u32 {
        let Cursor { current, prev, next } = self.lists[at].cursor;
        *self.word(current) = UNLINKED;
        *self.word(new) = prev ^ next;
        self.trade(prev, current, new);
        self.trade(next, current, new);
        let list = &mut self.lists[at];
        if prev == 0 {
            list.head = new;
        }
        if next == 0 {
            list.tail = new;
        }
        list.cursor.current = new;
        number(current)
    }

    pub fn splice(&mut self, at: usize, other: usize, after: bool) {
        let List { head, tail, .. } = self.lists[other];
        self.lists[other] = List::default();
        if head != 0 && after {
            self.put_after(at, head, tail);
        } else if head != 0 {
            self.put_before(at, head, tail);
        }
    }

    pub fn split_after(&mut self, at: usize, other: usize) {
        let List { head, tail, cursor } = self.lists[at];
        let mut out = List { head, tail, ..List::default() };
        if cursor.current == 0 {
            self.lists[at] = List::default();
        } else {
            out.head = cursor.next;
            out.tail = if cursor.next == 0 { 0 } else { tail };
            self.trade(cursor.next, cursor.current, 0);
            *self.word(cursor.current) = cursor.prev;
            self.lists[at].tail = cursor.current;
            self.lists[at].cursor.next = 0;
        }
        self.lists[other] = out;
        self.null_cursor(other);
    }

    pub fn split_before(&mut self, at: usize, other: usize) {
        let List { head, cursor, .. } = self.lists[at];
        if cursor.current == 0 {
            return self.split_after(at, other);
        }
        let head = if cursor.prev == 0 { 0 } else { head };
        self.trade(cursor.prev, cursor.current, 0);
        *self.word(cursor.current) = cursor.next;
        self.lists[at].head = cursor.current;
        self.lists[at].cursor.prev = 0;
        self.lists[other] = List { head, tail: cursor.prev, ..List::default() };
        self.null_cursor(other);
    }

    pub fn move_next(&mut self, at: usize) {
        let Cursor { current, next, .. } = self.lists[at].cursor;
        if next == 0 {
            return self.null_cursor(at);
        }
        let beyond = *self.word(next) ^ current;
        self.lists[at].cursor = Cursor { current: next, prev: current, next: beyond };
    }

    pub fn move_prev(&mut self, at: usize) {
        let Cursor { current, prev, .. } = self.lists[at].cursor;
        if prev == 0 {
            return self.null_cursor(at);
        }
        let beyond = *self.word(prev) ^ current;
        self.lists[at].cursor = Cursor { current: prev, prev: beyond, next: current };
    }

    pub fn take(&mut self, at: usize, other: usize) {
        self.lists[other] = self.lists[at];
        self.lists[at] = List::default();
        self.null_cursor(other);
    }

    pub fn clear(&mut self, at: usize) {
        let (mut prev, mut name) = (0, self.lists[at].head);
        while name != 0 {
            let next = *self.word(name) ^ prev;
            *self.word(name) = UNLINKED;
            (prev, name) = (name, next);
        }
        self.lists[at] = List::default();
    }

    pub fn reverse(&mut self, at: usize) {
        let list = &mut self.lists[at];
        std::mem::swap(&mut list.head, &mut list.tail);
    }

    pub fn pop(&mut self, at: usize, front: bool) -> u32 {
        let List { head, tail, .. } = self.lists[at];
        if front {
            let next = *self.word(head);
            self.cut_out(at, head, 0, next)
        } else {
            let prev = *self.word(tail);
            self.cut_out(at, tail, prev, 0)
        }
    }

    /// Nodes on lists, by walking them, and linked nodes on no list.
    pub fn audit(&self) -> (u32, u32) {
        let mut on = 0;
        for list in &self.lists {
            let (mut prev, mut name) = (0, list.head);
            while name != 0 {
                on += 1;
                (prev, name) = (name, self.words[(name / 2 - 1) as usize] ^ prev);
            }
        }
        let linked = self.words.iter().filter(|&&word| word != UNLINKED).count() as u32;
        (on, linked - on)
    }
}
