// Times walk and audit of the static library beside a plain loop over the same words, by the size of the pool.
//
// Use: pools_race ROUNDS SIZE...
// A line for each call, order of nodes and size: the nanoseconds a node of the library and of the loop, best and median of the rounds,
// which take turns. The answers of both are compared first. In order, a list has the nodes as they are numbered; shuffled, at random,
// so that most steps miss the caches. A walk has all nodes on one list; an audit has them on 64 lists, and one in sixteen stranded.
use std::hint::black_box;
use std::time::Instant;

const LISTS: usize = 64;

extern "C" {
    fn rewzhanok_walk(words: *const u32, words_len: usize, head: u32, tail: u32, marks: *mut u8, marks_len: usize,
                      numbers: *mut u32, numbers_len: usize) -> u32;
    fn rewzhanok_audit(words: *const u32, words_len: usize, heads: *const u32, heads_len: usize, tails: *const u32, tails_len: usize,
                       marks: *mut u8, marks_len: usize, numbers: *mut u32, numbers_len: usize) -> u32;
}

/// The words of a pool, and the ends of its lists.
struct Pool {
    words: Vec<u32>,
    heads: Vec<u32>,
    tails: Vec<u32>,
}

fn name(node: usize) -> u32 {
    2 * (node as u32 + 1)
}

/// The nodes in the order in which they are chained.
fn nodes(count: usize, shuffled: bool) -> Vec<usize> {
    let mut order: Vec<usize> = (0..count).collect();
    let mut state = 0x9e37_79b9_7f4a_7c15u64;
    for i in (1..count).rev().take_while(|_| shuffled) {
        state ^= state << 13;
        state ^= state >> 7;
        state ^= state << 17;
        order.swap(i, (state % (i as u64 + 1)) as usize);
    }
    order
}

/// A pool of so many nodes whose linked ones are in order, cut into so many lists; the others are stranded.
fn pool(count: usize, order: &[usize], lists: usize) -> Pool {
    let mut made = Pool { words: vec![0; count], heads: vec![0; lists], tails: vec![0; lists] };
    for (list, part) in order.chunks(order.len().div_ceil(lists)).enumerate() {
        for (i, &node) in part.iter().enumerate() {
            let before = if i == 0 { 0 } else { name(part[i - 1]) };
            let after = part.get(i + 1).map_or(0, |&next| name(next));
            made.words[node] = before ^ after;
        }
        made.heads[list] = name(part[0]);
        made.tails[list] = name(part[part.len() - 1]);
    }
    made
}

/// Follows a chain and marks it; how many nodes it has, if it is one.
fn follow(words: &[u32], head: u32, tail: u32, marks: &mut [u8], mark: u8) -> Option<u32> {
    let (mut before, mut at, mut count) = (0, head, 0);
    let marks = &mut marks[..words.len()];
    while at != 0 {
        let node = at as usize / 2 - 1;
        if at % 2 != 0 || node >= words.len() || marks[node] != 0 {
            return None;
        }
        marks[node] = mark;
        count += 1;
        let after = words[node] ^ before;
        before = at;
        at = after;
    }
    (before == tail).then_some(count)
}

/// The walk as one would write it: the marks are taken away, and the chain is followed.
fn plain_walk(pool: &Pool, marks: &mut [u8]) -> Option<[u32; 4]> {
    marks.fill(0);
    follow(&pool.words, pool.heads[0], pool.tails[0], marks, 1).map(|count| [count, 0, 0, 0])
}

/// The audit: each chain in turn, and a count of the linked nodes that are on none.
fn plain_audit(pool: &Pool, marks: &mut [u8]) -> Option<[u32; 4]> {
    marks.fill(0);
    let mut on_lists = 0;
    for list in 0..pool.heads.len() {
        on_lists += follow(&pool.words, pool.heads[list], pool.tails[list], marks, list as u8 + 1)?;
    }
    let stranded = pool.words.iter().zip(marks.iter()).filter(|&(&word, &mark)| mark == 0 && word != 1).count();
    Some([0, on_lists, stranded as u32, 0])
}

fn walk(pool: &Pool, marks: &mut [u8]) -> Option<[u32; 4]> {
    let mut numbers = [0; 4];
    let (words, marks_len) = (&pool.words, marks.len());
    // Sound: the slices are where and as long as they say, none overlaps another, and the entry stays inside them.
    let got = unsafe {
        rewzhanok_walk(words.as_ptr(), words.len(), pool.heads[0], pool.tails[0], marks.as_mut_ptr(), marks_len, numbers.as_mut_ptr(), 4)
    };
    (got == 0).then_some(numbers)
}

fn audit(pool: &Pool, marks: &mut [u8]) -> Option<[u32; 4]> {
    let mut numbers = [0; 4];
    let (words, heads, tails, marks_len) = (&pool.words, &pool.heads, &pool.tails, marks.len());
    // Sound: as above.
    let got = unsafe {
        rewzhanok_audit(words.as_ptr(), words.len(), heads.as_ptr(), heads.len(), tails.as_ptr(), tails.len(), marks.as_mut_ptr(),
                        marks_len, numbers.as_mut_ptr(), 4)
    };
    (got == 0).then_some(numbers)
}

type Call = fn(&Pool, &mut [u8]) -> Option<[u32; 4]>;

/// Nanoseconds a node of one round, which goes on for some milliseconds.
fn round(call: Call, pool: &Pool, marks: &mut [u8], turns: usize) -> f64 {
    let begun = Instant::now();
    for _ in 0..turns {
        black_box(call(black_box(pool), black_box(marks)));
    }
    begun.elapsed().as_nanos() as f64 / (turns * pool.words.len()) as f64
}

fn race(label: &str, order: &str, pool: &Pool, calls: [Call; 2], rounds: usize) {
    let nodes = pool.words.len();
    let mut marks = [vec![9; nodes], vec![7; nodes]];
    let got = [calls[0](pool, &mut marks[0]), calls[1](pool, &mut marks[1])];
    assert!(got[0].is_some() && got[0] == got[1] && marks[0] == marks[1], "{label}, {nodes} nodes: {got:?}");
    let mut times = [vec![], vec![]];
    for _ in 0..rounds {
        for side in 0..2 {
            times[side].push(round(calls[side], pool, &mut marks[side], 4_000_000 / nodes + 1));
        }
    }
    let [library, plain] = times.map(|mut all| {
        all.sort_by(f64::total_cmp);
        (all[0], all[rounds / 2])
    });
    println!("{label} {order} {nodes} {:.3} {:.3} {:.3} {:.3}", library.0, library.1, plain.0, plain.1);
}

fn main() {
    let given: Vec<usize> = std::env::args().skip(1).map(|word| word.parse().expect("a number")).collect();
    for &count in &given[1..] {
        for (order, shuffled) in [("in_order", false), ("shuffled", true)] {
            let all = nodes(count, shuffled);
            race("walk", order, &pool(count, &all, 1), [walk, plain_walk], given[0]);
            race("audit", order, &pool(count, &all[..count / 16 * 15], LISTS), [audit, plain_audit], given[0]);
        }
    }
}
