//! Tests of `rewzhanok::pools` on pools of no node, of one, of many, of as many as there may be, and of one more.
use rewzhanok::pools::{audit, name, walk, Audited, Refused, MOST_LISTS, MOST_NODES};

const SIZES: [usize; 5] = [0, 1, 4096, MOST_NODES, MOST_NODES + 1];
const MARK: u8 = 0xa5;

/// A pool with all nodes on lists: the words, the ends, and the nodes of each list in order.
struct Pool {
    words: Vec<u32>,
    heads: Vec<u32>,
    tails: Vec<u32>,
    lists: Vec<Vec<u32>>,
}

impl Pool {
    fn new(nodes: usize, lists: usize) -> Pool {
        // 7,919 is a prime that divides none of the sizes, so that every node is met once.
        let order: Vec<u32> = (0..nodes).map(|i| (i * 7919 % nodes) as u32).collect();
        let cut = |k: usize| nodes * k / lists;
        let lists: Vec<Vec<u32>> = (0..lists).map(|k| order[cut(k)..cut(k + 1)].to_vec()).collect();
        let mut words = vec![1; nodes];
        for list in &lists {
            for (i, &node) in list.iter().enumerate() {
                let before = if i == 0 { 0 } else { name(list[i - 1]) };
                words[node as usize] = before ^ list.get(i + 1).map_or(0, |&after| name(after));
            }
        }
        let end = |node: Option<&u32>| node.map_or(0, |&node| name(node));
        let heads = lists.iter().map(|list| end(list.first())).collect();
        let tails = lists.iter().map(|list| end(list.last())).collect();
        Pool { words, heads, tails, lists }
    }

    /// The marks that an audit of the first lists leaves.
    fn marks(&self, lists: usize) -> Vec<u8> {
        let mut marks = vec![0; self.words.len()];
        for (k, list) in self.lists[..lists].iter().enumerate() {
            list.iter().for_each(|&node| marks[node as usize] = k as u8 + 1);
        }
        marks
    }
}

/// A walk of list 0, and the marks that it leaves.
fn walked(pool: &Pool, marks: usize) -> (Result<u32, Refused>, Vec<u8>) {
    let mut marks = vec![MARK; marks];
    (walk(&pool.words, pool.heads[0], pool.tails[0], &mut marks), marks)
}

/// An audit of all lists, and the marks that it leaves.
fn audited(pool: &Pool, marks: usize) -> (Result<Audited, Refused>, Vec<u8>) {
    let mut marks = vec![MARK; marks];
    (audit(&pool.words, &pool.heads, &pool.tails, &mut marks), marks)
}

#[test]
fn sound_lists() {
    for nodes in SIZES {
        for lists in [1, 2, MOST_LISTS] {
            let mut pool = Pool::new(nodes, lists);
            if nodes > MOST_NODES {
                assert_eq!(walked(&pool, nodes), (Err(Refused::Size), vec![MARK; nodes]));
                assert_eq!(audited(&pool, nodes), (Err(Refused::Size), vec![MARK; nodes]));
                continue;
            }
            let count = pool.lists[0].len() as u32;
            assert_eq!(walked(&pool, nodes), (Ok(count), pool.marks(1)));
            let all = Audited { on_lists: nodes as u32, stranded: 0 };
            assert_eq!(audited(&pool, nodes), (Ok(all), pool.marks(lists)));
            std::mem::swap(&mut pool.heads, &mut pool.tails);
            assert_eq!(walked(&pool, nodes), (Ok(count), pool.marks(1)));
            assert_eq!(audited(&pool, nodes), (Ok(all), pool.marks(lists)));
        }
    }
}

#[test]
fn lists_too_many() {
    for nodes in SIZES {
        let mut pool = Pool::new(nodes, MOST_LISTS + 1);
        assert_eq!(audited(&pool, nodes), (Err(Refused::Size), vec![MARK; nodes]));
        if nodes > MOST_NODES {
            continue;
        }
        pool.tails.truncate(3);
        let on_lists = pool.lists[..3].iter().map(Vec::len).sum::<usize>();
        let some = Audited { on_lists: on_lists as u32, stranded: (nodes - on_lists) as u32 };
        assert_eq!(audited(&pool, nodes), (Ok(some), pool.marks(3)));
        pool.heads.clear();
        assert_eq!(audited(&pool, nodes), (Ok(Audited { on_lists: 0, stranded: nodes as u32 }), vec![0; nodes]));
    }
}

#[test]
fn marks_too_few_or_too_many() {
    for nodes in SIZES {
        let pool = Pool::new(nodes, 2);
        for marks in [nodes + 1, nodes.wrapping_sub(1), 0] {
            if marks == nodes || marks > nodes + 1 {
                continue;
            }
            assert_eq!(walked(&pool, marks), (Err(Refused::Size), vec![MARK; marks]));
            assert_eq!(audited(&pool, marks), (Err(Refused::Size), vec![MARK; marks]));
        }
    }
}

#[test]
fn ends_that_do_not_hold() {
    for nodes in SIZES.into_iter().filter(|&nodes| nodes <= MOST_NODES) {
        for bad in [1, 3, name(nodes as u32), u32::MAX] {
            let mut pool = Pool::new(nodes, 4);
            pool.heads[3] = bad;
            pool.tails[2] = bad;
            assert_eq!(audited(&pool, nodes), (Err(Refused::EndsDoNotHold(2)), vec![MARK; nodes]));
            pool.heads[0] = bad;
            assert_eq!(walked(&pool, nodes), (Err(Refused::EndsDoNotHold(0)), vec![MARK; nodes]));
            assert_eq!(audited(&pool, nodes), (Err(Refused::EndsDoNotHold(0)), vec![MARK; nodes]));
        }
    }
}

#[test]
fn chains_with_a_fault() {
    for nodes in [4096, MOST_NODES] {
        let mut pool = Pool::new(nodes, 4);
        // After this node of list 2, and of list 3, comes a word that is no name.
        for list in [3, 2] {
            pool.words[pool.lists[list][500] as usize] ^= 1;
        }
        assert_eq!(walked(&pool, nodes), (Ok(nodes as u32 / 4), pool.marks(1)));
        assert_eq!(audited(&pool, nodes), (Err(Refused::NoListing(2)), vec![0; nodes]));
        pool.heads.swap(0, 2);
        pool.tails.swap(0, 2);
        assert_eq!(walked(&pool, nodes), (Err(Refused::NoListing(501)), vec![0; nodes]));
        assert_eq!(audited(&pool, nodes), (Err(Refused::NoListing(0)), vec![0; nodes]));
    }
}

#[test]
fn a_list_twice() {
    for nodes in [1, 4096, MOST_NODES] {
        let mut pool = Pool::new(nodes, 1);
        pool.heads.extend([0, pool.tails[0]]);
        pool.tails.extend([0, pool.heads[0]]);
        assert_eq!(audited(&pool, nodes), (Err(Refused::NoListing(2)), vec![0; nodes]));
    }
}

#[test]
fn both_libraries_in_one_program() {
    assert_eq!(rewzhanok::run(b"1100000005\n0900000000\n").unwrap(), b"00ffffffff\n000005ffff\n");
    let mut marks = [MARK; 5];
    assert_eq!(walk(&[1, 1, 1, 1, 0], name(4), name(4), &mut marks), Ok(1));
    assert_eq!(marks, [0, 0, 0, 0, 1]);
}
