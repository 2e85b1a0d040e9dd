/*
 * rewzhanok_pools.h: walks and audits xor-linked lists in the caller's own arrays, for programs in
 * C and C++. Link with librewzhanok_pools.a. A program may link librewzhanok.a as well.
 *
 * A pool is an array of words, one a node. Its nodes are 0 to the number of words minus 1, and the
 * name of node i is 2 * (i + 1). No node is named 0, which is null. The word of a node is
 *
 *     1                           if the node is unlinked, that is, on no list;
 *     the name of the node before it xor the name of the node after it, with null for none,
 *                                 if it is on a list. Any word but 1 counts as linked.
 *
 * A list is two names: its head names its first node, its tail the last. Both of an empty list are
 * null. Ends hold if both are null; or if both name nodes of the pool, and the word of each of these
 * two nodes is null if head and tail are one, and else names a node of the pool.
 *
 * A call follows a list's chain from the head: what comes after a node is its word xor the name of
 * the node before it. The call stands on each node in turn, up to the tail. It is a fault to come
 * to anything that names no node of the pool, or to a node that this call stood on before, on this
 * list or another; and it is a fault if anything but null comes after the tail.
 *
 * Marks are bytes, one a node. What is in them before a call does not matter.
 *
 * Words, ends and marks may have any value: there is an answer to everything, by these rules. A
 * call ends, and it changes nothing but the marks and the numbers that it is handed.
 */
#ifndef REWZHANOK_POOLS_H
#define REWZHANOK_POOLS_H

#include <stddef.h>
#include <stdint.h>

/* The most nodes of a pool, and the most lists of an audit. */
#define REWZHANOK_MOST_NODES 1000000u
#define REWZHANOK_MOST_LISTS 64u

/* How many numbers a walk and an audit write. */
#define REWZHANOK_WALK_NUMBERS 1u
#define REWZHANOK_AUDIT_NUMBERS 4u

/*
 * What a call returns. The tests are made in this order, and the first that fails gives the number:
 *
 *     12  there is no room for the call's numbers
 *      1  the pool has more than REWZHANOK_MOST_NODES nodes, there is not just one mark a node, or
 *         there are more than REWZHANOK_MOST_LISTS lists
 *      4  the ends of a list do not hold
 *     10  there is a fault in a list's chain
 *      0  none of them: it is done
 *
 * Under 12 nothing is written. Under 1 and 4 no mark is written. Under 10 all marks are 0.
 * Under all but 12 the call's numbers are written, to the front of `numbers`; the numbers after
 * those are left as they were.
 */
#define REWZHANOK_DONE 0u
#define REWZHANOK_SIZE 1u
#define REWZHANOK_ENDS_DO_NOT_HOLD 4u
#define REWZHANOK_NO_LISTING 10u
#define REWZHANOK_NO_ROOM 12u

#ifdef __cplusplus
extern "C" {
#endif

/*
 * Walks the list with this head and this tail.
 *
 * Done, the mark of each node on the list is 1, and every other is 0.
 *
 *     numbers[0]  done, how many nodes are on the list; under 10, how many nodes it stood on;
 *                 else 0
 *
 * Each array must have as many elements as the length after it says. `marks_len` must be
 * `words_len`, and `numbers_len` at least REWZHANOK_WALK_NUMBERS; else the call is refused.
 *
 * The words must be readable, marks and numbers writable; and neither of these two may overlap
 * another array. Nothing outside the arrays is read or written.
 */
uint32_t rewzhanok_walk(const uint32_t *words, size_t words_len, uint32_t head, uint32_t tail,
                        uint8_t *marks, size_t marks_len, uint32_t *numbers, size_t numbers_len);

/*
 * Audits the lists with these heads and tails. List k has the ends heads[k] and tails[k]; there are
 * as many lists as the shorter of both arrays has elements.
 *
 * The ends of all lists are tested before any chain is followed. Then the lists are walked in order.
 * No node may be on two lists, or on one twice.
 *
 * Done, the mark of each node on list k is k + 1, and the mark of a node on no list is 0.
 *
 *     numbers[0]  under 4 and 10, the lowest list that the refusal is due to; else 0
 *     numbers[1]  done, how many nodes are on lists; else 0
 *     numbers[2]  done, how many nodes are stranded: linked, and on no list; else 0
 *     numbers[3]  0
 *
 * Each array must have as many elements as the length after it says. `marks_len` must be
 * `words_len`, and `numbers_len` at least REWZHANOK_AUDIT_NUMBERS; else the call is refused.
 *
 * Words, heads and tails must be readable, marks and numbers writable; and neither of these two may
 * overlap another array. Nothing outside the arrays is read or written.
 */
uint32_t rewzhanok_audit(const uint32_t *words, size_t words_len,
                         const uint32_t *heads, size_t heads_len,
                         const uint32_t *tails, size_t tails_len,
                         uint8_t *marks, size_t marks_len, uint32_t *numbers, size_t numbers_len);

#ifdef __cplusplus
}
#endif

#endif
