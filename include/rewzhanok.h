/*
 * rewzhanok.h: runs command lines on a desk of xor-linked lists, for programs in C and C++.
 * Link with librewzhanok.a.
 *
 * The desk has 1,024 nodes (0 to 1023) and 8 lists (0 to 7), with one cursor a list.
 *
 * Commands are lines of ten digits 0-9a-f and a line feed:
 *
 *     CC LL OO NNNN   command, list, other list, node (shown with blanks; there are none)
 *
 *     01 insert after   05 splice after   09 move next   0d clear            11 push back
 *     02 insert before  06 splice before  0a move prev   0e fast clear       12 pop front
 *     03 remove         07 split after    0b reverse     0f cursor to null   13 pop back
 *     04 replace        08 split before   0c take        10 push front       14 audit
 *
 * A field that the command does not use must be zero. The node is used by 01, 02, 04, 10 and 11;
 * the other list by 05 to 08 and 0c; the list by all but 14.
 *
 * Each line, whatever is in it, has one answer of ten digits and a line feed:
 *
 *     RR CCCC HHHH    0 or why it was refused, node under the list's cursor, node handed out
 *
 * with ffff for no node. The answer to 14 has the number of nodes on lists and the number of
 * stranded nodes in the two places.
 *
 *     RR  the line was refused, and changed nothing, because
 *     02  there is no such list
 *     03  both list numbers are the same
 *     06  it would split or take into a list that is not empty
 *     07  there is no such node
 *     08  it would remove or replace at null, or pop from an empty list
 *     09  the node is linked already, or was stranded by a fast clear
 *     0b  it is not ten digits, is no command, or has something in a field that is not used
 */
#ifndef REWZHANOK_H
#define REWZHANOK_H

#include <stddef.h>
#include <stdint.h>

/* The greatest number of command bytes that a call takes. */
#define REWZHANOK_MOST_COMMANDS 65536u

/* The bytes of one answer, with its line feed. */
#define REWZHANOK_ANSWER 11u

/* What a refused call returns (refusal 12). */
#define REWZHANOK_REFUSED 4294967295u

#ifdef __cplusplus
extern "C" {
#endif

/*
 * Runs the lines in `commands` on a fresh desk and writes their answers to `answers`, in order.
 * Nothing is kept from one call to the next.
 *
 * A line ends at a line feed. Bytes after the last line feed are one more line, if there are any.
 * So there are as many lines as line feeds, and one more if the last byte is not a line feed.
 *
 * `answers_len` must be at least REWZHANOK_ANSWER bytes for every line, empty and malformed lines
 * too. Just enough is enough.
 *
 * Returns the number of bytes written: REWZHANOK_ANSWER times the number of lines. The bytes of
 * `answers` after those are left as they were.
 *
 * Returns REWZHANOK_REFUSED, with no byte of `answers` changed and no line run, if `commands_len`
 * is over REWZHANOK_MOST_COMMANDS or the room for the answers is too small.
 *
 * `commands` must have `commands_len` readable bytes and `answers` must have `answers_len` writable
 * bytes, and they must not overlap. No byte outside them is read or written, and `commands` is not
 * changed.
 */
uint32_t rewzhanok_run(const uint8_t *commands, size_t commands_len,
                       uint8_t *answers, size_t answers_len);

#ifdef __cplusplus
}
#endif

#endif
