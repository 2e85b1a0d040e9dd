/*
 * What the two entries of librewzhanok_pools.a answer, worked out by the rules of
 * include/rewzhanok_pools.h and by nothing else, for host/pools_caller.c.
 */
#ifndef POOLS_EXPECTED_H
#define POOLS_EXPECTED_H

#include "rewzhanok_pools.h"
#include <string.h>

#define MOST (REWZHANOK_MOST_NODES + 1u)
#define LISTS 70u

enum entry { WALK, AUDIT };

/* What is lent: a pool, the ends of its lists, and how many there are of each. A walk is of list 0. */
static uint32_t words[MOST], heads[LISTS], tails[LISTS];
static size_t nodes, head_count, tail_count, mark_count;

/* What to expect if there is room for the numbers. */
static uint32_t answer, numbers[REWZHANOK_AUDIT_NUMBERS];
static uint8_t marks[MOST + 1];
static int marks_stay;

static int names(uint32_t word)
{
    return word != 0 && word % 2 == 0 && word / 2 <= nodes;
}

static uint32_t word_of(uint32_t name)
{
    return words[name / 2 - 1];
}

static int hold(uint32_t head, uint32_t tail)
{
    if (head == 0 || tail == 0)
        return head == tail;
    if (!names(head) || !names(tail))
        return 0;
    if (head == tail)
        return word_of(head) == 0;
    return names(word_of(head)) && names(word_of(tail));
}

/* How many nodes a chain is followed for; `*fault` says whether that ends in a fault. */
static uint32_t follow(uint32_t head, uint32_t tail, uint8_t mark, int *fault)
{
    uint32_t stood = 0, before = 0, at = head;

    for (*fault = 0; at != 0 || before != tail; stood++) {
        uint32_t after;

        *fault = !names(at) || marks[at / 2 - 1] != 0 || (before == tail && tail != 0);
        if (*fault)
            return stood;
        marks[at / 2 - 1] = mark;
        after = word_of(at) ^ before;
        before = at;
        at = after;
    }
    return stood;
}

static void expect(enum entry entry)
{
    size_t lists = entry == WALK ? 1 : head_count < tail_count ? head_count : tail_count;

    memset(numbers, 0, sizeof numbers);
    marks_stay = 1;
    answer = REWZHANOK_SIZE;
    if (nodes > 1000000 || mark_count != nodes || lists > 64)
        return;
    answer = REWZHANOK_ENDS_DO_NOT_HOLD;
    for (uint32_t k = 0; k < lists; k++) {
        numbers[0] = entry == WALK ? 0 : k;
        if (!hold(heads[k], tails[k]))
            return;
    }
    marks_stay = 0;
    memset(marks, 0, mark_count);
    answer = REWZHANOK_NO_LISTING;
    for (uint32_t k = 0; k < lists; k++) {
        int fault;
        uint32_t stood = follow(heads[k], tails[k], (uint8_t)(k + 1), &fault);

        numbers[0] = entry == WALK ? stood : k;
        if (fault) {
            memset(marks, 0, mark_count);
            return;
        }
    }
    answer = REWZHANOK_DONE;
    if (entry == WALK)
        return;
    numbers[0] = 0;
    for (size_t i = 0; i < nodes; i++) {
        numbers[1] += marks[i] != 0;
        numbers[2] += marks[i] == 0 && words[i] != 1;
    }
}

#endif
