/*
 * Tests the two entries of librewzhanok_pools.a, with every array right against guard pages and
 * those that are only read mapped so.
 */
#define _GNU_SOURCE
#include "pools_calls.h"

#define NAME(i) (2u * ((uint32_t)(i) + 1u))

/* The nodes in the order in which they are put on lists, and where each list begins in it. */
static uint32_t order[MOST];
static size_t begins[LISTS + 1];

static uint32_t any(void)
{
    static uint32_t state = 2463534242u;

    state ^= state << 13;
    state ^= state >> 17;
    state ^= state << 5;
    return state;
}

/* All nodes, in any order, on so many lists, which are all lent. */
static void fresh(size_t lists)
{
    for (size_t i = 0; i < nodes; i++) {
        size_t j = any() % (i + 1);

        order[i] = order[j];
        order[j] = (uint32_t)i;
    }
    for (size_t k = 0; k <= lists; k++)
        begins[k] = nodes * k / (lists ? lists : 1);
    for (size_t k = 0; k < lists; k++) {
        size_t from = begins[k], to = begins[k + 1];

        heads[k] = from < to ? NAME(order[from]) : 0;
        tails[k] = from < to ? NAME(order[to - 1]) : 0;
        for (size_t i = from; i < to; i++)
            words[order[i]] = (i > from ? NAME(order[i - 1]) : 0) ^ (i + 1 < to ? NAME(order[i + 1]) : 0);
    }
    head_count = tail_count = lists;
    mark_count = nodes;
}

/* Breaks the chain of a list in its midst. */
static void tear(size_t k)
{
    if (begins[k + 1] - begins[k] > 2)
        words[order[(begins[k] + begins[k + 1]) / 2]] ^= 1u << any() % 32;
}

/* Lists that are right, as many as there may be and one more, and nodes on no list. */
static void sound(void)
{
    static const size_t counts[] = {0, 1, 2, 63, 64, 65};
    uint32_t head;

    heads[0] = tails[0] = 0;
    memset(words, 0, 4 * nodes);
    for (size_t i = 0; i < sizeof counts / sizeof *counts; i++) {
        fresh(counts[i]);
        both("sound lists");
    }
    tail_count = 64;
    both("more heads than tails");
    head_count = 3;
    both("more tails than heads, and stranded nodes");
    for (size_t i = begins[3]; i < nodes; i += 2)
        words[order[i]] = 1;
    both("stranded nodes and unlinked ones");
    head = heads[0];
    heads[0] = tails[0];
    tails[0] = head;
    both("a list turned round");
    head_count = 0;
    both("no heads");
}

static void sizes(void)
{
    fresh(2);
    mark_count = nodes + 1;
    both("a mark too many");
    mark_count = 0;
    both("no marks");
    mark_count = nodes - (nodes != 0);
    both("a mark too few");
    heads[0] = 3;
    both("a mark too few, and ends that do not hold");
    fresh(65);
    heads[64] = 3;
    both("a list too many, and ends that do not hold");
}

/* Ends that do not hold. They come before the fault in the chain of a lower list. */
static void ends(void)
{
    uint32_t bad[] = {0, 1, 3, NAME(nodes), 0xffffffffu, 0x80000002u, NAME(nodes ? order[nodes / 2] : 0)};

    for (size_t i = 0; i < 4 * sizeof bad / sizeof *bad; i += nodes > SMALL ? 3 : 1) {
        size_t k = i % 2 ? 0 : 2;

        fresh(4);
        tear(0);
        *(i % 4 < 2 ? &heads[k] : &tails[k]) = bad[i / 4];
        both("ends that do not hold");
        heads[3] = 7;
        both("two lists with ends that do not hold");
    }
    fresh(4);
    if (tails[2])
        words[tails[2] / 2 - 1] = 1;
    both("a tail that is unlinked");
    if (heads[1])
        words[heads[1] / 2 - 1] = NAME(nodes);
    both("a head whose word names no node");
}

static void faults(void)
{
    for (size_t k = 0; k < 4; k++) {
        fresh(4);
        tear(3);
        tear(k);
        both("chains torn");
    }
    fresh(3);
    heads[2] = heads[1];
    tails[2] = tails[1];
    both("a list twice");
    heads[2] = tails[0];
    tails[2] = heads[0];
    both("a list twice, the other way round");
    fresh(2);
    if (nodes < 8)
        return;
    tails[0] = NAME(order[begins[1] - 2]);
    both("more after the tail");
    tails[0] = tails[1];
    both("a tail that is on another list");
    fresh(2);
    words[order[nodes / 4]] ^= NAME(order[nodes / 4 + 1]) ^ NAME(order[1]);
    both("a chain that comes back");
}

/* Words and ends that may be anything: any bits, all alike, or names of any nodes or of near ones. */
static void garbage(void)
{
    for (unsigned round = 0; round < (nodes > SMALL ? 12 : 36); round++) {
        size_t lists = any() % 4;

        fresh(lists);
        for (size_t i = 0; i < nodes; i++) {
            uint32_t kinds[] = {any(), round, NAME(any() % nodes), NAME((i + any() % 3) % nodes) ^ NAME((i + any() % 3) % nodes)};

            if (any() % 8 < round % 9)
                words[i] = kinds[round % 4];
        }
        for (size_t k = 0; k < lists; k++) {
            heads[k] = any() % 2 ? heads[k] : round % 4 ? NAME(any() % (nodes + 1)) : any();
            tails[k] = any() % 2 ? tails[k] : any() % 2 ? heads[k] : NAME(any() % (nodes + 1));
        }
        both("garbage");
    }
}

/* An answer that is written out: the answer, the numbers, and the first marks, if any are written. */
static void known(enum entry entry, uint32_t is, uint32_t first, uint32_t second, uint32_t third, const char *marked)
{
    uint32_t want[] = {first, second, third, 0};
    int good;

    expect(entry);
    good = answer == is && memcmp(numbers, want, sizeof want) == 0 && marks_stay == !marked;
    for (size_t i = 0; good && marked && marked[i]; i++)
        good = marks[i] == marked[i] - '0';
    if (!good) {
        wrong++;
        printf("wrong: what is expected is not what is written out: %s of %zu nodes\n", entry == WALK ? "walk" : "audit", nodes);
    }
    tried("written out", entry);
}

static void lists_are(size_t lists, const uint32_t (*of)[2])
{
    head_count = tail_count = lists;
    for (size_t k = 0; k < lists; k++) {
        heads[k] = of[k][0];
        tails[k] = of[k][1];
    }
}

/* Nodes 0, 1, 2 on a list, 3 unlinked, 4 alone on a list or stranded. */
static void small(void)
{
    static const uint32_t pool[] = {4, 4, 4, 1, 0};

    nodes = mark_count = 5;
    memcpy(words, pool, sizeof pool);
    lists_are(1, (uint32_t[][2]){{2, 6}});
    known(WALK, 0, 3, 0, 0, "11100");
    known(AUDIT, 0, 0, 3, 1, "11100");
    lists_are(2, (uint32_t[][2]){{6, 2}, {10, 10}});
    known(WALK, 0, 3, 0, 0, "11100");
    known(AUDIT, 0, 0, 4, 0, "11102");
    lists_are(2, (uint32_t[][2]){{2, 4}, {0, 0}});
    known(WALK, 10, 2, 0, 0, "00000");
    known(AUDIT, 10, 0, 0, 0, "00000");
    lists_are(3, (uint32_t[][2]){{10, 10}, {2, 6}, {6, 2}});
    known(AUDIT, 10, 2, 0, 0, "00000");
    lists_are(3, (uint32_t[][2]){{2, 4}, {2, 2}, {8, 8}});
    known(AUDIT, 4, 1, 0, 0, NULL);
    lists_are(1, (uint32_t[][2]){{2, 2}});
    known(WALK, 4, 0, 0, 0, NULL);
    lists_are(0, NULL);
    known(AUDIT, 0, 0, 0, 4, "00000");
    nodes = mark_count = 0;
    known(AUDIT, 0, 0, 0, 0, "");
    known(WALK, 4, 0, 0, 0, NULL);
}

/* The greatest name, the greatest xor of two, and a pool that is one node too great. */
static void great(void)
{
    nodes = mark_count = 1000000;
    for (size_t i = 0; i < MOST; i++)
        words[i] = 1;
    words[999999] = 0;
    lists_are(1, (uint32_t[][2]){{2000000, 2000000}});
    known(WALK, 0, 1, 0, 0, "0");
    words[999999] = words[48574] = 2;
    words[0] = 2097150;
    lists_are(2, (uint32_t[][2]){{2000000, 97150}, {0, 0}});
    known(WALK, 0, 3, 0, 0, "10");
    known(AUDIT, 0, 0, 3, 0, "10");
    lists_are(2, (uint32_t[][2]){{0, 0}, {2000000, 2000002}});
    known(AUDIT, 4, 1, 0, 0, NULL);
    nodes = mark_count = 1000001;
    known(WALK, 1, 0, 0, 0, NULL);
    known(AUDIT, 1, 0, 0, 0, NULL);
}

static void at_size(size_t size)
{
    unsigned before = ok, wrong_before = wrong;

    nodes = size;
    sound();
    sizes();
    ends();
    faults();
    garbage();
    printf("%zu nodes: %u ok, %u wrong\n", size, ok - before, wrong - wrong_before);
}

int main(void)
{
    static const size_t at[] = {0, 1, 4096, 1000000, 1000001};

    guard_signals();
    small();
    great();
    printf("written out: %u ok, %u wrong\n", ok, wrong);
    for (size_t i = 0; i < sizeof at / sizeof *at; i++)
        at_size(at[i]);
    printf("%u ok, %u wrong\n", ok, wrong);
    return wrong != 0;
}
