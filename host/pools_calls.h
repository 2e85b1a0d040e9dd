/*
 * One call of an entry of librewzhanok_pools.a, held to what is expected, for host/pools_caller.c:
 * every array lies right against a guard page, and those that are only read are mapped so.
 */
#ifndef POOLS_CALLS_H
#define POOLS_CALLS_H

#include "guarded.h"
#include "pools_expected.h"

/* Above so many nodes, fewer calls are made. */
#define SMALL 5000u

static unsigned ok, wrong;

/* A copy of an array that can only be read. */
static struct guarded lent(const void *from, size_t bytes, unsigned at_end)
{
    struct guarded to = guarded(bytes, at_end ? END_AT_GUARD : START_AT_GUARD);

    if (bytes)
        memcpy(to.data, from, bytes);
    only_read(&to);
    return to;
}

static struct guarded filled(size_t bytes, unsigned at_end, uint8_t fill)
{
    struct guarded to = guarded(bytes, at_end ? END_AT_GUARD : START_AT_GUARD);

    if (bytes)
        memset(to.data, fill, bytes);
    return to;
}

static int all(const uint8_t *bytes, size_t count, uint8_t fill)
{
    return count == 0 || (bytes[0] == fill && memcmp(bytes, bytes + 1, count - 1) == 0);
}

static size_t wanted(enum entry entry)
{
    return entry == WALK ? REWZHANOK_WALK_NUMBERS : REWZHANOK_AUDIT_NUMBERS;
}

/* One call with room for so many numbers. Bit i of `sides` puts the guard of array i at its end. */
static void call(const char *what, enum entry entry, size_t room, unsigned sides)
{
    static const uint8_t fills[] = {0xa5, 0, 1, 0xff, 7};
    uint8_t fill = fills[(ok + wrong) % sizeof fills];
    struct guarded lend[] = {
        lent(words, 4 * nodes, sides & 1), filled(mark_count, sides & 2, fill), filled(4 * room, sides & 4, fill),
        lent(heads, 4 * head_count, sides & 8), lent(tails, 4 * tail_count, sides & 16)};
    const uint32_t *ws = (void *)lend[0].data, *hs = (void *)lend[3].data, *ts = (void *)lend[4].data;
    uint8_t *ms = lend[1].data, *ns = lend[2].data;
    uint32_t got = entry == WALK
        ? rewzhanok_walk(ws, nodes, heads[0], tails[0], ms, mark_count, (void *)ns, room)
        : rewzhanok_audit(ws, nodes, hs, head_count, ts, tail_count, ms, mark_count, (void *)ns, room);
    int refused = room < wanted(entry);
    size_t wrote = refused ? 0 : 4 * wanted(entry);
    int good = got == (refused ? 12 : answer);

    good = good && (refused || marks_stay ? all(ms, mark_count, fill) : memcmp(ms, marks, mark_count) == 0);
    good = good && memcmp(ns, numbers, wrote) == 0 && all(ns + wrote, 4 * room - wrote, fill);
    if (good) {
        ok++;
    } else {
        wrong++;
        printf("wrong: %s: %s of %zu nodes, %zu marks, room for %zu numbers: %u in place of %u\n", what,
               entry == WALK ? "walk" : "audit", nodes, mark_count, room, got, refused ? 12 : answer);
    }
    for (size_t i = 0; i < sizeof lend / sizeof *lend; i++)
        let_go(&lend[i]);
}

/* Room just enough, too little, and more than enough; the guards on all sides, but of great pools on two. */
static void tried(const char *what, enum entry entry)
{
    size_t want = wanted(entry);
    unsigned sides = entry == WALK ? 8 : 32;

    expect(entry);
    for (unsigned side = 0; side < sides; side++) {
        if (nodes > SMALL && side != 0 && side != sides - 1)
            continue;
        call(what, entry, want, side);
        if (nodes > SMALL && side != 0)
            continue;
        call(what, entry, (want - 1 + side) % want, side);
        call(what, entry, want + 1 + side, side);
    }
}

static void both(const char *what)
{
    tried(what, WALK);
    tried(what, AUDIT);
}

#endif
