/*
 * Calls the C entry of the static library.
 *   caller          tests it, with both buffers right against guard pages
 *   caller FILE     writes the answers to the command lines of a file, - for standard input
 *   caller --runs   many runs on standard input, each a length of four bytes (high byte first) and
 *                   that many command bytes; the answers go out in the same form
 */
#define _GNU_SOURCE
#include "guarded.h"
#include "rewzhanok.h"
#include <string.h>

#define FILL 0xa5
#define MOST (REWZHANOK_MOST_COMMANDS + 1u)
#define WRONG_LINE "0bffffffff\n"

static unsigned ok, wrong;
static uint8_t input[MOST];
static char expected[MOST * REWZHANOK_ANSWER];

static size_t lines(const uint8_t *text, size_t size)
{
    size_t count = 0;

    for (size_t i = 0; i < size; i++)
        count += text[i] == '\n';
    return count + (size > 0 && text[size - 1] != '\n');
}

static void judge(int good, const char *what, enum side in, enum side out)
{
    if (good) {
        ok++;
        return;
    }
    wrong++;
    printf("wrong: %s (guard at the %s of the commands, at the %s of the answers)\n", what,
           in == END_AT_GUARD ? "end" : "start", out == END_AT_GUARD ? "end" : "start");
}

/* One call with the guards on the given sides. `answers` is NULL if it is to be refused. */
static void call(const char *what, const void *commands, size_t size, size_t room,
                 const char *answers, enum side in, enum side out)
{
    struct guarded from = guarded(size, in), to = guarded(room, out);
    size_t written = answers ? lines(commands, size) * REWZHANOK_ANSWER : 0;
    uint32_t got;
    int good;

    if (size)
        memcpy(from.data, commands, size);
    only_read(&from);
    if (room)
        memset(to.data, FILL, room);
    got = rewzhanok_run(from.data, size, to.data, room);
    good = got == (answers ? written : REWZHANOK_REFUSED);
    good = good && (!written || memcmp(to.data, answers, written) == 0);
    for (size_t i = written; good && i < room; i++)
        good = to.data[i] == FILL;
    judge(good, what, in, out);
    let_go(&from);
    let_go(&to);
}

static void calls(const char *what, const void *commands, size_t size, size_t room,
                  const char *answers)
{
    for (int sides = 0; sides < 4; sides++)
        call(what, commands, size, room, answers, sides & 1, sides >> 1);
}

/* Lines whose answers are known, with room just enough, more than enough, and too little. */
static void known(const char *what, const void *commands, size_t size, const char *answers)
{
    size_t room = lines(commands, size) * REWZHANOK_ANSWER;

    calls(what, commands, size, room, answers);
    calls(what, commands, size, room + 1, answers);
    calls(what, commands, size, room + 5000, answers);
    if (room) {
        calls(what, commands, size, room - 1, NULL);
        calls(what, commands, size, room - REWZHANOK_ANSWER, NULL);
        calls(what, commands, size, 0, NULL);
    }
}

/* As many answers 11 as the lines of the input. */
static const char *all_wrong(size_t size)
{
    size_t count = lines(input, size);

    for (size_t i = 0; i < count; i++)
        memcpy(expected + i * REWZHANOK_ANSWER, WRONG_LINE, REWZHANOK_ANSWER);
    return expected;
}

static void known_wrong(const char *what, size_t size)
{
    calls(what, input, size, lines(input, size) * REWZHANOK_ANSWER, all_wrong(size));
}

static void whole_run(void)
{
    static const char text[] = "1100000005\n1100000007\n0900000000\n0100000009\n0100000007\n"
                               "0300000000\n0700010000\n1400000000\n0e01000000\n1400000000\n";
    static const char answers[] = "00ffffffff\n00ffffffff\n000005ffff\n000005ffff\n090005ffff\n"
                                  "0000090005\n000009ffff\n0000020000\n00ffffffff\n0000010001\n";

    known("whole run", text, sizeof text - 1, answers);
    known("whole run, last line not ended", text, sizeof text - 2, answers);
    known("whole run again", text, sizeof text - 1, answers);
    known("a fresh desk for each call", "1400000000\n", 11, "0000000000\n");
}

static void refusals(void)
{
    static const char text[] =
        "1107000400\n11070003ff\n1108000000\n0907000000\n0507080000\n0508080000\n0507070000\n"
        "1100000001\n0700070000\n0707000000\n0300000000\n0400000400\n04000003ff\n1201000000\n"
        "04070003ff\n0407000001\n14ff000000\n0308000001\n0e07000000\n11070003ff\n1400000000\n";
    static const char answers[] =
        "07ffffffff\n00ffffffff\n02ffffffff\n0003ffffff\n02ffffffff\n02ffffffff\n0303ffffff\n"
        "00ffffffff\n06ffffffff\n0603ffffff\n08ffffffff\n07ffffffff\n08ffffffff\n08ffffffff\n"
        "0903ffffff\n0903ffffff\n0bffffffff\n0bffffffff\n00ffffffff\n09ffffffff\n0000010001\n";

    known("refusals", text, sizeof text - 1, answers);
}

static void room(void)
{
    calls("no input, no room", "", 0, 0, "");
    calls("no input, some room", "", 0, 1, "");
    calls("no input, much room", "", 0, 9000, "");
    known("one line", "0f00000000\n", 11, "00ffffffff\n");
    known("one line, not ended", "0f00000000", 10, "00ffffffff\n");
    known("one byte", "0", 1, WRONG_LINE);
    known("a line and a byte", "0f00000000\n0", 12, "00ffffffff\n" WRONG_LINE);
    known("a line feed", "\n", 1, WRONG_LINE);
}

/* The longest input there is, and one byte more. */
static void longest(const char *what, uint8_t byte, const char *line)
{
    memset(input, byte, MOST);
    for (size_t i = 0; line && i < MOST; i++)
        input[i] = (uint8_t)line[i % REWZHANOK_ANSWER];
    for (size_t size = MOST - 3; size <= MOST; size++) {
        size_t count = lines(input, size);

        all_wrong(size);
        for (size_t i = 0; line && i < size / REWZHANOK_ANSWER; i++)
            memcpy(expected + i * REWZHANOK_ANSWER, "00ffffffff\n", REWZHANOK_ANSWER);
        calls(what, input, size, count * REWZHANOK_ANSWER, size < MOST ? expected : NULL);
        calls(what, input, size, count * REWZHANOK_ANSWER - 1, NULL);
    }
}

static void lengths(void)
{
    longest("as many lines as fit", '\n', NULL);
    longest("one line as long as fits", '0', NULL);
    longest("as many commands as fit", 0, "0f00000000\n");
}

static void malformed(void)
{
    for (size_t size = 0; size <= 40; size++) {
        memset(input, '0', size + 1);
        if (size == 10)
            continue;
        known_wrong("wrong length, not ended", size);
        input[size] = '\n';
        known_wrong("wrong length", size + 1);
    }
    for (size_t place = 0; place < 10; place++) {
        size_t size = 0;

        for (int byte = 0; byte < 256; byte++) {
            if (byte == '\n' || (byte && strchr("0123456789abcdef", byte)))
                continue;
            memcpy(input + size, "0f00000000\n", 11);
            input[size + place] = (uint8_t)byte;
            size += 11;
        }
        known_wrong("a byte that is no digit", size);
    }
    for (int command = 0x15; command <= 0x100; command++)
        sprintf((char *)input + (command - 0x15) * 11, "%02x00000000\n", command & 0xff);
    known_wrong("unknown command", (0x101 - 0x15) * 11);
}

/* Every bit of every field that a command does not use, on a list that is there and on one that is not. */
static void unused(void)
{
    size_t size = 0;

    for (unsigned command = 1; command <= 0x14; command++) {
        int node = command <= 2 || command == 4 || command == 0x10 || command == 0x11;
        int other = (command >= 5 && command <= 8) || command == 0x0c;

        for (unsigned bit = 0; bit < 32; bit++) {
            unsigned list = bit & 1 && command != 0x14 ? 0xff000000u : 0;
            unsigned rest = 1u << bit;

            if ((bit < 16 && node) || (bit >= 16 && bit < 24 && other) || (bit >= 24 && command != 0x14))
                continue;
            size += (size_t)sprintf((char *)input + size, "%02x%08x\n", command, list | rest);
        }
    }
    known_wrong("a field that is not used", size);
}

static void group(const char *name, void (*test)(void))
{
    unsigned before = ok, wrong_before = wrong;

    test();
    printf("%s: %u ok, %u wrong\n", name, ok - before, wrong - wrong_before);
}

static int tests(void)
{
    guard_signals();
    group("whole run", whole_run);
    group("refusals", refusals);
    group("room", room);
    group("lengths", lengths);
    group("malformed lines", malformed);
    group("unused fields", unused);
    printf("%u ok, %u wrong\n", ok, wrong);
    return wrong != 0;
}

/* Runs bytes in a buffer of their own size and writes the answers. */
static int answer(const uint8_t *commands, size_t size, int with_length)
{
    size_t room = lines(commands, size) * REWZHANOK_ANSWER;
    uint8_t *answers = malloc(room + 1);
    uint32_t got = answers ? rewzhanok_run(commands, size, answers, room) : REWZHANOK_REFUSED;
    int good = got == room;

    for (int shift = 24; with_length && shift >= 0; shift -= 8)
        putchar((int)(room >> shift & 0xff));
    good = good && fwrite(answers, 1, room, stdout) == room;
    free(answers);
    return good ? 0 : 1;
}

static int runs(void)
{
    uint8_t head[4];

    while (fread(head, 1, 4, stdin) == 4) {
        size_t size = (size_t)head[0] << 24 | (size_t)head[1] << 16 | (size_t)head[2] << 8 | head[3];

        if (size > MOST || fread(input, 1, size, stdin) != size || answer(input, size, 1) != 0)
            return 1;
    }
    return 0;
}

int main(int count, char **args)
{
    FILE *from = stdin;
    size_t size;

    if (count < 2)
        return tests();
    if (strcmp(args[1], "--runs") == 0)
        return runs();
    if (strcmp(args[1], "-") != 0)
        from = fopen(args[1], "rb");
    if (!from) {
        perror(args[1]);
        return 2;
    }
    size = fread(input, 1, MOST, from);
    if (size == MOST)
        fprintf(stderr, "caller: over %u bytes\n", REWZHANOK_MOST_COMMANDS);
    return answer(input, size, 0);
}
