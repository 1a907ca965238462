/* Makes steps on a stack of their own that was painted before, and sees how far down the paint is gone: of every row at
 * every size and length, with the destination apart from the sources and among them, and of refused words. With an
 * argument it says how many bytes the deepest step of each row took. */
#ifndef _XOPEN_SOURCE
#define _XOPEN_SOURCE 700
#endif
#include "ln.h"

#include <stdio.h>
#include <string.h>
#include <ucontext.h>

#define ROWS LN_ROWS
#define TURNS 16
#define PAINTED 65536

static const size_t lengths[] = LN_LENGTHS;
static const uint32_t values[ROWS] = {
    0x04002000, 0x04012000, 0x04052000, 0x0E303800, 0x2E303800, 0x4404A000, 0x4405A000, 0x45000000,
    0x45000400, 0x45000800, 0x45000C00, 0x45001000, 0x45001400, 0x45001800, 0x45001C00, 0x45004000,
    0x45004400, 0x45004800, 0x45004C00, 0x45005000, 0x45005400, 0x45005800, 0x45005C00, 0x2518E000,
    0x2518E400};

/* What is lent to a step. */
static size_t k;
static uint8_t z[LN_VECTOR_FILE_BYTES(LN_MOST_K)], p[LN_PREDICATE_FILE_BYTES(LN_MOST_K)];
static uint8_t program[LN_WORD_BYTES], journal[4096];

/* The stack of the steps, and where they come from. */
static uint8_t painted[PAINTED];
static ucontext_t here, there;
static uint64_t number;

typedef uint64_t step_of(size_t, uint8_t, uint8_t *, size_t, uint8_t *, size_t, const uint8_t *, size_t, uint8_t *, size_t);

/* A step that takes nothing but its return address. */
static uint64_t nothing(size_t length, uint8_t facts, uint8_t *vectors, size_t vectors_len, uint8_t *predicates,
                        size_t predicates_len, const uint8_t *words, size_t words_len, uint8_t *entries,
                        size_t entries_len)
{
    (void)facts, (void)vectors, (void)vectors_len, (void)predicates, (void)predicates_len;
    (void)words, (void)words_len, (void)entries, (void)entries_len;
    return length;
}

static step_of *volatile step;

static void run(void)
{
    number = step(k, LN_ALL_FACTS, z, LN_VECTOR_FILE_BYTES(k), p, LN_PREDICATE_FILE_BYTES(k), program, sizeof program, journal,
                  sizeof journal);
}

/* How many bytes of the painted stack one step leaves untouched. */
static size_t untouched(step_of *which, uint8_t paint)
{
    size_t at = 0;

    step = which;
    ln_fresh(k, LN_JOURNAL_VERSION, journal, sizeof journal);
    memset(painted, paint, sizeof painted);
    getcontext(&there);
    there.uc_stack.ss_sp = painted;
    there.uc_stack.ss_size = sizeof painted;
    there.uc_link = &here;
    makecontext(&there, run, 0);
    swapcontext(&here, &there);
    while (at < PAINTED && painted[at] == paint) {
        at++;
    }
    return at;
}

/* The bytes that a step of a word takes below its caller. It is made twice, in two colours, since a step may write the
 * colour itself; and once before, so that what it calls is found. */
static size_t taken(uint32_t word)
{
    static const uint8_t paints[2] = {0xA5, 0x5A};
    size_t most = 0, byte, at;

    for (byte = 0; byte < sizeof program; byte++) {
        program[byte] = (uint8_t)(word >> (8 * byte));
    }
    untouched(ln_step, paints[0]);
    for (at = 0; at < 2; at++) {
        size_t bytes = untouched(nothing, paints[at]) + sizeof(void *) - untouched(ln_step, paints[at]);
        most = bytes > most ? bytes : most;
    }
    return most;
}

/* The word of a row in one of its turns: every size, with Q and without where the row has it, and with the destination
 * among the sources and not; of those that make a predicate some patterns, and every register. After the last row come
 * words that no row has. */
static uint32_t word_of(size_t row, uint32_t turn)
{
    static const uint32_t patterns[] = {LN_ALL, LN_POW2, LN_MUL3, LN_VL16};
    uint32_t size = turn & 3, q = turn >> 2 & 1, destination = turn >> 3 & 1, word = size << 22 | 1u << 5 | destination;

    if (row == ROWS) {
        return word;
    }
    if (row == LN_PTRUE || row == LN_PFALSE) {
        word = row == LN_PTRUE ? size << 22 | patterns[turn >> 2] << 5 : 0;
        return values[row] | word | turn;
    }
    if (row == LN_SADDLV || row == LN_UADDLV) {
        word |= q << 30;
    }
    if (row >= LN_SADDLB) {
        word |= 2u << 16;
    }
    return word | values[row];
}

/* How many steps were done, how many words were refused, and how many of all took too much. */
static size_t done, refused, deep;

/* The bytes that the deepest step of a row takes. */
static size_t most_of(size_t row)
{
    size_t most = 0, length;
    uint32_t turn;

    for (length = 0; length < sizeof lengths / sizeof lengths[0]; length++) {
        k = lengths[length];
        for (turn = 0; turn < TURNS; turn++) {
            size_t bytes = taken(word_of(row, turn));
            done += number == LN_DONE;
            refused += number != LN_DONE;
            deep += bytes > LN_STEP_STACK;
            most = bytes > most ? bytes : most;
        }
    }
    return most;
}

/* Says what a row's deepest step takes, the row by the name in a word's text. */
static void say(size_t row, size_t bytes)
{
    uint8_t text[LN_LEAST_TEXT_OUT];
    int name = 0;

    if (row == ROWS) {
        printf("no row   %d bytes\n", (int)bytes);
        return;
    }
    ln_text(word_of(row, 1), LN_ALL_FACTS, text, sizeof text);
    while (text[name] != ' ') {
        name++;
    }
    printf("%-6.*s   %d bytes\n", name, (const char *)text, (int)bytes);
}

int main(int count, char **arguments)
{
    size_t row;

    (void)arguments;
    memset(z, 0x81, sizeof z);
    memset(p, 0x5F, sizeof p);
    for (row = 0; row <= ROWS; row++) {
        size_t most = most_of(row);
        if (count > 1) {
            say(row, most);
        }
    }
    printf("%d steps done, %d words refused\n", (int)done, (int)refused);
    printf("%d of them took more than %d bytes of stack\n", (int)deep, LN_STEP_STACK);
    return 0;
}
