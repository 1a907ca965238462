/* A kernel that makes its own predicates, as a compiler writes it: stepped, drawn and taken back over include/ln.h. */
#include "ln.h"

#include <stdio.h>
#include <string.h>

#if LN_VERSION < 8
#error "this example needs the calls of version 8"
#endif

#define K 2
#define SIZE 1 /* channels of two bytes */
#define WORDS 5

static uint8_t z[LN_VECTOR_FILE_BYTES(K)];
static uint8_t p[LN_PREDICATE_FILE_BYTES(K)];
static uint8_t program[LN_WORD_BYTES * WORDS];
static uint8_t journal[LN_JOURNAL_BYTES(K, WORDS)];

/* All lanes in P0 and three in P1; a sum with each; and P0 cleared at the end. */
static const char *const kernel[WORDS] = {
    "ptrue p0.h, all", "ptrue p1.h, vl3", "saddv d0, p0, z1.h", "saddv d2, p1, z1.h", "pfalse p0.b",
};

/* The program's words, their lowest bytes first; 1 where each text has one. */
static int make_program(void)
{
    size_t at, byte;

    for (at = 0; at < WORDS; at++) {
        struct ln_answer word = ln_assemble((const uint8_t *)kernel[at], strlen(kernel[at]), LN_SVE);
        if (word.number != LN_DONE) {
            return 0;
        }
        for (byte = 0; byte < LN_WORD_BYTES; byte++) {
            program[LN_WORD_BYTES * at + byte] = (uint8_t)(word.value >> 8 * byte);
        }
    }
    return 1;
}

/* The lanes that a predicate makes active, lane 0 first. */
static void show_lanes(size_t predicate)
{
    size_t e;

    printf("p%d:", (int)predicate);
    for (e = 0; e < LN_LANES(K, SIZE); e++) {
        printf(ln_read_lane(K, z, sizeof z, p, sizeof p, 1, predicate, SIZE, 1, e).active ? " 1" : " .");
    }
    printf("\n");
}

/* What an entry's register held before its step, highest byte first: a vector's bytes or a predicate's. */
static void show_entry(size_t index)
{
    struct ln_entry entry = ln_read_entry(K, journal, sizeof journal, index);
    uint64_t byte;

    printf("step %d wrote %c%d, which held ", (int)index, LN_IS_PREDICATE(entry.target) ? 'p' : 'z',
           (int)LN_REGISTER_OF(entry.target));
    for (byte = entry.bytes; byte > 0; byte--) {
        printf("%02x", journal[entry.start + byte - 1]);
    }
    printf("\n");
}

/* Steps the whole program, a line for each step. */
static void walk(void)
{
    uint8_t line[LN_LONGEST_LINE];
    size_t at;

    for (at = 0; at < WORDS; at++) {
        uint64_t number =
            ln_step(K, LN_SVE, z, sizeof z, p, sizeof p, program, sizeof program, journal, sizeof journal);
        struct ln_answer length = ln_write_line(line, sizeof line, K, LN_SVE, z, sizeof z, p, sizeof p, program,
                                                sizeof program, at, number);
        fwrite(line, 1, (size_t)length.value, stdout);
    }
}

/* The first step in a journal that a school's older viewer can read: it has no entry for a predicate. */
static void step_formerly(void)
{
    static uint8_t former[LN_JOURNAL_BYTES(K, WORDS)];
    uint64_t number;

    ln_fresh(K, LN_FORMER_JOURNAL_VERSION, former, sizeof former);
    number = ln_step(K, LN_SVE, z, sizeof z, p, sizeof p, program, sizeof program, former, sizeof former);
    printf("in version %d: %s\n", LN_FORMER_JOURNAL_VERSION, ln_refusal_name(number));
}

int main(void)
{
    struct ln_fields second;
    size_t at;

    if (ln_version() != LN_VERSION || !make_program()) {
        return 1;
    }
    for (at = 0; at < LN_LANES(K, SIZE); at++) {
        ln_put_lane(K, z, sizeof z, 1, SIZE, at, at + 1);
    }
    second = ln_decode((uint32_t)ln_read_word(program, sizeof program, 1).word, LN_SVE);
    printf("%s of p%d by the pattern %s\n", ln_row_name(second.row), (int)second.d, ln_pattern_name(second.pattern));

    step_formerly();
    ln_fresh(K, LN_JOURNAL_VERSION, journal, sizeof journal);
    walk();
    show_lanes(0);
    show_lanes(1);
    for (at = 0; at < WORDS; at++) {
        show_entry(at);
    }
    ln_back(K, z, sizeof z, p, sizeof p, journal, sizeof journal);
    printf("one step back\n");
    show_lanes(0);
    return 0;
}
