/* The numbers, names and sentences of include/ln.h, a line each, with the lengths that are accepted; then the
 * rows of the table of words with what each is, the versions of a journal, the patterns, the shapes of the answers,
 * the sets of facts that accept a word of each row, and the line of a step with the greatest answer number. The crate and its reference have the
 * same. Every cast is LN_CAST, so that this is C++ without an old one. */
#include "ln.h"

#include <stddef.h>
#include <stdio.h>

static void say(const char *name, size_t value)
{
    printf("%s %lu\n", name, LN_CAST(unsigned long, value));
}

/* The lengths, and those that a call accepts. */
static void say_lengths(void)
{
    static const size_t lengths[] = LN_LENGTHS;
    uint8_t journal[LN_LEAST_JOURNAL_BYTES];
    size_t k;

    for (k = 0; k < sizeof lengths / sizeof *lengths; k++) {
        say("LENGTHS", lengths[k]);
    }
    for (k = 0; k <= LN_MOST_K + 1; k++) {
        if (ln_fresh(k, LN_JOURNAL_VERSION, journal, sizeof journal) == LN_DONE) {
            say("fresh", k);
        }
    }
}

/* The line of a step at k = 1 over a word of zeros, with the greatest answer number. */
static void say_line(void)
{
    static uint8_t z[LN_VECTOR_FILE_BYTES(1)], p[LN_PREDICATE_FILE_BYTES(1)], program[LN_WORD_BYTES];
    static uint8_t line[LN_LONGEST_LINE];
    struct ln_answer answer = ln_write_line(line, sizeof line, 1, 0, z, sizeof z, p, sizeof p, program,
                                            sizeof program, 0, UINT64_MAX);

    fwrite(line, 1, LN_CAST(size_t, answer.value), stdout);
}

/* The rows of the table of words. */
static void say_rows(void)
{
    say("SADDV", LN_SADDV);
    say("UADDV", LN_UADDV);
    say("ADDQV", LN_ADDQV);
    say("SADDLV", LN_SADDLV);
    say("UADDLV", LN_UADDLV);
    say("SADALP", LN_SADALP);
    say("UADALP", LN_UADALP);
    say("SADDLB", LN_SADDLB);
    say("SADDLT", LN_SADDLT);
    say("UADDLB", LN_UADDLB);
    say("UADDLT", LN_UADDLT);
    say("SSUBLB", LN_SSUBLB);
    say("SSUBLT", LN_SSUBLT);
    say("USUBLB", LN_USUBLB);
    say("USUBLT", LN_USUBLT);
    say("SADDWB", LN_SADDWB);
    say("SADDWT", LN_SADDWT);
    say("UADDWB", LN_UADDWB);
    say("UADDWT", LN_UADDWT);
    say("SSUBWB", LN_SSUBWB);
    say("SSUBWT", LN_SSUBWT);
    say("USUBWB", LN_USUBWB);
    say("USUBWT", LN_USUBWT);
    say("PTRUE", LN_PTRUE);
    say("PFALSE", LN_PFALSE);
}

static void say_widths(const uint64_t *widths)
{
    size_t size;

    for (size = 0; size <= LN_MOST_SIZE; size++) {
        printf(" %lu", LN_CAST(unsigned long, widths[size]));
    }
}

/* Each row by its name with what it is, and the one past the last. */
static void say_what_rows_are(void)
{
    size_t row;

    for (row = 0; row <= LN_ROWS; row++) {
        struct ln_row_about about = ln_read_row(row);
        const uint64_t told[] = {about.number, about.is_signed, about.has_g, about.has_m,
                                 about.has_q, about.reads_destination, about.need};
        size_t at;

        printf("%s", ln_row_name(row));
        for (at = 0; at < sizeof told / sizeof *told; at++) {
            printf(" %lu", LN_CAST(unsigned long, told[at]));
        }
        say_widths(about.n_bytes);
        say_widths(about.m_bytes);
        say_widths(about.d_bytes);
        printf(" %lu %lu %lu\n", LN_CAST(unsigned long, about.has_n), LN_CAST(unsigned long, about.has_pattern),
               LN_CAST(unsigned long, about.writes_predicate));
    }
    printf("%s\n", ln_row_name(UINT64_MAX));
}

/* The versions of a journal, which of some numbers are one, and the registers of entries. */
static void say_journals(void)
{
    static const uint64_t versions[] = {0, 1, 2, 3, 65537, 4294967298u, UINT64_MAX};
    static const uint64_t targets[] = {0, 31, 32, 47};
    uint8_t journal[LN_LEAST_JOURNAL_BYTES];
    size_t at;

    say("JOURNAL_VERSION", LN_JOURNAL_VERSION);
    say("FORMER_JOURNAL_VERSION", LN_FORMER_JOURNAL_VERSION);
    for (at = 0; at < sizeof versions / sizeof *versions; at++) {
        printf("fresh of %lu: %lu\n", LN_CAST(unsigned long, versions[at]),
               LN_CAST(unsigned long, ln_fresh(1, versions[at], journal, sizeof journal)));
    }
    for (at = 0; at < sizeof targets / sizeof *targets; at++) {
        printf("target %lu: %d %lu\n", LN_CAST(unsigned long, targets[at]), LN_IS_PREDICATE(targets[at]),
               LN_CAST(unsigned long, LN_REGISTER_OF(targets[at])));
    }
}

/* The patterns by their names, and those of the enumeration. */
static void say_patterns(void)
{
    uint64_t pattern;

    for (pattern = 0; pattern <= LN_PATTERNS; pattern++) {
        say(ln_pattern_name(pattern), pattern);
    }
    say("POW2", LN_POW2);
    say("VL1", LN_VL1);
    say("VL2", LN_VL2);
    say("VL3", LN_VL3);
    say("VL4", LN_VL4);
    say("VL5", LN_VL5);
    say("VL6", LN_VL6);
    say("VL7", LN_VL7);
    say("VL8", LN_VL8);
    say("VL16", LN_VL16);
    say("VL32", LN_VL32);
    say("VL64", LN_VL64);
    say("VL128", LN_VL128);
    say("VL256", LN_VL256);
    say("MUL4", LN_MUL4);
    say("MUL3", LN_MUL3);
    say("ALL", LN_ALL);
}

/* How many bytes the answers have, and where some of their members stand. */
static void say_shapes(void)
{
    say("bytes of a word's fields", sizeof(struct ln_fields));
    say("its pattern at", offsetof(struct ln_fields, pattern));
    say("bytes of a lane's answer", sizeof(struct ln_lane));
    say("its value at", offsetof(struct ln_lane, value));
    say("its bit at", offsetof(struct ln_lane, bit));
    say("bytes of an entry's answer", sizeof(struct ln_entry));
    say("its target at", offsetof(struct ln_entry, target));
    say("its bytes at", offsetof(struct ln_entry, bytes));
    say("bytes of a row's answer", sizeof(struct ln_row_about));
    say("its need at", offsetof(struct ln_row_about, need));
    say("its d_bytes at", offsetof(struct ln_row_about, d_bytes));
    say("its writes_predicate at", offsetof(struct ln_row_about, writes_predicate));
}

/* The facts, and where a session's are told. */
static void say_facts(void)
{
    say("SVE", LN_SVE);
    say("SVE2", LN_SVE2);
    say("SVE2P1", LN_SVE2P1);
    say("SME", LN_SME);
    say("SME2P1", LN_SME2P1);
    say("ALL_FACTS", LN_ALL_FACTS);
    say("SESSION_VERSION", LN_SESSION_VERSION);
    say("FORMER_SESSION_VERSION", LN_FORMER_SESSION_VERSION);
    say("SESSION_HEADER_BYTES", LN_SESSION_HEADER_BYTES);
    say("FORMER_SESSION_HEADER_BYTES", LN_FORMER_SESSION_HEADER_BYTES);
    say("bytes of a session's answer", sizeof(struct ln_session));
    say("its facts at", offsetof(struct ln_session, facts));
}

/* For a word of each row, at size 1 if the row has a size, and with registers 0, which of the 32 sets of facts accept it. */
static void say_accepted(void)
{
    static const uint32_t words[] = {
        0x04402000, 0x04412000, 0x04452000, 0x0E703800, 0x2E703800, 0x4444A000, 0x4445A000, 0x45400000,
        0x45400400, 0x45400800, 0x45400C00, 0x45401000, 0x45401400, 0x45401800, 0x45401C00, 0x45404000,
        0x45404400, 0x45404800, 0x45404C00, 0x45405000, 0x45405400, 0x45405800, 0x45405C00, 0x2558E000,
        0x2518E400};
    size_t row;
    unsigned facts;

    for (row = 0; row < sizeof words / sizeof *words; row++) {
        printf("row %lu under", LN_CAST(unsigned long, row));
        for (facts = 0; facts <= LN_ALL_FACTS; facts++) {
            struct ln_fields fields = ln_decode(words[row], LN_CAST(uint8_t, facts));
            if (fields.number == LN_DONE && fields.row == row) {
                printf(" %u", facts);
            }
        }
        printf("\n");
    }
}

/* The sizes of the machine and of what is lent. */
static void say_sizes(void)
{
    uint64_t bytes;

    say("LEAST_K", LN_LEAST_K);
    say("MOST_K", LN_MOST_K);
    say_lengths();
    say("VECTOR_REGISTERS", LN_VECTOR_REGISTERS);
    say("PREDICATE_REGISTERS", LN_PREDICATE_REGISTERS);
    say("MOST_WORDS", LN_MOST_WORDS);
    say("JOURNAL_HEADER_BYTES", LN_JOURNAL_HEADER_BYTES);
    say("MOST_JOURNAL_BYTES", LN_MOST_JOURNAL_BYTES);
    say("LEAST_TEXT_OUT", LN_LEAST_TEXT_OUT);
    say("LONGEST_LINE", LN_LONGEST_LINE);
    say("PANEL_BYTES", LN_PANEL_BYTES);
    say("STEP_STACK", LN_STEP_STACK);
    say("VECTOR_BYTES(4)", LN_VECTOR_BYTES(4));
    say("PREDICATE_BYTES(4)", LN_PREDICATE_BYTES(4));
    say("VECTOR_FILE_BYTES(4)", LN_VECTOR_FILE_BYTES(4));
    say("PREDICATE_FILE_BYTES(4)", LN_PREDICATE_FILE_BYTES(4));
    say("JOURNAL_BYTES(4, 5)", LN_JOURNAL_BYTES(4, 5));
    say("SESSION_BYTES(4, 5)", LN_SESSION_BYTES(4, 5));
    say("LANES(4, 3)", LN_LANES(4, 3));
    say("LANE_BYTES(3)", LN_LANE_BYTES(3));
    say("LANE_BIT(5, 2)", LN_LANE_BIT(5, 2));
    for (bytes = 0; bytes <= 9; bytes++) {
        say("size of bytes", ln_size_of(bytes));
    }
}

int main(void)
{
    uint64_t number;

    say_sizes();
    say("VERSION", LN_VERSION);
    say("version", ln_version());
    for (number = LN_LENGTH; number <= LN_SESSION + 1; number++) {
        say(ln_refusal_name(number), number);
    }
    for (number = LN_DONE; number <= LN_SESSION + 1; number++) {
        printf("%lu: %s\n", LN_CAST(unsigned long, number), ln_refusal_text(number));
    }
    say_rows();
    say_what_rows_are();
    say_journals();
    say_patterns();
    say_shapes();
    say_facts();
    say_accepted();
    say_line();
    return 0;
}
