/* A kernel of sixteen channels drawn, stepped and taken back, and kept as a session, over include/ln.h alone. */
#include "ln.h"

#include <stdio.h>

#if LN_VERSION < 8
#error "this example needs the calls of version 8"
#endif

#define K 2
#define CHANNELS 16
#define SIZE 1 /* channels of two bytes */
#define FACTS (LN_SVE | LN_SVE2 | LN_SVE2P1)

static uint8_t z[LN_VECTOR_FILE_BYTES(K)];
static uint8_t p[LN_PREDICATE_FILE_BYTES(K)];
static uint8_t journal[LN_JOURNAL_BYTES(K, 8)];

/* Says what a call answered, and gives it on. */
static uint64_t told(const char *call, uint64_t number)
{
    printf("%s: %s, %s\n", call, ln_refusal_name(number), ln_refusal_text(number));
    return number;
}

/* Z1 has 100, 99 and so on in its lanes, and P0 makes them active but for channels 3 and 8. */
static void set_channels(void)
{
    size_t e;

    for (e = 0; e < CHANNELS; e++) {
        ln_put_lane(K, z, sizeof z, 1, SIZE, e, 100 - e);
        ln_put_active(K, p, sizeof p, 0, SIZE, e, e != 3 && e != 8);
    }
}

/* The channels from lane 0 on, those that are off in brackets, and the sum beneath them. */
static void show_channels(void)
{
    struct ln_answer sum = ln_subtotal(K, z, sizeof z, p, sizeof p, 1, 0, SIZE, 1, 0, CHANNELS);
    size_t e;

    printf("z1:");
    for (e = 0; e < LN_LANES(K, SIZE); e++) {
        struct ln_lane lane = ln_read_lane(K, z, sizeof z, p, sizeof p, 1, 0, SIZE, 1, e);
        printf(lane.active ? " %d" : " (%d)", (int)lane.value);
    }
    printf("\n    sum %d\n", (int)sum.value);
}

/* The lanes of Z0, the destination, whatever the predicate says. */
static void show_z0(void)
{
    size_t e;

    printf("z0:");
    for (e = 0; e < LN_LANES(K, SIZE); e++) {
        printf(" %d", (int)ln_read_lane(K, z, sizeof z, p, sizeof p, 0, 0, SIZE, 1, e).value);
    }
    printf("\n");
}

/* The journal's position, and what the last step's destination held before it. */
static void show_journal(void)
{
    struct ln_answer position = ln_position(K, journal, sizeof journal);
    struct ln_entry last;

    printf("position: %d\n", (int)position.value);
    if (position.value > 0) {
        last = ln_read_entry(K, journal, sizeof journal, (size_t)position.value - 1);
        printf("%c%d held %02x %02x one step ago\n", LN_IS_PREDICATE(last.target) ? 'p' : 'z',
               (int)LN_REGISTER_OF(last.target), journal[last.start], journal[last.start + 1]);
    }
}

/* The names of a byte's facts. */
static void show_facts(uint64_t facts)
{
    static const char *const names[] = {"SVE", "SVE2", "SVE2p1", "SME", "SME2p1"};
    size_t bit;

    for (bit = 0; bit < sizeof names / sizeof *names; bit++) {
        if (facts >> bit & 1) {
            printf(" %s", names[bit]);
        }
    }
}

/* What a word is, or why a core with these facts does not have it. */
static void show_word(uint32_t word, uint8_t facts)
{
    struct ln_fields fields = ln_decode(word, facts);

    if (fields.number == LN_UNDEFINED && ln_decode(word, LN_ALL_FACTS).number == LN_DONE) {
        fields = ln_decode(word, LN_ALL_FACTS);
        printf("%s needs one of", ln_row_name(fields.row));
        show_facts(ln_read_row((size_t)fields.row).need);
        printf(", and the core has");
        show_facts(facts);
        printf("\n");
    } else if (fields.number == LN_DONE) {
        printf("%s of z%d, governed by p%d\n", ln_row_name(fields.row), (int)fields.n, (int)fields.g);
    }
}

/* The rows that addqv adds. */
static void show_panel(void)
{
    uint8_t panel[LN_PANEL_BYTES];
    size_t row, byte;

    told("panel", ln_panel(K, z, sizeof z, p, sizeof p, 1, 0, SIZE, panel, sizeof panel));
    for (row = 0; row < K; row++) {
        printf("row %d:", (int)row);
        for (byte = 0; byte < LN_PANEL_ROW_BYTES; byte += LN_LANE_BYTES(SIZE)) {
            printf(" %3d", panel[LN_PANEL_ROW_BYTES * row + byte]);
        }
        printf("\n");
    }
}

static uint64_t step(uint8_t facts, const uint8_t *program)
{
    return ln_step(K, facts, z, sizeof z, p, sizeof p, program, LN_WORD_BYTES, journal, sizeof journal);
}

/* A program of one word, its lowest byte first. A core with SVE2 alone does not have it. */
static uint64_t make_program(uint8_t *program)
{
    static const char text[] = "addqv v0.8h, p0, z1.h";
    struct ln_answer answer = ln_assemble((const uint8_t *)text, sizeof text - 1, FACTS);
    size_t byte;

    told("assemble on SVE2", ln_assemble((const uint8_t *)text, sizeof text - 1, LN_SVE | LN_SVE2).number);
    for (byte = 0; byte < LN_WORD_BYTES; byte++) {
        program[byte] = (uint8_t)(answer.value >> 8 * byte);
    }
    show_word((uint32_t)answer.value, LN_SVE | LN_SVE2);
    show_word((uint32_t)answer.value, FACTS);
    return told("assemble", answer.number);
}

/* All of it as a session, which bash run walks once it is in a file. */
static void keep(const uint8_t *program)
{
    static uint8_t session[LN_SESSION_BYTES(K, 1)];
    struct ln_answer answer = ln_write_session(session, sizeof session, K, FACTS, z, sizeof z, p, sizeof p, program,
                                               LN_WORD_BYTES);

    told("session", answer.number);
    printf("%d bytes\n", (int)answer.value);
}

int main(void)
{
    uint8_t program[LN_WORD_BYTES], line[LN_LONGEST_LINE];
    struct ln_answer answer;

    if (ln_version() != LN_VERSION) {
        printf("the library is not of this header's version\n");
        return 1;
    }
    set_channels();
    if (make_program(program) != LN_DONE) {
        return 1;
    }

    told("fresh", ln_fresh(K, LN_JOURNAL_VERSION, journal, sizeof journal));
    show_journal();
    show_channels();
    told("step on SVE2", step(LN_SVE | LN_SVE2, program));
    told("step", step(FACTS, program));
    show_journal();
    show_z0();
    answer = ln_write_line(line, sizeof line, K, FACTS, z, sizeof z, p, sizeof p, program, sizeof program, 0, LN_DONE);
    fwrite(line, 1, (size_t)answer.value, stdout);
    told("step", step(FACTS, program));
    told("back", ln_back(K, z, sizeof z, p, sizeof p, journal, sizeof journal));
    show_journal();
    show_z0();
    show_panel();
    keep(program);
    return 0;
}
