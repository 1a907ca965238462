/* Walks the paper's session in C, over include/ln.h, and prints a line for each step: the session of the
 * former version, the same with all facts, and with none; then one that makes its predicates itself. */
#include "ln.h"

#include <stdio.h>
#include <string.h>

#define K 1
#define WORDS 4

/* The parts of a session after its header. */
#define PARTS (LN_VECTOR_FILE_BYTES(K) + LN_PREDICATE_FILE_BYTES(K) + LN_WORD_BYTES * WORDS)

static uint8_t session[LN_SESSION_HEADER_BYTES + PARTS];
static uint8_t journal[LN_MOST_JOURNAL_BYTES];

/* The paper's words; and ptrue p1.h, vl3, then saddv d0, p1, z1.h, pfalse p1.b and the sum again. */
static const uint32_t paper[WORDS] = {0x04002020, 0x2E303822, 0x45410023, 0x04C02020};
static const uint32_t made[WORDS] = {0x2558E061, 0x04402420, 0x2518E401, 0x04402420};

/* k = 1, Z1 bytes 1 to 16 in order, P0 bytes FF FF, all else zero, four words. */
static void make_parts(uint8_t *vectors, const uint32_t *words)
{
    uint8_t *predicates = vectors + LN_VECTOR_FILE_BYTES(K);
    uint8_t *program = predicates + LN_PREDICATE_FILE_BYTES(K);
    size_t at, byte;

    memset(vectors, 0, PARTS);
    for (at = 0; at < 16; at++) {
        vectors[LN_VECTOR_BYTES(K) + at] = (uint8_t)(at + 1);
    }
    predicates[0] = 0xFF;
    predicates[1] = 0xFF;
    for (at = 0; at < WORDS; at++) {
        for (byte = 0; byte < LN_WORD_BYTES; byte++) {
            program[LN_WORD_BYTES * at + byte] = (uint8_t)(words[at] >> (8 * byte));
        }
    }
}

/* The session of the former version, which has no facts; its bytes. */
static size_t make_former_session(void)
{
    const uint8_t header[] = {'L', 'N', 'W', LN_FORMER_SESSION_VERSION, 0, K, WORDS, 0};

    memcpy(session, header, LN_FORMER_SESSION_HEADER_BYTES);
    make_parts(session + LN_FORMER_SESSION_HEADER_BYTES, paper);
    return LN_FORMER_SESSION_HEADER_BYTES + PARTS;
}

/* The session with these facts and words; its bytes. */
static size_t make_session(uint8_t facts, const uint32_t *words)
{
    const uint8_t header[] = {'L', 'N', 'W', LN_SESSION_VERSION, 0, K, WORDS, 0, facts};

    memcpy(session, header, LN_SESSION_HEADER_BYTES);
    make_parts(session + LN_SESSION_HEADER_BYTES, words);
    return LN_SESSION_HEADER_BYTES + PARTS;
}

static void walk(size_t bytes)
{
    struct ln_session parts = ln_read_session(session, bytes);
    uint8_t *z, *p, *program, facts;
    size_t z_bytes, p_bytes, program_bytes;

    if (parts.number != LN_DONE) {
        printf("%d\n", (int)parts.number);
        return;
    }
    facts = (uint8_t)parts.facts;
    z = session + parts.vectors;
    p = session + parts.predicates;
    program = session + parts.program;
    z_bytes = LN_VECTOR_FILE_BYTES(parts.k);
    p_bytes = LN_PREDICATE_FILE_BYTES(parts.k);
    program_bytes = LN_WORD_BYTES * parts.count;
    ln_fresh(parts.k, LN_JOURNAL_VERSION, journal, sizeof journal);

    for (;;) {
        size_t position = (size_t)ln_position(parts.k, journal, sizeof journal).value;
        struct ln_word next = ln_read_word(program, program_bytes, position);
        uint64_t number =
            ln_step(parts.k, facts, z, z_bytes, p, p_bytes, program, program_bytes, journal, sizeof journal);
        if (number == LN_END) {
            break;
        }
        printf("%d %d ", (int)position, (int)number);
        if (number != LN_DONE) {
            printf("%08lx\n", (unsigned long)next.word);
            break;
        }
        {
            uint8_t text[LN_LEAST_TEXT_OUT];
            struct ln_answer length = ln_text((uint32_t)next.word, facts, text, sizeof text);
            struct ln_fields fields = ln_decode((uint32_t)next.word, facts);
            uint64_t predicate = ln_read_row((size_t)fields.row).writes_predicate;
            struct ln_place place =
                ln_register_place(parts.k, z, z_bytes, p, p_bytes, predicate, (size_t)fields.d);
            const uint8_t *file = place.predicate ? p : z;
            size_t byte;

            printf("%.*s ", (int)length.value, (const char *)text);
            for (byte = place.bytes; byte > 0; byte--) {
                printf("%02x", file[place.start + byte - 1]);
            }
            printf("\n");
        }
    }
}

int main(void)
{
    walk(make_former_session());
    walk(make_session(LN_ALL_FACTS, paper));
    walk(make_session(0, paper));
    /* A higher bit, and a byte too few. */
    walk(make_session(LN_ALL_FACTS + 1, paper));
    walk(make_session(LN_ALL_FACTS, paper) - 1);
    walk(make_session(LN_SVE, made));
    walk(make_session(LN_SVE2, made));
    return 0;
}
