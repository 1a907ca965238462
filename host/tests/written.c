/* What include/ln.h writes by itself, tried on numbers by a rule: lanes and their bits put into files, and
 * sessions, with lengths, files, registers, sizes and lanes that there are and that there are not. For each hundred
 * turns a line has a sum over the answers and all bytes, those after the lent ones too; the last line of each
 * function says how often each answer came. The reference prints the same (written.rs). */
#include "ln.h"

#include <stdio.h>
#include <string.h>

#define TURNS 2000
#define MARGIN 64
#define MOST_BYTES 16384

static uint8_t z[MOST_BYTES], p[MOST_BYTES], program[MOST_BYTES], out[MOST_BYTES];
static uint64_t state, sum;
static unsigned long answers[LN_SESSION + 1];

/* The next number of a rule that starts anew for each function. */
static uint64_t next(void)
{
    state ^= state >> 12;
    state ^= state << 25;
    state ^= state >> 27;
    return state * 0x2545F4914F6CDD1Du;
}

static size_t below(size_t bound)
{
    return LN_CAST(size_t, next() >> 32) % bound;
}

/* So many bytes by the rule, and a margin of one value after them. */
static void fill(uint8_t *bytes, size_t many)
{
    size_t at;

    for (at = 0; at < many; at++) {
        bytes[at] = LN_CAST(uint8_t, next() >> 56);
    }
    memset(bytes + many, 0xA5, MARGIN);
}

/* Takes bytes into the sum, with the margin after them. */
static void add(const uint8_t *bytes, size_t many)
{
    size_t at;

    for (at = 0; at < many + MARGIN; at++) {
        sum = (sum ^ bytes[at]) * 0x100000001B3u;
    }
}

/* A length: mostly one that there is. */
static size_t some_length(void)
{
    static const size_t lengths[] = LN_LENGTHS;
    static const size_t others[] = {0, 3, 12, 15, 17, 32, 257, SIZE_MAX};

    return below(10) == 0 ? others[below(8)] : lengths[below(5)];
}

/* The length to lay files out for. */
static size_t laid_out_for(size_t k)
{
    return k >= LN_LEAST_K && k <= LN_MOST_K ? k : 1;
}

/* Mostly the bytes themselves, sometimes one less or one more. */
static size_t slipped(size_t bytes)
{
    size_t turn = below(20);

    return turn == 0 ? bytes - 1 : turn == 1 ? bytes + 1 : bytes;
}

/* A number: mostly below the bound, sometimes at it, and sometimes the greatest. */
static size_t mostly_below(size_t bound)
{
    size_t turn = below(20);

    return turn == 0 ? bound : turn == 1 ? SIZE_MAX : below(bound);
}

/* Counts an answer, and takes it into the sum. */
static void count(uint64_t number, uint64_t value)
{
    answers[number]++;
    sum = (sum ^ number ^ value) * 0x100000001B3u;
}

static void put_lane(void)
{
    size_t k = some_length(), like = laid_out_for(k), bytes = slipped(LN_VECTOR_FILE_BYTES(like));
    size_t destination = mostly_below(LN_VECTOR_REGISTERS), size = mostly_below(LN_MOST_SIZE + 1);
    size_t lane = mostly_below(LN_LANES(like, size & LN_MOST_SIZE));
    uint64_t value = next();

    fill(z, bytes);
    count(ln_put_lane(k, z, bytes, destination, size, lane, value), 0);
    add(z, bytes);
}

static void put_active(void)
{
    static const uint64_t flags[] = {0, 0, 1, 2, 256, UINT64_MAX};
    size_t k = some_length(), like = laid_out_for(k), bytes = slipped(LN_PREDICATE_FILE_BYTES(like));
    size_t predicate = mostly_below(LN_PREDICATE_REGISTERS), size = mostly_below(LN_MOST_SIZE + 1);
    size_t lane = mostly_below(LN_LANES(like, size & LN_MOST_SIZE));
    uint64_t active = flags[below(6)];

    fill(p, bytes);
    count(ln_put_active(k, p, bytes, predicate, size, lane, active), 0);
    add(p, bytes);
}

static void write_session(void)
{
    size_t k = some_length(), like = laid_out_for(k), words = mostly_below(LN_MOST_WORDS + 1);
    size_t z_len = slipped(LN_VECTOR_FILE_BYTES(like)), p_len = slipped(LN_PREDICATE_FILE_BYTES(like));
    size_t program_len = LN_WORD_BYTES * (words % 1000) + (below(20) == 0 ? 2 : 0);
    size_t out_len = slipped(LN_SESSION_HEADER_BYTES + z_len + p_len + program_len);
    uint8_t facts = LN_CAST(uint8_t, next() >> 56);
    struct ln_answer answer;

    fill(z, z_len);
    fill(p, p_len);
    fill(program, program_len);
    fill(out, out_len);
    answer = ln_write_session(out, out_len, k, facts, z, z_len, p, p_len, program, program_len);
    count(answer.number, answer.value);
    add(out, out_len);
}

static void try_function(const char *name, void turn(void))
{
    size_t at;

    state = 0x9E3779B97F4A7C15u;
    sum = 0;
    memset(answers, 0, sizeof answers);
    for (at = 1; at <= TURNS; at++) {
        turn();
        if (at % 100 == 0) {
            printf("%s %lu: %016lx\n", name, LN_CAST(unsigned long, at), LN_CAST(unsigned long, sum));
        }
    }
    printf("%s", name);
    for (at = 0; at <= LN_SESSION; at++) {
        if (answers[at] != 0) {
            printf(" %s %lu", ln_refusal_name(at), answers[at]);
        }
    }
    printf("\n");
}

int main(void)
{
    try_function("put_lane", put_lane);
    try_function("put_active", put_active);
    try_function("write_session", write_session);
    return 0;
}
