/* The engine of a vector-code viewer, for C and C++: decode, name, assemble, execute and un-execute
 * twenty-three of Arm's A64 adding and subtracting instructions, and two that make a predicate. A whole
 * program, which steps one word and prints "the call is done: 1000":
 *
 *     #include "ln.h"
 *     #include <stdio.h>
 *     static uint8_t z[LN_VECTOR_FILE_BYTES(1)], p[LN_PREDICATE_FILE_BYTES(1)];
 *     static uint8_t journal[LN_JOURNAL_BYTES(1, 1)];
 *     int main(void) {
 *         const uint8_t program[] = {0x20, 0x20, 0x40, 0x04}; // the word 04402020: saddv d0, p0, z1.h
 *         ln_put_lane(1, z, sizeof z, 1, 1, 7, 1000);         // 1000 into lane 7 of Z1, of two bytes
 *         ln_put_active(1, p, sizeof p, 0, 1, 7, 1);          // P0 makes it active, and no other lane
 *         ln_fresh(1, LN_JOURNAL_VERSION, journal, sizeof journal);
 *         uint64_t number =
 *             ln_step(1, LN_SVE, z, sizeof z, p, sizeof p, program, 4, journal, sizeof journal);
 *         struct ln_lane sum = ln_read_lane(1, z, sizeof z, p, sizeof p, 0, 0, 3, 1, 0); // d0
 *         printf("%s: %lu\n", ln_refusal_text(number), (unsigned long)sum.value);
 *     }
 *
 * host/examples/pane.c is a longer one: sixteen channels are drawn, stepped and taken back. In
 * host/examples/kernel.c a kernel makes its own predicates.
 *
 * Link with libln.a, which is code for x86-64 Linux: from the repository's folder
 *
 *     gcc -Iinclude program.c crates/ln/out/libln.a && ./a.out
 *
 * On another processor a compiler for x86-64 builds the program and an emulator runs it. On aarch64 Linux
 * with Debian's packages gcc-x86-64-linux-gnu and qemu-user that is
 *
 *     x86_64-linux-gnu-gcc -static -Iinclude program.c crates/ln/out/libln.a && qemu-x86_64 ./a.out
 *
 * Calls. No value has to be checked before a call: every call ends for every k, number, facts, length
 * and content of the lent bytes, with LN_DONE or with a refusal. A refusal gives zero in place of every
 * value (but struct ln_word keeps its place) and changes no lent byte. Refusals are tested in the order
 * of their numbers, except that LN_OUT is tested before LN_UNKNOWN, and that ln_step tests for LN_JOURNAL
 * once more before LN_FULL: a word that writes a predicate has no entry in a journal of the former version.
 *
 * What no call can test, and its caller owes: bytes are lent as a pointer and a length, and the
 * pointer reaches as many bytes as the length says (that of an empty part may be anything); bytes that
 * a call may write, those without const, do not overlap anything else that is lent to the same call.
 * The library keeps no pointer after a call and has no state of its own: calls on other bytes may run
 * at the same time.
 *
 * The machine. A length k, one of 1, 2, 4, 8 and 16, stands for vectors of 16k bytes. Every other length
 * is refused, those between too: Arm's manual has powers of two alone, so a layout at k = 3, 384 bits,
 * would fit no chip. The vector file is Z0 to Z31 one after the other, 16k bytes each; the predicate file
 * is P0 to P15, 2k bytes each. V<n> is the low 16 bytes of Z<n>, and a word that writes V<n> sets the
 * higher bytes of Z<n> to zero. P0 to P7 can govern; ptrue and pfalse can write each of the sixteen.
 *
 * Lanes. A size is 0, 1, 2 or 3 for lanes of 1, 2, 4 or 8 bytes; their letters are b, h, s and d. With
 * w bytes to a lane, lane e is the bytes e*w up to e*w + w - 1 of its register, the lowest byte first;
 * lane 0 is the least significant. Lane e is active exactly when bit e*w of the predicate is set: bit
 * (e*w) % 8 of its byte (e*w) / 8, bit 0 being the lowest. The other bits of a predicate do not matter:
 * at size 1 the first byte 05 makes lanes 0 and 1 active, and 03 lane 0 alone. A word that makes a predicate
 * sets the one bit of each lane that its pattern makes active, and clears every other: enum ln_pattern.
 *
 * A program is 0 to 256 words of four bytes, the lowest byte first: 04002020 is the bytes 20 20 00 04.
 *
 * Facts. Which words a core has is told by five facts about it, the bits of a byte: enum ln_fact. None
 * implies another: a core with SVE2 has LN_SVE | LN_SVE2, and one with SME alone LN_SME. The rows need
 *
 *     saddv, uaddv, ptrue, pfalse    LN_SVE or LN_SME
 *     addqv                          LN_SVE2P1 or LN_SME2P1
 *     saddlv, uaddlv                 nothing
 *     all others                     LN_SVE2 or LN_SME
 *
 * A word whose row needs what the facts lack is LN_UNDEFINED, as one whose size is not allowed. Facts
 * never make a word LN_UNKNOWN, and what an accepted word does and how it reads does not depend on them.
 * With LN_ALL_FACTS no word is refused for want of a fact. A call that takes facts looks at the bits of
 * enum ln_fact alone: the three higher bits of the byte do not matter there and are not refused.
 *
 * Which of the two causes an LN_UNDEFINED has is told by ln_decode with LN_ALL_FACTS. If that is LN_DONE, the
 * facts lack what the row needs, and ln_read_row of the row that was told has in `need` the facts of which
 * one is enough. If it is LN_UNDEFINED again, the size is not allowed, whatever the core is. In the same way
 * ln_assemble with LN_ALL_FACTS tells whether a text that is LN_TEXT has a word on some core.
 *
 * The facts should stay the same from one step of a journal to the next: that steps forward and back
 * leave what a plain walk leaves is promised for unchanged facts. A step back needs no facts and is never
 * refused for want of one.
 *
 * A journal is what steps back need. The caller lends it and ln_fresh writes it first:
 *
 *     byte 0   'L' 'N' 'J'
 *     byte 3   version, 16 bits, the lower byte first: LN_JOURNAL_VERSION or LN_FORMER_JOURNAL_VERSION
 *     byte 5   k
 *     byte 6   count, 16 bits, the lower byte first
 *     byte 8   entries of 1 + 16k bytes, the oldest first: a step's destination number, its old bytes
 *
 * The numbers of an entry are 0 to 31 for Z0 to Z31, with 16k old bytes, and in version 2 also 32 to 47 for P0
 * to P15, with 2k old bytes first and zeros after them up to 16k. What a step back restores goes by the
 * number; the bytes after a predicate's old ones are not looked at. Version 1 has no entries of predicates,
 * and there a step that would write one is LN_JOURNAL.
 *
 * ln_fresh is told the version, 1 or 2, and every other call reads it in the journal. A school's older viewer,
 * linked with a library before version 8, reads version 1 alone: write that for a journal that it is to read,
 * and LN_JOURNAL_VERSION for all others. A journal keeps its version; steps of words that write no predicate
 * leave the same bytes in both, but for the version itself.
 *
 * The position is the journal's count: how many steps were made and not taken back, and so the number
 * of the word, from 0, that the next step executes. A journal of n bytes has room for
 * (n - 8) / (1 + 16k) entries, 256 at most; the largest, of 65,536 bytes, holds 256, but 254 at k = 16.
 * It is well formed if mark, version and k are right, the count is at most 256 and at most its room,
 * and each counted entry's number is at most 47, or 31 in version 1. Bytes past the counted entries are not
 * looked at.
 *
 * A session is files and a program to start from, the facts of the core, and nothing more:
 *
 *     byte 0             'L' 'N' 'W'
 *     byte 3             version, 16 bits, the lower byte first: LN_SESSION_VERSION
 *     byte 5             k
 *     byte 6             number of words, 16 bits, the lower byte first
 *     byte 8             facts
 *     byte 9             vector file
 *     byte 9 + 512k      predicate file
 *     byte 9 + 544k      words
 *
 * Here the facts are stored and are tested: a session whose facts have a higher bit set, 5, 6 or 7, is
 * refused. The former version, LN_FORMER_SESSION_VERSION, has no facts and means all five:
 *
 *     byte 0             'L' 'N' 'W'
 *     byte 3             version, 16 bits, the lower byte first: LN_FORMER_SESSION_VERSION
 *     byte 5             k
 *     byte 6             number of words, 16 bits, the lower byte first
 *     byte 8             vector file
 *     byte 8 + 512k      predicate file
 *     byte 8 + 544k      words
 *
 * Both are read; every other version is refused.
 */
#ifndef LN_H
#define LN_H

#include <stddef.h>
#include <stdint.h>

#ifdef __cplusplus
extern "C" {
#endif

/* A value as another type: C's own cast, which C++ compilers can be told to warn of, or C++'s. */
#ifdef __cplusplus
#define LN_CAST(type, value) static_cast<type>(value)
#else
#define LN_CAST(type, value) ((type)(value))
#endif

/* The version of this header. It grows with every change that a program can notice; ln_version tells that of
 * the library which the program was linked with. */
#define LN_VERSION 8

/* The versions of the stored forms: of a journal the newest and the former, both read and written; of a session
 * the newest, and the former, which is read too. */
#define LN_JOURNAL_VERSION 2
#define LN_FORMER_JOURNAL_VERSION 1
#define LN_SESSION_VERSION 2
#define LN_FORMER_SESSION_VERSION 1

/* The answer numbers. Later versions may have more. */
enum ln_number {
    LN_DONE = 0,      /* done */
    LN_LENGTH = 1,    /* k is not 1, 2, 4, 8 or 16 */
    LN_FILE = 2,      /* vector file not 512k bytes, or predicate file not 32k */
    LN_PROGRAM = 3,   /* program not whole words, or over 256 words */
    LN_ROOM = 4,      /* journal under 8 or over 65,536 bytes */
    LN_JOURNAL = 5,   /* journal not well formed, or of a version that has no entry for the step: which of the
                         two, ln_position tells, as is said at ln_step; or ln_fresh was told a version that
                         there is not */
    LN_END = 6,       /* the place is not below the number of words */
    LN_UNKNOWN = 7,   /* no row of the table matches the word */
    LN_UNDEFINED = 8, /* a row matches; its size is not allowed, or the facts lack what it needs: which of
                         the two, ln_decode with LN_ALL_FACTS tells, as is said under Facts above */
    LN_FULL = 9,      /* no further entry fits into the journal */
    LN_EMPTY = 10,    /* back with count 0 */
    LN_OUT = 11,      /* output too short */
    LN_TEXT = 12,     /* not one of the accepted texts, or one whose word the facts do not accept */
    LN_RANGE = 13,    /* a register, predicate, size, lane, range of lanes, entry or row that is not there */
    LN_SESSION = 14   /* not a session */
};

/* The rows of the table of words, in its order; s is signed, u unsigned. Later versions may have more.
 *
 * From LN_SADDLB to LN_USUBWT a word has no predicate and sizes 1 to 3, and each lane e of Z<d> is two numbers
 * added (add) or the first less the second (sub), modulo 2^width. The second is a half-width lane of
 * Z<m>, extended: lane 2e (b, bottom) or 2e + 1 (t, top). The first is in a long row (l) the half-width
 * lane of Z<n> with that number, extended, and in a wide row (w) lane e of Z<n> at the full width. */
enum ln_row {
    LN_SADDV = 0,  /* the sum of the active lanes, 64 bits; sizes 0 to 2 */
    LN_UADDV = 1,  /* the same; sizes 0 to 3 */
    LN_ADDQV = 2,  /* for each place in a segment of 16 bytes, the sum of the active lanes there; 0 to 3 */
    LN_SADDLV = 3, /* the sum of all lanes of V<n>, at twice the width; 0, 1, and 2 where q is 1 */
    LN_UADDLV = 4,
    LN_SADALP = 5, /* each active lane e of Z<d> gains the half-width lanes 2e and 2e + 1 of Z<n>; 1 to 3 */
    LN_UADALP = 6,
    LN_SADDLB = 7, /* long sum: half-width lanes 2e of Z<n> and Z<m> */
    LN_SADDLT = 8, /* the same of lanes 2e + 1 */
    LN_UADDLB = 9,
    LN_UADDLT = 10,
    LN_SSUBLB = 11, /* long difference: half-width lanes 2e of Z<n> less those of Z<m> */
    LN_SSUBLT = 12, /* the same of lanes 2e + 1 */
    LN_USUBLB = 13,
    LN_USUBLT = 14,
    LN_SADDWB = 15, /* wide sum: lanes e of Z<n> and half-width lanes 2e of Z<m> */
    LN_SADDWT = 16, /* the same with lanes 2e + 1 */
    LN_UADDWB = 17,
    LN_UADDWT = 18,
    LN_SSUBWB = 19, /* wide difference: lanes e of Z<n> less half-width lanes 2e of Z<m> */
    LN_SSUBWT = 20, /* the same with lanes 2e + 1 */
    LN_USUBWB = 21,
    LN_USUBWT = 22,
    LN_PTRUE = 23, /* the bit of each lane of P<d> that the pattern makes active, and no other bit; 0 to 3 */
    LN_PFALSE = 24 /* no bit of P<d> is set; size 0 */
};

/* How many rows there are. */
#define LN_ROWS 25

/* The patterns of ptrue, bits 9:5 of its word: how many lanes are active, lane 0 being the first. A fixed number
 * above the number of lanes makes none active, and so do the numbers from 14 to 28, which have no name. */
enum ln_pattern {
    LN_POW2 = 0, /* the largest power of two that is not above the number of lanes */
    LN_VL1 = 1,  /* one lane, and so on */
    LN_VL2 = 2,
    LN_VL3 = 3,
    LN_VL4 = 4,
    LN_VL5 = 5,
    LN_VL6 = 6,
    LN_VL7 = 7,
    LN_VL8 = 8,
    LN_VL16 = 9, /* sixteen lanes, and so on */
    LN_VL32 = 10,
    LN_VL64 = 11,
    LN_VL128 = 12,
    LN_VL256 = 13,
    LN_MUL4 = 29, /* the largest multiple of four that is not above the number of lanes */
    LN_MUL3 = 30, /* the largest multiple of three */
    LN_ALL = 31   /* every lane */
};

/* How many patterns there are. */
#define LN_PATTERNS 32

/* The facts about a core, to be joined by |. A row that names two needs one of them; rows LN_SADDLV and
 * LN_UADDLV need none. None implies another: LN_SVE2 without LN_SVE does not give a core saddv. */
enum ln_fact {
    LN_SVE = 1,    /* or LN_SME: rows LN_SADDV, LN_UADDV, LN_PTRUE and LN_PFALSE */
    LN_SVE2 = 2,   /* or LN_SME: the rows from LN_SADALP to LN_USUBWT */
    LN_SVE2P1 = 4, /* or LN_SME2P1: row LN_ADDQV */
    LN_SME = 8,
    LN_SME2P1 = 16
};

/* All five. */
#define LN_ALL_FACTS 31

/* Sizes of the machine. */
#define LN_LEAST_K 1
#define LN_MOST_K 16
#define LN_LENGTHS {1, 2, 4, 8, 16} /* every k that is accepted, to start an array with */
#define LN_VECTOR_REGISTERS 32
#define LN_PREDICATE_REGISTERS 16
#define LN_GOVERNING_REGISTERS 8
#define LN_VECTOR_BYTES(k) (16 * LN_CAST(size_t, k))
#define LN_PREDICATE_BYTES(k) (2 * LN_CAST(size_t, k))
#define LN_VECTOR_FILE_BYTES(k) (LN_VECTOR_REGISTERS * LN_VECTOR_BYTES(k))
#define LN_PREDICATE_FILE_BYTES(k) (LN_PREDICATE_REGISTERS * LN_PREDICATE_BYTES(k))

/* Lanes: how many bytes one has, how many a vector has, and the predicate bit of lane e. */
#define LN_MOST_SIZE 3
#define LN_LANE_BYTES(size) (LN_CAST(size_t, 1) << (size))
#define LN_LANES(k, size) (LN_VECTOR_BYTES(k) >> (size))
#define LN_LANE_BIT(e, size) (LN_CAST(size_t, e) << (size))

/* The size of lanes that have so many bytes, 1, 2, 4 or 8; for every other number one that is refused. */
static inline size_t ln_size_of(uint64_t bytes)
{
    size_t size = 0;

    while (size <= LN_MOST_SIZE && LN_LANE_BYTES(size) != bytes) {
        size++;
    }
    return size;
}

/* Sizes of what is lent. */
#define LN_WORD_BYTES 4
#define LN_MOST_WORDS 256
#define LN_JOURNAL_HEADER_BYTES 8
#define LN_LEAST_JOURNAL_BYTES 8
#define LN_MOST_JOURNAL_BYTES 65536
#define LN_ENTRY_BYTES(k) (1 + LN_VECTOR_BYTES(k))
#define LN_JOURNAL_BYTES(k, entries) (LN_JOURNAL_HEADER_BYTES + LN_CAST(size_t, entries) * LN_ENTRY_BYTES(k))
#define LN_LEAST_TEXT_OUT 32
#define LN_LONGEST_TEXT 26
#define LN_LONGEST_LINE 546
#define LN_PANEL_ROWS 16
#define LN_PANEL_ROW_BYTES 16
#define LN_PANEL_BYTES 256
#define LN_SESSION_HEADER_BYTES 9
#define LN_FORMER_SESSION_HEADER_BYTES 8
#define LN_SESSION_BYTES(k, words)                                                                        \
    (LN_SESSION_HEADER_BYTES + LN_VECTOR_FILE_BYTES(k) + LN_PREDICATE_FILE_BYTES(k) +                     \
     LN_WORD_BYTES * LN_CAST(size_t, words))

/* The most bytes of stack that ln_step takes below its caller, with its return address and all that it
 * calls. It is measured, on the library's own code, and not proved. */
#define LN_STEP_STACK 384

/* The name of an answer number, as the enumeration has it: "DONE", "LENGTH" and so on. */
static inline const char *ln_refusal_name(uint64_t number)
{
    switch (number) {
    case LN_DONE:
        return "DONE";
    case LN_LENGTH:
        return "LENGTH";
    case LN_FILE:
        return "FILE";
    case LN_PROGRAM:
        return "PROGRAM";
    case LN_ROOM:
        return "ROOM";
    case LN_JOURNAL:
        return "JOURNAL";
    case LN_END:
        return "END";
    case LN_UNKNOWN:
        return "UNKNOWN";
    case LN_UNDEFINED:
        return "UNDEFINED";
    case LN_FULL:
        return "FULL";
    case LN_EMPTY:
        return "EMPTY";
    case LN_OUT:
        return "OUT";
    case LN_TEXT:
        return "TEXT";
    case LN_RANGE:
        return "RANGE";
    case LN_SESSION:
        return "SESSION";
    default:
        return "no answer number";
    }
}

/* What an answer number says, in a sentence. */
static inline const char *ln_refusal_text(uint64_t number)
{
    static const char *const texts[] = {
        "the call is done",
        "the length is not 1, 2, 4, 8 or 16",
        "the vector file has not 512k bytes, or the predicate file not 32k",
        "the program is not whole words, or has over 256 of them",
        "the journal has under 8 or over 65,536 bytes",
        "the journal is not well formed, or its version is not one that can do this",
        "the program has no word at this place",
        "no row of the table matches the word",
        "a row matches the word, but the size is not allowed or the facts lack what the row needs",
        "no further entry fits into the journal",
        "the journal holds no step to take back",
        "the output is too short",
        "no word that these facts accept has this text",
        "there is no such register, predicate, size, lane, range of lanes, entry or row",
        "the bytes are not a session",
    };

    return number < sizeof texts / sizeof *texts ? texts[number] : "no answer has this number";
}

/* The name of a row, as a word's text begins with it: "saddv" and so on; "no row" past the last. */
static inline const char *ln_row_name(uint64_t row)
{
    static const char *const names[] = {
        "saddv",  "uaddv",  "addqv",  "saddlv", "uaddlv", "sadalp", "uadalp", "saddlb",
        "saddlt", "uaddlb", "uaddlt", "ssublb", "ssublt", "usublb", "usublt", "saddwb",
        "saddwt", "uaddwb", "uaddwt", "ssubwb", "ssubwt", "usubwb", "usubwt", "ptrue",
        "pfalse",
    };

    return row < LN_ROWS ? names[row] : "no row";
}

/* A pattern as the text of a ptrue has it: "vl16", or "#14" where it has no name; "no pattern" past the last. */
static inline const char *ln_pattern_name(uint64_t pattern)
{
    static const char *const names[] = {
        "pow2", "vl1",  "vl2",  "vl3",  "vl4",   "vl5",   "vl6",  "vl7",
        "vl8",  "vl16", "vl32", "vl64", "vl128", "vl256", "#14",  "#15",
        "#16",  "#17",  "#18",  "#19",  "#20",   "#21",   "#22",  "#23",
        "#24",  "#25",  "#26",  "#27",  "#28",   "mul4",  "mul3", "all",
    };

    return pattern < LN_PATTERNS ? names[pattern] : "no pattern";
}

/* A number and, if it is LN_DONE, a value. */
struct ln_answer {
    uint64_t number;
    uint64_t value;
};

/* The row (enum ln_row) and the fields of a word: size (bits 23:22), source n (9:5), destination d (4:0, and
 * 3:0 where it is a predicate register), governing predicate g (12:10), second source m (20:16), q (30),
 * pattern (9:5). A field that the row does not have is 0; ln_read_row tells which it has, and whether d is a
 * predicate register. */
struct ln_fields {
    uint64_t number;
    uint64_t row;
    uint64_t size;
    uint64_t n;
    uint64_t d;
    uint64_t g;
    uint64_t m;
    uint64_t q;
    uint64_t pattern;
};

/* Where a register's bytes stand: in the predicate file if predicate is 1, else in the vector file. */
struct ln_place {
    uint64_t number;
    uint64_t predicate;
    uint64_t start;
    uint64_t bytes;
};

/* A word of a program, and the place after it. With a refusal `at` is the place that was asked for. */
struct ln_word {
    uint64_t number;
    uint64_t word;
    uint64_t at;
};

/* A lane of a vector register: its value at its sign, extended to 64 bits; whether it is active, 1 or 0; its
 * first byte, counted in the vector file; and the bit that makes it active, counted in its predicate
 * register: bit `bit` % 8 of its byte `bit` / 8. */
struct ln_lane {
    uint64_t number;
    uint64_t value;
    uint64_t active;
    uint64_t start;
    uint64_t bit;
};

/* An entry of a journal: the number of the register that its step wrote, 0 to 31 for Z0 to Z31 and 32 to 47 for
 * P0 to P15; where in the journal the bytes stand that the register held before, and how many they are: 16k,
 * or 2k of a predicate register, the zeros after them left out. */
struct ln_entry {
    uint64_t number;
    uint64_t target;
    uint64_t start;
    uint64_t bytes;
};

/* Which register an entry's target is, for ln_register_place: 1 for a predicate register, else 0; and its number
 * among the registers of its kind. */
#define LN_IS_PREDICATE(target) ((target) >= LN_VECTOR_REGISTERS)
#define LN_REGISTER_OF(target) ((target) % LN_VECTOR_REGISTERS)

/* What the words of a row have in common. The five after the number are 1 or 0: whether lanes are read as
 * signed numbers; whether a word has a governing predicate g, a second source m and a q; and whether what
 * stood in the destination enters into the sum. `need` is a byte of facts of which one is enough, and 0
 * where the row needs none. Then, by the size of a word: the bytes of a lane of Z<n> that it reads, of a
 * lane of Z<m>, and of a lane of Z<d> that it writes, or of the lanes that a bit of P<d> governs. They are 0
 * where the row does not allow the size, and for Z<n> and Z<m> where the row has no n or no m. A size that a row
 * allows with q = 1 alone counts as allowed. The last three are 1 or 0: whether a word has a source n and a
 * pattern, and whether its destination is P<d> and not Z<d>. */
struct ln_row_about {
    uint64_t number;
    uint64_t is_signed;
    uint64_t has_g;
    uint64_t has_m;
    uint64_t has_q;
    uint64_t reads_destination;
    uint64_t need;
    uint64_t n_bytes[LN_MOST_SIZE + 1];
    uint64_t m_bytes[LN_MOST_SIZE + 1];
    uint64_t d_bytes[LN_MOST_SIZE + 1];
    uint64_t has_n;
    uint64_t has_pattern;
    uint64_t writes_predicate;
};

/* A session's k and number of words, where its three parts start, counted in bytes, and its facts:
 * LN_ALL_FACTS for one of the former version. */
struct ln_session {
    uint64_t number;
    uint64_t k;
    uint64_t count;
    uint64_t vectors;
    uint64_t predicates;
    uint64_t program;
    uint64_t facts;
};

/* The version of the library: LN_VERSION, if it belongs to this header. A library from before version 7 does
 * not have this call, and a program that makes it does not link. */
uint64_t ln_version(void);

/* The row and the fields of a word, on a core with these facts.
 * LN_UNKNOWN, LN_UNDEFINED. */
struct ln_fields ln_decode(uint32_t word, uint8_t facts);

/* Writes a word's text, without a terminating zero, to the start of `out`; the value is its length,
 * at most LN_LONGEST_TEXT, and the bytes past it stay.
 * LN_UNKNOWN, LN_UNDEFINED; before these LN_OUT: `out` has under 32 bytes. */
struct ln_answer ln_text(uint32_t word, uint8_t facts, uint8_t *out, size_t out_len);

/* The word that has this text, and nothing else: exactly as ln_text writes it. That is lower case, one
 * space after the name, a comma and one space between operands, decimal numbers without leading zeros,
 * no space, newline or zero before or after it. With T for the letter of the size, H for that of half
 * its width, R for that of twice its width, A for 8b, 16b, 4h, 8h, 4s or 2d, and PATTERN for a name of
 * ln_pattern_name, which is never left out:
 *
 *     saddv dD, pG, zN.T           uaddv alike
 *     addqv vD.A, pG, zN.T         A = 16b, 8h, 4s, 2d
 *     saddlv RD, vN.A              uaddlv alike; A = 8b, 16b, 4h, 8h, 4s
 *     sadalp zD.T, pG/m, zN.H      uadalp alike
 *     saddlb zD.T, zN.H, zM.H      the other long rows alike
 *     saddwb zD.T, zN.T, zM.H      the other wide rows alike
 *     ptrue pD.T, PATTERN
 *     pfalse pD.b
 *
 * LN_TEXT: no word has it that is accepted on a core with these facts. */
struct ln_answer ln_assemble(const uint8_t *text, size_t text_len, uint8_t facts);

/* Writes a fresh journal of a version, LN_JOURNAL_VERSION or LN_FORMER_JOURNAL_VERSION: the header with that
 * version and count 0, and zeros after it. What the bytes were does not matter.
 * LN_LENGTH, LN_ROOM; LN_JOURNAL: `version` is any other number of 64 bits. */
uint64_t ln_fresh(size_t k, uint64_t version, uint8_t *journal, size_t journal_len);

/* Executes the word at the journal's position and appends the destination's old bytes to the journal:
 * the position is one more then. `z` is the vector file, `p` the predicate file; a step writes one register
 * of one of them. The facts should be those of the journal's other steps.
 *
 * `p` is written by ptrue and pfalse, and by ln_back where it takes them back; in version 7 it was only read.
 * So whatever the words are, it may be lent to one call at a time, may not lie in read-only memory and may not
 * overlap anything else that is lent. Nor should it lie in a session's bytes, which would change with it: copy
 * the predicate file out of them, as the vector file.
 *
 * LN_JOURNAL has two causes here, which ln_position tells apart. If that is LN_DONE, the journal is well formed:
 * the word writes a predicate register, and the journal is of version 1, which has no number for one. The journal
 * is good, and should be kept: its steps can be taken back. If ln_position is LN_JOURNAL too, the journal is not
 * well formed.
 * LN_LENGTH, LN_FILE, LN_PROGRAM, LN_ROOM, LN_JOURNAL, LN_END, LN_UNKNOWN, LN_UNDEFINED; then LN_JOURNAL where
 * the word writes a predicate register and the journal is of the former version; LN_FULL. */
uint64_t ln_step(size_t k, uint8_t facts, uint8_t *z, size_t z_len, uint8_t *p, size_t p_len,
                 const uint8_t *program, size_t program_len, uint8_t *journal, size_t journal_len);

/* Takes the last step back: restores the last entry's bytes to the vector or the predicate register that it is
 * of, sets that entry to zeros and lowers the count: the position is one less then. It needs no facts. `p` is
 * written where the step was one of ptrue or pfalse, and what ln_step says of lending it holds here too.
 * LN_LENGTH, LN_FILE, LN_ROOM, LN_JOURNAL, LN_EMPTY. */
uint64_t ln_back(size_t k, uint8_t *z, size_t z_len, uint8_t *p, size_t p_len,
                 uint8_t *journal, size_t journal_len);

/* The journal's position: 0 after ln_fresh, one more after a step that was done, one less after such a
 * step back. No file is needed, and nothing is written.
 * LN_LENGTH, LN_ROOM, LN_JOURNAL. */
struct ln_answer ln_position(size_t k, const uint8_t *journal, size_t journal_len);

/* An entry of the journal, 0 being the oldest that it holds and the position less one the newest, whose bytes
 * ln_back restores: what its register held one step ago. No file is needed, and nothing is written.
 * LN_LENGTH, LN_ROOM, LN_JOURNAL; LN_RANGE: `index` is not below the number of entries held. */
struct ln_entry ln_read_entry(size_t k, const uint8_t *journal, size_t journal_len, size_t index);

/* Where a register's bytes stand, for drawing. `predicate` is 0 for a vector register; every other
 * number asks for a predicate register. `index` is which of them: 7 for Z7 or P7.
 * LN_LENGTH, LN_FILE; LN_RANGE: `index` over 31, or over 15 for a predicate register. */
struct ln_place ln_register_place(size_t k, const uint8_t *z, size_t z_len, const uint8_t *p,
                                  size_t p_len, uint64_t predicate, size_t index);

/* A lane of the vector register `source` at a size, and whether `predicate`, P0 to P15, makes it active.
 * `is_signed` is 0 for an unsigned lane; every other number asks for a signed one.
 *
 * Which size to ask with: ln_read_row tells how many bytes the lanes have that a row reads, ln_size_of their
 * size, and a value is asked at that. For saddv, uaddv and addqv `active` is asked at the same size. But
 * sadalp and uadalp read lanes of half the width, and their predicate governs the lanes of the destination:
 * ask for `active` with the word's own size and the destination's lane e, which holds for the source's lanes
 * 2e and 2e + 1 together. With the source's half width other bits would be asked, which do not matter.
 * saddlv, uaddlv and the rows from LN_SADDLB to LN_USUBWT have no predicate: every lane that they read counts,
 * and `active` says nothing of it. ptrue and pfalse read no lane; to draw what they made, ask for `active` with
 * their destination as `predicate`, at the size of the lanes that it is to govern.
 * LN_LENGTH, LN_FILE; LN_RANGE: `source` over 31, `predicate` over 15, `size` over 3, or `lane` not below the
 * number of lanes. */
struct ln_lane ln_read_lane(size_t k, const uint8_t *z, size_t z_len, const uint8_t *p, size_t p_len,
                            size_t source, size_t predicate, size_t size, uint64_t is_signed, size_t lane);

/* What a row is: its sign, its fields, its need and its widths.
 * LN_RANGE: there is no such row. */
struct ln_row_about ln_read_row(size_t row);

/* Writes the addqv panel to the first 256 bytes of `out`: sixteen rows of sixteen bytes, row s being
 * segment s of the source (its bytes 16s up to 16s + 15) with inactive lanes zeroed, rows from k on
 * zero. Bytes past 256 stay.
 * LN_LENGTH, LN_FILE; LN_OUT: `out` has under 256 bytes; LN_RANGE: `source` over 31, `governing`
 * over 7 or `size` over 3. */
uint64_t ln_panel(size_t k, const uint8_t *z, size_t z_len, const uint8_t *p, size_t p_len,
                  size_t source, size_t governing, size_t size, uint8_t *out, size_t out_len);

/* The sum, modulo 2^64, of the source's active lanes from `a` up to but without `b`. `is_signed` is 0
 * for unsigned lanes; every other number asks for signed ones.
 * LN_LENGTH, LN_FILE; LN_RANGE: `source` over 31, `governing` over 7, `size` over 3, `a` over `b`, or
 * `b` over the number of lanes. */
struct ln_answer ln_subtotal(size_t k, const uint8_t *z, size_t z_len, const uint8_t *p, size_t p_len,
                             size_t source, size_t governing, size_t size, uint64_t is_signed,
                             size_t a, size_t b);

/* The word with number `at` of a program, and the place after it.
 * LN_PROGRAM, LN_END. */
struct ln_word ln_read_word(const uint8_t *program, size_t program_len, size_t at);

/* Where the parts of a session stand, and its facts.
 * LN_SESSION: mark, version, k, word count or total length is wrong, or the facts have a higher bit
 * set. */
struct ln_session ln_read_session(const uint8_t *bytes, size_t bytes_len);

/* Writes the line of the step at `position`, which answered `number` and left these files, at the
 * front of `out`; the value is its length, at most LN_LONGEST_LINE, and bytes past it stay. The line has
 * the position and the number, whichever of 64 bits it is, in decimal, then after LN_DONE the word's
 * text and its destination register in hex, highest byte first, and after every other number the word in
 * eight hex digits. Fields are one space apart. It ends in a newline, and no zero follows.
 * LN_LENGTH, LN_FILE, LN_PROGRAM; LN_END: no word at `position`; LN_OUT: `out` has under LN_LONGEST_LINE
 * bytes; LN_UNKNOWN, LN_UNDEFINED: `number` is LN_DONE and the word is not accepted on a core with these
 * facts. After every other number the facts do not matter. */
struct ln_answer ln_write_line(uint8_t *out, size_t out_len, size_t k, uint8_t facts, const uint8_t *z,
                               size_t z_len, const uint8_t *p, size_t p_len, const uint8_t *program,
                               size_t program_len, size_t position, uint64_t number);

/* What follows is written here in plain C, and is not proved. It refuses as the calls do: in the order of the
 * numbers, and a refusal changes no byte. */

/* 1 for a k that is accepted, else 0. */
static inline int ln_is_length(size_t k)
{
    return k >= LN_LEAST_K && k <= LN_MOST_K && (k & (k - 1)) == 0;
}

/* Puts the low bytes of `value` into a lane of the vector register `destination`.
 * LN_LENGTH, LN_FILE; LN_RANGE: `destination` over 31, `size` over 3, or `lane` not below the number of
 * lanes. */
static inline uint64_t ln_put_lane(size_t k, uint8_t *z, size_t z_len, size_t destination, size_t size,
                                   size_t lane, uint64_t value)
{
    size_t start, byte;

    if (!ln_is_length(k)) {
        return LN_LENGTH;
    }
    if (z_len != LN_VECTOR_FILE_BYTES(k)) {
        return LN_FILE;
    }
    if (destination >= LN_VECTOR_REGISTERS || size > LN_MOST_SIZE || lane >= LN_LANES(k, size)) {
        return LN_RANGE;
    }
    start = destination * LN_VECTOR_BYTES(k) + lane * LN_LANE_BYTES(size);
    for (byte = 0; byte < LN_LANE_BYTES(size); byte++) {
        z[start + byte] = LN_CAST(uint8_t, value >> 8 * byte);
    }
    return LN_DONE;
}

/* Makes a lane active in the predicate register `predicate`, P0 to P15, or inactive where `active` is 0: its
 * one bit is set or cleared, and all others stay.
 * LN_LENGTH, LN_FILE; LN_RANGE: `predicate` over 15, `size` over 3, or `lane` not below the number of
 * lanes. */
static inline uint64_t ln_put_active(size_t k, uint8_t *p, size_t p_len, size_t predicate, size_t size,
                                     size_t lane, uint64_t active)
{
    size_t at;
    unsigned bit;

    if (!ln_is_length(k)) {
        return LN_LENGTH;
    }
    if (p_len != LN_PREDICATE_FILE_BYTES(k)) {
        return LN_FILE;
    }
    if (predicate >= LN_PREDICATE_REGISTERS || size > LN_MOST_SIZE || lane >= LN_LANES(k, size)) {
        return LN_RANGE;
    }
    at = predicate * LN_PREDICATE_BYTES(k) + LN_LANE_BIT(lane, size) / 8;
    bit = 1u << LN_LANE_BIT(lane, size) % 8;
    p[at] = LN_CAST(uint8_t, active != 0 ? p[at] | bit : p[at] & ~bit);
    return LN_DONE;
}

/* Copies bytes to `out`; the place after them. */
static inline uint8_t *ln_put_bytes(uint8_t *out, const uint8_t *bytes, size_t bytes_len)
{
    size_t at;

    for (at = 0; at < bytes_len; at++) {
        out[at] = bytes[at];
    }
    return out + bytes_len;
}

/* Writes a session of the newest version at the front of `out`; the value is its length, which is
 * LN_SESSION_BYTES of k and the number of words, and bytes past it stay. The three higher bits of the facts
 * are written as 0, as every call ignores them.
 * LN_LENGTH, LN_FILE, LN_PROGRAM; LN_OUT: `out` has fewer bytes than the session. */
static inline struct ln_answer ln_write_session(uint8_t *out, size_t out_len, size_t k, uint8_t facts,
                                                const uint8_t *z, size_t z_len, const uint8_t *p,
                                                size_t p_len, const uint8_t *program, size_t program_len)
{
    const size_t words = program_len / LN_WORD_BYTES;
    const uint8_t header[LN_SESSION_HEADER_BYTES] = {
        'L', 'N', 'W', LN_SESSION_VERSION, 0, LN_CAST(uint8_t, k), LN_CAST(uint8_t, words),
        LN_CAST(uint8_t, words >> 8), LN_CAST(uint8_t, facts & LN_ALL_FACTS)};
    struct ln_answer answer = {LN_DONE, 0};

    if (!ln_is_length(k)) {
        answer.number = LN_LENGTH;
    } else if (z_len != LN_VECTOR_FILE_BYTES(k) || p_len != LN_PREDICATE_FILE_BYTES(k)) {
        answer.number = LN_FILE;
    } else if (program_len % LN_WORD_BYTES != 0 || words > LN_MOST_WORDS) {
        answer.number = LN_PROGRAM;
    } else if (out_len < LN_SESSION_BYTES(k, words)) {
        answer.number = LN_OUT;
    } else {
        out = ln_put_bytes(out, header, sizeof header);
        out = ln_put_bytes(out, z, z_len);
        out = ln_put_bytes(out, p, p_len);
        ln_put_bytes(out, program, program_len);
        answer.value = LN_SESSION_BYTES(k, words);
    }
    return answer;
}

#ifdef __cplusplus
}
#endif

#endif
