/*
 * The C library as a bank's programs would use it: for each key size chains are made, and by each schedule a
 * message goes the whole way from the pad over the driver to a reader and, in an ink file, to the archive; and
 * every function is made to give each of its refusals. After a refusal nothing that was lent may have changed;
 * after a success nothing after what is written.
 * Prints how many checks there were and how many of them failed.
 */
#include "bowlinette.h"
#include <stdio.h>
#include <stdlib.h>
#include <string.h>

#define BLOCK BOWLINETTE_BLOCK_LENGTH
#define SET BOWLINETTE_SET_LENGTH
#define LONGEST BOWLINETTE_MESSAGE_LENGTH_MAX
#define INK 9412
#define FILL 0x5a

static unsigned long checks, failures;

static void check(int holds, const char *what, unsigned long where)
{
    checks++;
    if (!holds) {
        failures++;
        printf("failed: %s (%lu)\n", what, where);
    }
}

#define CHECK(holds) check((holds) != 0, #holds, __LINE__)

/* A buffer that is longer than what is written to it, and a function's places for what it tells beside it. */
struct room {
    uint8_t bytes[BOWLINETTE_INK_LENGTH_MAX + BLOCK];
    uint64_t length;
    uint8_t small;
    bowlinette_ink ink;
};

static struct room room;

static void fresh(void)
{
    memset(&room, FILL, sizeof room);
}

/* Whether all of the room from byte n on, and the three places beside it, are as they were. */
static int untouched(size_t n)
{
    static struct room before;
    memset(&before, FILL, sizeof before);
    return memcmp(room.bytes + n, before.bytes + n, sizeof room.bytes - n) == 0
        && room.length == before.length && room.small == before.small
        && memcmp(&room.ink, &before.ink, sizeof room.ink) == 0;
}

/* A call that must be refused with the number, and must have changed nothing in the room. */
#define REFUSED(number, call)             \
    do {                                  \
        fresh();                          \
        CHECK((call) == (number));        \
        CHECK(untouched(0));              \
    } while (0)

#define SIZE(bits)                                                                                   \
    {                                                                                                \
        BOWLINETTE_KEY_LENGTH_##bits, BOWLINETTE_ROUNDS_##bits, BOWLINETTE_CHAIN_LENGTH_##bits,      \
        BOWLINETTE_BOOK_LENGTH_##bits, BOWLINETTE_READING_LENGTH_##bits,                             \
        BOWLINETTE_READING_FOLDS_##bits, BOWLINETTE_RANDOM_LENGTH_##bits                             \
    }

static const struct size {
    size_t key, rounds, chain, book, reading, folds, random;
} sizes[] = {SIZE(128), SIZE(192), SIZE(256)};

/* The schedule that everything goes by. */
static uint8_t schedule;
static uint8_t key[32], chain[BOWLINETTE_CHAIN_LENGTH_256 + 1], book[BOWLINETTE_BOOK_LENGTH_256 + BLOCK];
static uint8_t reading_chain[BOWLINETTE_CHAIN_LENGTH_256 + 1], reading[BOWLINETTE_READING_LENGTH_256 + BLOCK];
static uint8_t noise[BOWLINETTE_RANDOM_LENGTH_256];
/* Coded and sealed texts have room for a block more than the longest. */
static uint8_t message[LONGEST + 1], coded[LONGEST + 1 + BLOCK], sealed[LONGEST + 1 + BLOCK], tag[BLOCK];
static const uint8_t iv[BLOCK] = {3, 1, 4, 1, 5, 9, 2, 6, 5, 3, 5, 8, 9, 7, 9, 3};
static uint8_t file[BOWLINETTE_INK_LENGTH_MAX + BLOCK];
static uint64_t coded_length, sealed_length;
static uint8_t kind;

/* A coding: 16 numbers, each once, another for each n. */
static void coding(uint8_t *place, size_t n)
{
    unsigned i;
    for (i = 0; i < 16; i++)
        place[i] = (uint8_t)((i * (2 * (n % 8) + 1) + n / 8) % 16);
}

/* Bytes that look random, others for each n: a test may be foretold, a pad's chain may not. */
static void make_noise(uint32_t n)
{
    size_t i;

    for (i = 0; i < sizeof noise; i++) {
        n = 1664525 * n + 1013904223;
        noise[i] = (uint8_t)(n >> 24);
    }
}

/* Makes a chain or, where there is a set, a reading chain with that set, from a copy of just n bytes of the noise. */
static uint32_t make_from(const struct size *s, const uint8_t *set, size_t n, size_t out, uint64_t *drawn)
{
    uint8_t *copy = malloc(n + (n == 0));
    uint32_t number;

    CHECK(copy != NULL);
    memcpy(copy, noise, n);
    number = set == NULL ? bowlinette_make_chain(s->key, copy, n, room.bytes, out, drawn)
                         : bowlinette_make_reading_chain(s->key, set, SET, copy, n, room.bytes, out, drawn);
    CHECK(memcmp(copy, noise, n) == 0);
    free(copy);
    return number;
}

/* The same to a place. The bytes that were drawn make it again, and one fewer are refused. */
static void make(uint8_t *place, const struct size *s, const uint8_t *set)
{
    uint64_t drawn = 0, again = 0;

    fresh();
    CHECK(make_from(s, set, s->random, sizeof room.bytes, &drawn) == BOWLINETTE_DONE);
    CHECK(drawn < s->random && untouched(s->chain));
    memcpy(place, room.bytes, s->chain);
    fresh();
    CHECK(make_from(s, set, drawn, s->chain, &again) == BOWLINETTE_DONE);
    CHECK(again == drawn && memcmp(room.bytes, place, s->chain) == 0 && untouched(s->chain));
    REFUSED(32, make_from(s, set, drawn - 1, s->chain, &room.length));
}

/* How many masks of the chain are not this one. */
static size_t other_masks(const struct size *s, uint8_t mask)
{
    size_t i, l, others = 0;

    for (l = 0; l < s->rounds; l++)
        for (i = 0; i < 24; i++)
            others += chain[BOWLINETTE_CHAIN_ROUND(s->rounds, l) + BOWLINETTE_ROUND_MASKS + i] != mask;
    return others;
}

/*
 * From zeros each coding of a chain has v + 1 at v, and 0 at 15, and each mask is 0; as none is skipped, the fewest
 * bytes are drawn. From ones each mask is 1. 255 is skipped for ever.
 */
static void chains_of_one_byte(const struct size *s)
{
    const size_t fewest = 960 + 744 * s->rounds;
    size_t i, l, others = 0;

    memset(noise, 0, sizeof noise);
    make(chain, s, NULL);
    REFUSED(32, make_from(s, NULL, fewest - 1, s->chain, &room.length));
    CHECK(make_from(s, NULL, fewest, s->chain, &room.length) == BOWLINETTE_DONE && room.length == fewest);
    for (i = 0; i < BOWLINETTE_CHAIN_ROUND(s->rounds, 0); i++)
        others += chain[i] != (i + 1) % 16;
    for (l = 0; l < s->rounds; l++)
        for (i = 0; i < BOWLINETTE_ROUND_MASKS; i++)
            others += chain[BOWLINETTE_CHAIN_ROUND(s->rounds, l) + i] != (i + 1) % 16;
    CHECK(others == 0 && other_masks(s, 0) == 0);
    memset(noise, 1, sizeof noise);
    make(chain, s, NULL);
    CHECK(other_masks(s, 1) == 0);
    memset(noise, 255, sizeof noise);
    REFUSED(32, make_from(s, NULL, sizeof noise, s->chain, &room.length));
    REFUSED(32, make_from(s, chain, sizeof noise, s->chain, &room.length));
}

/* The works: the chain, the book, and a round of it by itself. */
static void works(const struct size *s)
{
    make_noise((uint32_t)s->key);
    make(chain, s, NULL);
    CHECK(bowlinette_check_chain(s->key, chain, s->chain) == BOWLINETTE_DONE);
    CHECK(bowlinette_check_set(chain, SET) == BOWLINETTE_DONE);
    memset(book, FILL, sizeof book);
    CHECK(bowlinette_build(schedule, key, s->key, chain, s->chain, book, sizeof book) == BOWLINETTE_DONE);
    CHECK(book[BOWLINETTE_BOOK_SIZE_BYTE] == s->key && book[s->book] == FILL);
    fresh();
    CHECK(bowlinette_build_round(schedule, key, s->key, chain, s->chain, s->rounds + 1, room.bytes, sizeof room.bytes) == BOWLINETTE_DONE);
    CHECK(untouched(BOWLINETTE_ROUND_LENGTH));
    CHECK(memcmp(room.bytes, book + s->book - BOWLINETTE_ROUND_LENGTH * (s->rounds - 1), BOWLINETTE_ROUND_LENGTH) == 0);
}

/* The largest entry of the reading book from one place to another. */
static uint8_t largest(size_t from, size_t to)
{
    uint8_t most = 0;

    for (; from < to; from++)
        if (reading[from] > most)
            most = reading[from];
    return most;
}

/*
 * The works for the readers: a reading chain that goes on from the last set, and its book. The entries of
 * subtract tables have five bits, all others four.
 */
static void works_for_reading(const struct size *s)
{
    const uint8_t *last = chain + BOWLINETTE_CHAIN_SET(s->rounds);
    size_t l;

    make_noise((uint32_t)s->key + 1);
    make(reading_chain, s, last);
    CHECK(memcmp(reading_chain + BOWLINETTE_CHAIN_SET(0), last, SET) == 0);
    CHECK(bowlinette_check_reading_chain(s->key, reading_chain, s->chain) == BOWLINETTE_DONE);
    CHECK(bowlinette_check_reading_chain(s->key, chain, s->chain) == BOWLINETTE_REFUSED_WORD_RULE);
    CHECK(bowlinette_check_chain(s->key, reading_chain, s->chain) == BOWLINETTE_REFUSED_WORD_RULE);
    memset(reading, FILL, sizeof reading);
    CHECK(bowlinette_build_reading(schedule, key, s->key, reading_chain, s->chain, reading, sizeof reading) == BOWLINETTE_DONE);
    CHECK(reading[s->reading] == FILL);
    for (l = 0; l < s->rounds; l++) {
        const size_t subtracts = BOWLINETTE_READING_ROUND(l) + BOWLINETTE_READING_SUBTRACTS;
        CHECK(largest(BOWLINETTE_READING_ROUND(l), subtracts) == 15);
        CHECK(largest(subtracts, BOWLINETTE_READING_ROUND(l + 1)) == 31);
    }
    CHECK(largest(s->folds, s->reading) == 15);
}

/* A message of n bytes, coded and sealed, and its tag. */
static void seal(const struct size *s, size_t n)
{
    bowlinette_session session;
    size_t i;

    for (i = 0; i < n; i++)
        message[i] = (uint8_t)(i * i / 7 + n);
    CHECK(bowlinette_code_for_sealing(chain, SET, message, n, coded, sizeof coded, &coded_length) == BOWLINETTE_DONE);
    CHECK(coded_length == n / BLOCK * BLOCK + BLOCK);
    CHECK(bowlinette_seal(book, s->book, iv, BLOCK, coded, coded_length, sealed, sizeof sealed, &sealed_length) == BOWLINETTE_DONE);
    CHECK(sealed_length == coded_length);
    CHECK(bowlinette_code_for_tag(chain, SET, message, n, coded, sizeof coded, &coded_length, &kind) == BOWLINETTE_DONE);
    CHECK(kind == (n == 0 || n % BLOCK != 0 ? BOWLINETTE_KIND_PADDED : BOWLINETTE_KIND_WHOLE));
    CHECK(bowlinette_begin(&session, book, s->book) == BOWLINETTE_DONE);
    for (i = 0; i + BLOCK < coded_length; i += BLOCK)
        CHECK(bowlinette_block_call(&session, book, s->book, coded + i, BLOCK) == BOWLINETTE_DONE);
    CHECK(bowlinette_last_call(&session, book, s->book, coded + i, BLOCK, kind, tag) == BOWLINETTE_DONE);
}

/* Turns a mask at half byte 0 the other way round in each of r rounds of a chain: that of one of the three words. */
static void turn_top_masks(uint8_t *codings, size_t r)
{
    size_t l;

    for (l = 0; l < r; l++)
        codings[BOWLINETTE_CHAIN_ROUND(r, l) + BOWLINETTE_ROUND_MASKS + 8 * (l % 3)] ^= 1;
}

/* Turns bit 4 of the entries of the tables at half byte 7 of the same words; the first add or subtract table is here. */
static void turn_top_carries(uint8_t *tables, size_t r)
{
    size_t l, k;

    for (l = 0; l < r; l++)
        for (k = 0; k < 512; k++)
            tables[BOWLINETTE_ROUND_LENGTH * l + 512 * (8 * (l % 3) + 7) + k] ^= 16;
}

/* Building a book or a reading book; sealing or reading by it. */
typedef uint32_t building(uint8_t, const uint8_t *, size_t, const uint8_t *, size_t, uint8_t *, size_t);
typedef uint32_t passing(const uint8_t *, size_t, const uint8_t *, size_t, const uint8_t *, size_t, uint8_t *, size_t, uint64_t *);

/*
 * With masks at half byte 0 of its chain the other way round a book of n bytes, whose first add or subtract table is at
 * a place, differs in those top carries alone, and makes the same of two blocks.
 */
static void top_masks(const struct size *s, uint8_t *codings, uint8_t *of, size_t n, size_t place, building *build, passing *pass)
{
    uint8_t before[2 * BLOCK], after[2 * BLOCK];
    uint64_t length = 0;

    CHECK(pass(of, n, iv, BLOCK, noise, sizeof before, before, sizeof before, &length) == BOWLINETTE_DONE);
    turn_top_masks(codings, s->rounds);
    CHECK(build(schedule, key, s->key, codings, s->chain, room.bytes, n) == BOWLINETTE_DONE);
    turn_top_carries(of + place, s->rounds);
    CHECK(memcmp(room.bytes, of, n) == 0);
    CHECK(pass(of, n, iv, BLOCK, noise, sizeof after, after, sizeof after, &length) == BOWLINETTE_DONE);
    CHECK(memcmp(after, before, sizeof before) == 0);
}

/* What was sealed is read: the padded message, coded by the message set of the reading chain. */
static void reader(const struct size *s, size_t n)
{
    uint64_t length = 0;

    CHECK(bowlinette_code_for_sealing(reading_chain, SET, message, n, coded, sizeof coded, &coded_length) == BOWLINETTE_DONE);
    fresh();
    CHECK(bowlinette_read(reading, s->reading, iv, BLOCK, sealed, sealed_length, room.bytes, sizeof room.bytes, &length) == BOWLINETTE_DONE);
    CHECK(length == coded_length && memcmp(room.bytes, coded, coded_length) == 0 && untouched(coded_length));
}

/* What was sealed goes into an ink file with two remarks, is found in it again, opens, and is valid. */
static void ink_file(const struct size *s, size_t n)
{
    static const uint8_t kinds[] = {BOWLINETTE_INK_REMARK_LAST, BOWLINETTE_INK_REMARK_FIRST}, number[] = "pad no 7";
    const uint8_t *set = chain + BOWLINETTE_CHAIN_SET(s->rounds);
    bowlinette_ink ink = {0};
    uint64_t length = 0;

    fresh();
    CHECK(bowlinette_write_ink(number, 8, iv, BLOCK, sealed, sealed_length, tag, BLOCK, kinds, 2, number, 3, number, 0, message, 999, message, 999, room.bytes, sizeof room.bytes, &length) == BOWLINETTE_DONE);
    CHECK(length == 64 + sealed_length + 2 * BOWLINETTE_INK_HEAD_LENGTH + 3 && untouched(length));
    memcpy(file, room.bytes, length);
    CHECK(bowlinette_read_ink(file, length, (uint64_t *)&ink) == BOWLINETTE_DONE);
    CHECK(memcmp(file + ink.pad_number, number, BOWLINETTE_PAD_NUMBER_LENGTH) == 0);
    CHECK(memcmp(file + ink.iv, iv, BLOCK) == 0 && memcmp(file + ink.tag, tag, BLOCK) == 0);
    CHECK(ink.sealed_length == sealed_length && memcmp(file + ink.sealed, sealed, sealed_length) == 0);
    CHECK(ink.remarks == 2 && ink.kinds[0] == kinds[0] && ink.kinds[1] == kinds[1]);
    CHECK(ink.lengths[0] == 3 && memcmp(file + ink.offsets[0], number, 3) == 0);
    CHECK(ink.lengths[1] == 0 && ink.offsets[1] == length);
    CHECK(ink.kinds[2] + ink.kinds[3] + ink.offsets[2] + ink.offsets[3] + ink.lengths[2] + ink.lengths[3] == 0);
    fresh();
    CHECK(bowlinette_open(schedule, key, s->key, set, SET, file + ink.iv, BLOCK, file + ink.sealed, ink.sealed_length, room.bytes, sizeof room.bytes, &length) == BOWLINETTE_DONE);
    CHECK(length == n && memcmp(room.bytes, message, n) == 0);
    CHECK(bowlinette_is_valid(schedule, key, s->key, set, SET, room.bytes, length, file + ink.tag, BLOCK) == 1);
}

/* What was sealed opens to the message, and its tag is valid; one bit less is not. */
static void archive(const struct size *s, size_t n)
{
    const uint8_t *set = chain + SET * (s->rounds + 1);
    uint8_t verdict = FILL;

    fresh();
    CHECK(bowlinette_open(schedule, key, s->key, set, SET, iv, BLOCK, sealed, sealed_length, room.bytes, sizeof room.bytes, &sealed_length) == BOWLINETTE_DONE);
    CHECK(sealed_length == n && memcmp(room.bytes, message, n) == 0 && untouched(n));
    CHECK(bowlinette_check(schedule, key, s->key, set, SET, message, n, tag, BLOCK, &verdict) == BOWLINETTE_DONE);
    CHECK(verdict == BOWLINETTE_VALID);
    CHECK(bowlinette_is_valid(schedule, key, s->key, set, SET, message, n, tag, BLOCK) == 1);
    CHECK(bowlinette_is_valid(!schedule, key, s->key, set, SET, message, n, tag, BLOCK) == 0);
    CHECK(bowlinette_is_valid((uint8_t)(schedule + 2), key, s->key, set, SET, message, n, tag, BLOCK) == 0);
    tag[n % BLOCK] ^= 0x10;
    CHECK(bowlinette_check(schedule, key, s->key, set, SET, message, n, tag, BLOCK, &verdict) == BOWLINETTE_DONE);
    CHECK(verdict == BOWLINETTE_INVALID);
    CHECK(bowlinette_is_valid(schedule, key, s->key, set, SET, message, n, tag, BLOCK) == 0);
}

/* The offsets of the header lead to the ends of a chain and of both books, and to the last set. */
static void offsets(const struct size *s)
{
    const size_t r = s->rounds;

    CHECK(BOWLINETTE_CHAIN_SET(r) + SET == BOWLINETTE_CHAIN_ROUND(r, 0));
    CHECK(BOWLINETTE_CHAIN_ROUND(r, r) == s->chain);
    CHECK(BOWLINETTE_BOOK_SIZE_BYTE == 0 && BOWLINETTE_BOOK_START == 1);
    CHECK(BOWLINETTE_BOOK_START + BLOCK == BOWLINETTE_BOOK_GROUP(0));
    CHECK(BOWLINETTE_BOOK_GROUP(3) == BOWLINETTE_BOOK_ROUND(0));
    CHECK(BOWLINETTE_BOOK_ROUND(r) == s->book);
    CHECK(BOWLINETTE_READING_ROUND(r) == s->folds);
    CHECK(s->folds + BOWLINETTE_BOOK_GROUP(1) - BOWLINETTE_BOOK_GROUP(0) == s->reading);
}

/* The version as a text is that of its two numbers. */
static void version(void)
{
    char text[16];

    sprintf(text, "%d.%d", BOWLINETTE_VERSION_MAJOR, BOWLINETTE_VERSION_MINOR);
    CHECK(strcmp(text, BOWLINETTE_VERSION) == 0);
}

/* Every number has a sentence of its own, and a number that is none says so. */
static void texts(void)
{
    static const uint32_t numbers[] = {0, 1, 2, 3, 4, 5, 6, 7, 8, 9, 10, 11, 21, 22, 30, 31, 32, 33, 34, 99};
    size_t i, k;

    for (i = 0; i < sizeof numbers / sizeof numbers[0]; i++)
        for (k = 0; k < i; k++)
            CHECK(strcmp(bowlinette_text(numbers[i]), bowlinette_text(numbers[k])) != 0);
    CHECK(strcmp(bowlinette_text(12), bowlinette_text(99)) == 0);
    CHECK(BOWLINETTE_CHAIN_LAST_SET_128 == BOWLINETTE_CHAIN_SET(BOWLINETTE_ROUNDS_128));
    CHECK(BOWLINETTE_CHAIN_LAST_SET_192 == BOWLINETTE_CHAIN_SET(BOWLINETTE_ROUNDS_192));
    CHECK(BOWLINETTE_CHAIN_LAST_SET_256 == BOWLINETTE_CHAIN_SET(BOWLINETTE_ROUNDS_256));
}

/* A block through the cipher and back, and through the tables of a book. */
static void blocks(const struct size *s)
{
    uint8_t there[BLOCK], back[BLOCK], first[BLOCK], next[BLOCK];
    uint32_t row[BOWLINETTE_ROW_WORDS];

    CHECK(bowlinette_encipher(schedule, key, s->key, iv, BLOCK, there) == BOWLINETTE_DONE);
    CHECK(bowlinette_decipher(schedule, key, s->key, there, BLOCK, back) == BOWLINETTE_DONE);
    CHECK(memcmp(back, iv, BLOCK) == 0);
    CHECK(bowlinette_first_rounds(schedule, key, s->key, s->rounds, iv, BLOCK, back) == BOWLINETTE_DONE);
    CHECK(memcmp(back, there, BLOCK) == 0);
    CHECK(bowlinette_round_keys(schedule, key, s->key, 0, row) == BOWLINETTE_DONE);
    CHECK(bowlinette_run_rounds(book, s->book, 1, iv, BLOCK, first) == BOWLINETTE_DONE);
    CHECK(bowlinette_run_rounds(book, s->book, 2, iv, BLOCK, next) == BOWLINETTE_DONE);
    CHECK(bowlinette_run_round(book + s->book - BOWLINETTE_ROUND_LENGTH * (s->rounds - 1), BOWLINETTE_ROUND_LENGTH, first, BLOCK, back) == BOWLINETTE_DONE);
    CHECK(memcmp(back, next, BLOCK) == 0);
}

/* Document 000's first example, and the row that it begins with. */
static void the_example_of_wf_lea(void)
{
    static const uint8_t its_key[] = {0x9c, 0xc4, 0xea, 0x59, 0x4b, 0x85, 0xf8, 0x15, 0x7e, 0xe0, 0xd1, 0x82, 0xe9, 0x9d, 0x4a, 0x1b};
    static const uint8_t plain[] = {0x06, 0xe3, 0x1c, 0x77, 0x6e, 0xcf, 0x1d, 0x36, 0xac, 0x1c, 0xcc, 0x10, 0x68, 0x54, 0xf7, 0x4e};
    static const uint8_t due[] = {0x27, 0x4d, 0x26, 0x84, 0xce, 0x28, 0xcf, 0x24, 0x91, 0xfd, 0xf0, 0xac, 0x29, 0x80, 0x07, 0x0a};
    static const uint32_t row_due[] = {0xd3ef4242, 0xed7deb80, 0xffe83ccb, 0x3df18824, 0xd0b1bc7b, 0x15c2ba3f};
    uint32_t row[BOWLINETTE_ROW_WORDS];
    uint8_t out[BLOCK];

    CHECK(bowlinette_encipher(BOWLINETTE_SCHEDULE_WF_LEA, its_key, sizeof its_key, plain, BLOCK, out) == BOWLINETTE_DONE);
    CHECK(memcmp(out, due, BLOCK) == 0);
    CHECK(bowlinette_decipher(BOWLINETTE_SCHEDULE_WF_LEA, its_key, sizeof its_key, due, BLOCK, out) == BOWLINETTE_DONE);
    CHECK(memcmp(out, plain, BLOCK) == 0);
    CHECK(bowlinette_round_keys(BOWLINETTE_SCHEDULE_WF_LEA, its_key, sizeof its_key, 0, row) == BOWLINETTE_DONE);
    CHECK(memcmp(row, row_due, sizeof row) == 0);
}

/* Every function with a key refuses a schedule that is none before all else, be the rest right or not. */
static void schedule_refused(const struct size *s, uint8_t number, size_t n, size_t out)
{
    const uint8_t *set = chain + BOWLINETTE_CHAIN_SET(s->rounds);
    uint32_t row[BOWLINETTE_ROW_WORDS] = {1, 2, 3, 4, 5, 6};

    REFUSED(34, bowlinette_encipher(number, key, n, iv, out, room.bytes));
    REFUSED(34, bowlinette_decipher(number, key, n, iv, out, room.bytes));
    REFUSED(34, bowlinette_first_rounds(number, key, n, 3, iv, out, room.bytes));
    REFUSED(34, bowlinette_round_keys(number, key, n, 3, row));
    CHECK(row[0] == 1 && row[5] == 6);
    REFUSED(34, bowlinette_build(number, key, n, chain, s->chain, room.bytes, s->book));
    REFUSED(34, bowlinette_build(number, key, n, message, out, room.bytes, 0));
    REFUSED(34, bowlinette_build_round(number, key, n, chain, s->chain, 3, room.bytes, s->book));
    REFUSED(34, bowlinette_build_round(number, key, n, message, out, 3, room.bytes, 0));
    REFUSED(34, bowlinette_build_reading(number, key, n, reading_chain, s->chain, room.bytes, s->reading));
    REFUSED(34, bowlinette_build_reading(number, key, n, message, out, room.bytes, 0));
    REFUSED(34, bowlinette_open(number, key, n, set, SET, iv, out, sealed, BLOCK, room.bytes, BLOCK, &room.length));
    REFUSED(34, bowlinette_open(number, key, n, message, out, iv, out, sealed, 0, room.bytes, 0, &room.length));
    REFUSED(34, bowlinette_check(number, key, n, set, SET, message, INK, tag, out, &room.small));
    REFUSED(34, bowlinette_check(number, key, n, message, out, message, LONGEST + 1, tag, 0, &room.small));
    CHECK(bowlinette_is_valid(number, key, n, set, SET, message, INK, tag, out) == 0);
}

/* Refusal 34, with its neighbours. */
static void refusals_of_the_schedule(const struct size *s)
{
    static const uint8_t numbers[] = {2, 3, 127, 128, 254, 255};
    size_t i;

    for (i = 0; i < sizeof numbers; i++) {
        schedule_refused(s, numbers[i], s->key, BLOCK);
        schedule_refused(s, numbers[i], s->key + 1, BLOCK - 1);
    }
}

/* Refusals 1 and 7 of the cipher on one block. */
static void refusals_of_blocks(void)
{
    uint32_t row[BOWLINETTE_ROW_WORDS] = {1, 2, 3, 4, 5, 6};

    REFUSED(1, bowlinette_encipher(schedule, key, 17, iv, BLOCK, room.bytes));
    REFUSED(7, bowlinette_encipher(schedule, key, 16, iv, BLOCK - 1, room.bytes));
    REFUSED(1, bowlinette_decipher(schedule, key, 0, iv, BLOCK - 1, room.bytes));
    REFUSED(7, bowlinette_decipher(schedule, key, 32, iv, 0, room.bytes));
    REFUSED(1, bowlinette_first_rounds(schedule, key, 31, 3, iv, BLOCK, room.bytes));
    REFUSED(7, bowlinette_first_rounds(schedule, key, 24, 3, iv, 1, room.bytes));
    REFUSED(1, bowlinette_round_keys(schedule, key, 8, 0, row));
    CHECK(row[0] == 1 && row[5] == 6);
}

/* Refusals 1, 2, 3, 9 and 32 of the makers, and which of several is told. */
static void refusals_of_the_makers(const struct size *s)
{
    const size_t n = s->random, out = s->chain;
    uint8_t set[SET];
    size_t i;

    memcpy(set, chain + BOWLINETTE_CHAIN_SET(s->rounds), SET);
    REFUSED(1, bowlinette_make_chain(s->key + 1, noise, n, room.bytes, out, &room.length));
    REFUSED(1, bowlinette_make_chain(s->key - 1, noise, 0, room.bytes, 0, &room.length));
    REFUSED(9, bowlinette_make_chain(s->key, noise, n, room.bytes, out - 1, &room.length));
    REFUSED(9, bowlinette_make_chain(s->key, noise, 0, room.bytes, 0, &room.length));
    REFUSED(32, bowlinette_make_chain(s->key, noise, 0, room.bytes, out, &room.length));
    REFUSED(1, bowlinette_make_reading_chain(s->key + 1, set, SET, noise, n, room.bytes, out, &room.length));
    REFUSED(1, bowlinette_make_reading_chain(0, set, SET - 1, noise, 0, room.bytes, 0, &room.length));
    REFUSED(2, bowlinette_make_reading_chain(s->key, set, SET - 1, noise, n, room.bytes, out, &room.length));
    REFUSED(2, bowlinette_make_reading_chain(s->key, chain, SET + 1, noise, n, room.bytes, out, &room.length));
    REFUSED(2, bowlinette_make_reading_chain(s->key, message, SET + 1, noise, 0, room.bytes, 0, &room.length));
    REFUSED(9, bowlinette_make_reading_chain(s->key, set, SET, noise, n, room.bytes, out - 1, &room.length));
    REFUSED(9, bowlinette_make_reading_chain(s->key, set, SET, noise, 0, room.bytes, 0, &room.length));
    REFUSED(32, bowlinette_make_reading_chain(s->key, set, SET, noise, 0, room.bytes, out, &room.length));
    for (i = 0; i < 32; i++) {
        uint8_t *at = set + BOWLINETTE_CODING_LENGTH * i + i % BOWLINETTE_CODING_LENGTH;
        const uint8_t was = *at;
        *at = (uint8_t)((was + 1) % 16);
        REFUSED(3, bowlinette_make_reading_chain(s->key, set, SET, noise, n, room.bytes, out, &room.length));
        *at = (uint8_t)(was + 16);
        REFUSED(3, bowlinette_make_reading_chain(s->key, set, SET, noise, 0, room.bytes, 0, &room.length));
        *at = was;
    }
}

/* A chain with one byte changed, which both checking and building must refuse with the number. */
static void chain_refused(const struct size *s, size_t at, uint8_t with, uint32_t number)
{
    const uint8_t was = chain[at];

    chain[at] = with;
    CHECK(bowlinette_check_chain(s->key, chain, s->chain) == number);
    REFUSED(number, bowlinette_build(schedule, key, s->key, chain, s->chain, room.bytes, s->book));
    REFUSED(number, bowlinette_build_round(schedule, key, s->key, chain, s->chain, 3, room.bytes, s->book));
    chain[at] = was;
}

/* Refusals 1 to 5 and 9 of the works. */
static void refusals_of_the_works(const struct size *s)
{
    const size_t masks = SET * (s->rounds + 2) + 24 * BOWLINETTE_CODING_LENGTH;
    uint8_t word[SET / 4];
    size_t place;

    CHECK(bowlinette_check_set(chain, SET - 1) == 2);
    CHECK(bowlinette_check_set(message, SET) == 3);
    CHECK(bowlinette_check_chain(s->key + 1, chain, s->chain) == 1);
    CHECK(bowlinette_check_chain(s->key, chain, s->chain + 1) == 2);
    REFUSED(1, bowlinette_build(schedule, key, s->key - 1, chain, s->chain, room.bytes, s->book));
    REFUSED(1, bowlinette_build_round(schedule, key, s->key - 1, chain, s->chain, 0, room.bytes, s->book));
    REFUSED(2, bowlinette_build(schedule, key, s->key, chain, s->chain - 1, room.bytes, s->book));
    REFUSED(2, bowlinette_build_round(schedule, key, s->key, chain, s->chain - 1, 0, room.bytes, s->book));
    chain_refused(s, 0, 16, 3);
    chain_refused(s, 1, chain[0], 3);
    memcpy(word, chain + SET * 2 + 3 * SET / 4, sizeof word);
    coding(chain + SET * 2 + 3 * SET / 4, 127);
    chain_refused(s, masks, 2, 4);
    memcpy(chain + SET * 2 + 3 * SET / 4, word, sizeof word);
    for (place = 0; place < 24; place++)
        chain_refused(s, masks + place, 2, 5);
    REFUSED(9, bowlinette_build(schedule, key, s->key, chain, s->chain, room.bytes, s->book - 1));
    REFUSED(9, bowlinette_build_round(schedule, key, s->key, chain, s->chain, 0, room.bytes, BOWLINETTE_ROUND_LENGTH - 1));
}

/* A reading chain with one byte changed, likewise. */
static void reading_chain_refused(const struct size *s, size_t at, uint8_t with, uint32_t number)
{
    const uint8_t was = reading_chain[at];

    reading_chain[at] = with;
    CHECK(bowlinette_check_reading_chain(s->key, reading_chain, s->chain) == number);
    REFUSED(number, bowlinette_build_reading(schedule, key, s->key, reading_chain, s->chain, room.bytes, s->reading));
    reading_chain[at] = was;
}

/* Refusals 1 to 5 and 9 of the works for the readers. */
static void refusals_of_the_works_for_reading(const struct size *s)
{
    const size_t masks = BOWLINETTE_CHAIN_ROUND(s->rounds, 0) + BOWLINETTE_ROUND_MASKS;
    uint8_t *word = reading_chain + BOWLINETTE_CHAIN_SET(s->rounds);
    uint8_t was[SET / 4];
    size_t place;

    CHECK(bowlinette_check_reading_chain(s->key + 1, reading_chain, s->chain) == 1);
    CHECK(bowlinette_check_reading_chain(s->key, reading_chain, s->chain - 1) == 2);
    REFUSED(1, bowlinette_build_reading(schedule, key, s->key - 1, reading_chain, s->chain, room.bytes, s->reading));
    REFUSED(2, bowlinette_build_reading(schedule, key, s->key, reading_chain, s->chain + 1, room.bytes, s->reading));
    reading_chain_refused(s, 2, reading_chain[3], 3);
    reading_chain_refused(s, masks - 1, 255, 3);
    memcpy(was, word, sizeof was);
    coding(word, 127);
    reading_chain_refused(s, masks, 2, 4);
    memcpy(word, was, sizeof was);
    for (place = 0; place < 24; place++)
        reading_chain_refused(s, masks + place, 2, 5);
    REFUSED(9, bowlinette_build_reading(schedule, key, s->key, reading_chain, s->chain, room.bytes, s->reading - 1));
}

/* Refusals 6 to 9 of reading. */
static void refusals_of_reading(const struct size *s)
{
    const size_t n = 2 * BLOCK;

    REFUSED(6, bowlinette_read(reading, s->reading + 1, iv, BLOCK, sealed, n, room.bytes, n, &room.length));
    REFUSED(6, bowlinette_read(book, s->book, iv, BLOCK, sealed, n, room.bytes, n, &room.length));
    REFUSED(7, bowlinette_read(reading, s->reading, iv, BLOCK - 1, sealed, n, room.bytes, n, &room.length));
    REFUSED(8, bowlinette_read(reading, s->reading, iv, BLOCK, sealed, 0, room.bytes, n, &room.length));
    REFUSED(8, bowlinette_read(reading, s->reading, iv, BLOCK, sealed, n - 1, room.bytes, n, &room.length));
    REFUSED(8, bowlinette_read(reading, s->reading, iv, BLOCK, sealed, sizeof sealed, room.bytes, sizeof room.bytes, &room.length));
    REFUSED(9, bowlinette_read(reading, s->reading, iv, BLOCK, sealed, n, room.bytes, n - 1, &room.length));
}

/* Refusals 2, 3, 8 and 9 of the pad. */
static void refusals_of_the_pad(void)
{
    REFUSED(2, bowlinette_code_for_sealing(chain, SET + 1, message, INK, room.bytes, sizeof room.bytes, &room.length));
    REFUSED(3, bowlinette_code_for_sealing(message, SET, message, INK, room.bytes, sizeof room.bytes, &room.length));
    REFUSED(8, bowlinette_code_for_sealing(chain, SET, message, LONGEST + 1, room.bytes, sizeof room.bytes, &room.length));
    REFUSED(9, bowlinette_code_for_sealing(chain, SET, message, INK, room.bytes, INK, &room.length));
    REFUSED(2, bowlinette_code_for_tag(chain, 0, message, INK, room.bytes, sizeof room.bytes, &room.length, &room.small));
    REFUSED(3, bowlinette_code_for_tag(message, SET, message, INK, room.bytes, sizeof room.bytes, &room.length, &room.small));
    REFUSED(8, bowlinette_code_for_tag(chain, SET, message, LONGEST + 1, room.bytes, sizeof room.bytes, &room.length, &room.small));
    REFUSED(9, bowlinette_code_for_tag(chain, SET, message, INK, room.bytes, INK, &room.length, &room.small));
}

/* Refusals 6 to 9 of the driver's rounds and sealing. */
static void refusals_of_the_driver(const struct size *s)
{
    REFUSED(6, bowlinette_run_round(book, BOWLINETTE_ROUND_LENGTH + 1, iv, BLOCK, room.bytes));
    REFUSED(7, bowlinette_run_round(book, BOWLINETTE_ROUND_LENGTH, iv, BLOCK - 1, room.bytes));
    REFUSED(6, bowlinette_run_rounds(book, s->book + 1, 5, iv, BLOCK, room.bytes));
    REFUSED(7, bowlinette_run_rounds(book, s->book, 5, iv, BLOCK - 1, room.bytes));
    REFUSED(6, bowlinette_seal(book, 0, iv, BLOCK, coded, BLOCK, room.bytes, BLOCK, &room.length));
    REFUSED(7, bowlinette_seal(book, s->book, iv, 0, coded, BLOCK, room.bytes, BLOCK, &room.length));
    REFUSED(8, bowlinette_seal(book, s->book, iv, BLOCK, coded, 0, room.bytes, BLOCK, &room.length));
    REFUSED(8, bowlinette_seal(book, s->book, iv, BLOCK, coded, BLOCK + 1, room.bytes, 2 * BLOCK, &room.length));
    REFUSED(8, bowlinette_seal(book, s->book, iv, BLOCK, coded, sizeof coded, room.bytes, sizeof room.bytes, &room.length));
    REFUSED(9, bowlinette_seal(book, s->book, iv, BLOCK, coded, 2 * BLOCK, room.bytes, 2 * BLOCK - 1, &room.length));
}

/* A call on a session that must be refused with the number and leave the session and the tag's place. */
#define SESSION_REFUSED(number, call)                              \
    do {                                                           \
        const bowlinette_session was = session;                    \
        REFUSED(number, call);                                     \
        CHECK(memcmp(&session, &was, sizeof session) == 0);        \
    } while (0)

/* Refusals 6, 7, 10, 21 and 22 of a session, and that it goes on after them to the same tag. */
static void refusals_of_a_session(const struct size *s)
{
    bowlinette_session session = {{0}}, plain;
    uint8_t want[BLOCK];
    unsigned long i;

    SESSION_REFUSED(6, bowlinette_begin(&session, book, s->book - 1));
    CHECK(bowlinette_begin(&session, book, s->book) == BOWLINETTE_DONE);
    CHECK(memcmp(session.bytes, book + BOWLINETTE_BOOK_START, BLOCK) == 0);
    plain = session;
    CHECK(bowlinette_last_call(&plain, book, s->book, iv, BLOCK, 0, want) == BOWLINETTE_DONE);
    SESSION_REFUSED(6, bowlinette_block_call(&session, book, 1, iv, BLOCK - 1));
    SESSION_REFUSED(7, bowlinette_block_call(&session, book, s->book, iv, BLOCK - 1));
    SESSION_REFUSED(6, bowlinette_last_call(&session, book, 1, iv, BLOCK, 2, room.bytes));
    SESSION_REFUSED(7, bowlinette_last_call(&session, book, s->book, iv, 0, 2, room.bytes));
    SESSION_REFUSED(10, bowlinette_last_call(&session, book, s->book, iv, BLOCK, 2, room.bytes));
    CHECK(bowlinette_last_call(&session, book, s->book, iv, BLOCK, 0, room.bytes) == BOWLINETTE_DONE);
    CHECK(memcmp(room.bytes, want, BLOCK) == 0);
    SESSION_REFUSED(21, bowlinette_block_call(&session, book, s->book, iv, BLOCK));
    SESSION_REFUSED(21, bowlinette_last_call(&session, book, s->book, iv, BLOCK, 1, room.bytes));
    CHECK(bowlinette_begin(&session, book, s->book) == BOWLINETTE_DONE);
    for (i = 0; i < BOWLINETTE_BLOCK_CALLS_MAX; i++)
        if (bowlinette_block_call(&session, book, s->book, iv, BLOCK) != BOWLINETTE_DONE)
            break;
    CHECK(i == BOWLINETTE_BLOCK_CALLS_MAX);
    SESSION_REFUSED(22, bowlinette_block_call(&session, book, s->book, iv, BLOCK));
    CHECK(bowlinette_last_call(&session, book, s->book, iv, BLOCK, 1, room.bytes) == BOWLINETTE_DONE);
}

/* The book with another first byte, in every call that takes one: 33, which comes after 6 and before the others. */
static void first_byte_refused(const struct size *s, uint8_t with)
{
    bowlinette_session session = {{0}};
    const size_t n = s->book;

    book[BOWLINETTE_BOOK_SIZE_BYTE] = with;
    REFUSED(6, bowlinette_run_rounds(book, n - 1, 5, iv, BLOCK, room.bytes));
    REFUSED(33, bowlinette_run_rounds(book, n, 5, iv, BLOCK, room.bytes));
    REFUSED(33, bowlinette_run_rounds(book, n, 5, iv, BLOCK - 1, room.bytes));
    REFUSED(6, bowlinette_seal(book, n - 1, iv, BLOCK, coded, BLOCK, room.bytes, BLOCK, &room.length));
    REFUSED(33, bowlinette_seal(book, n, iv, BLOCK, coded, BLOCK, room.bytes, BLOCK, &room.length));
    REFUSED(33, bowlinette_seal(book, n, iv, 0, coded, 0, room.bytes, 0, &room.length));
    SESSION_REFUSED(6, bowlinette_begin(&session, book, n - 1));
    SESSION_REFUSED(33, bowlinette_begin(&session, book, n));
    SESSION_REFUSED(6, bowlinette_block_call(&session, book, n - 1, iv, BLOCK));
    SESSION_REFUSED(33, bowlinette_block_call(&session, book, n, iv, BLOCK));
    SESSION_REFUSED(33, bowlinette_block_call(&session, book, n, iv, BLOCK - 1));
    SESSION_REFUSED(6, bowlinette_last_call(&session, book, n - 1, iv, BLOCK, 0, room.bytes));
    SESSION_REFUSED(33, bowlinette_last_call(&session, book, n, iv, BLOCK, 0, room.bytes));
    SESSION_REFUSED(33, bowlinette_last_call(&session, book, n, iv, 0, 2, room.bytes));
    book[BOWLINETTE_BOOK_SIZE_BYTE] = (uint8_t)s->key;
}

/* The first bytes of the other books, and bytes that are no book's; a single round has no such byte. */
static void refusals_of_the_first_byte(const struct size *s)
{
    static const uint8_t bytes[] = {16, 24, 32, 0, 15, 17, 48, 144, 255};
    size_t i;

    for (i = 0; i < sizeof bytes; i++)
        if (bytes[i] != s->key)
            first_byte_refused(s, bytes[i]);
    CHECK(bowlinette_run_rounds(book, s->book, 5, iv, BLOCK, room.bytes) == BOWLINETTE_DONE);
    CHECK(bowlinette_run_round(book + BOWLINETTE_BOOK_ROUND(0), BOWLINETTE_ROUND_LENGTH, iv, BLOCK, room.bytes) == BOWLINETTE_DONE);
    REFUSED(6, bowlinette_run_round(book + BOWLINETTE_BOOK_ROUND(0) - 1, BOWLINETTE_ROUND_LENGTH + 1, iv, BLOCK, room.bytes));
}

/* Refusals 1, 2, 3, 7, 8, 9 and 11 of the archive. */
static void refusals_of_the_archive(const struct size *s)
{
    const uint8_t *set = chain + SET * (s->rounds + 1);
    const size_t n = 2 * BLOCK;

    REFUSED(1, bowlinette_open(schedule, key, 20, set, SET, iv, BLOCK, sealed, n, room.bytes, n, &room.length));
    REFUSED(2, bowlinette_open(schedule, key, s->key, set, SET - 1, iv, BLOCK, sealed, n, room.bytes, n, &room.length));
    REFUSED(3, bowlinette_open(schedule, key, s->key, message, SET, iv, BLOCK, sealed, n, room.bytes, n, &room.length));
    REFUSED(7, bowlinette_open(schedule, key, s->key, set, SET, iv, BLOCK - 1, sealed, n, room.bytes, n, &room.length));
    REFUSED(8, bowlinette_open(schedule, key, s->key, set, SET, iv, BLOCK, sealed, 0, room.bytes, n, &room.length));
    REFUSED(8, bowlinette_open(schedule, key, s->key, set, SET, iv, BLOCK, sealed, n - 1, room.bytes, n, &room.length));
    REFUSED(9, bowlinette_open(schedule, key, s->key, set, SET, iv, BLOCK, sealed, n, room.bytes, n - 1, &room.length));
    REFUSED(11, bowlinette_open(schedule, key, s->key, set, SET, iv, BLOCK, sealed, n, room.bytes, n, &room.length));
    REFUSED(1, bowlinette_check(schedule, key, 33, set, SET, message, INK, tag, BLOCK, &room.small));
    REFUSED(2, bowlinette_check(schedule, key, s->key, set, 0, message, INK, tag, BLOCK, &room.small));
    REFUSED(3, bowlinette_check(schedule, key, s->key, message, SET, message, INK, tag, BLOCK, &room.small));
    REFUSED(7, bowlinette_check(schedule, key, s->key, set, SET, message, INK, tag, BLOCK + 1, &room.small));
    REFUSED(8, bowlinette_check(schedule, key, s->key, set, SET, message, LONGEST + 1, tag, BLOCK, &room.small));
    CHECK(bowlinette_is_valid(schedule, key, 33, set, SET, message, INK, tag, BLOCK) == 0);
    CHECK(bowlinette_is_valid(schedule, key, s->key, set, 0, message, INK, tag, BLOCK) == 0);
    CHECK(bowlinette_is_valid(schedule, key, s->key, message, SET, message, INK, tag, BLOCK) == 0);
    CHECK(bowlinette_is_valid(schedule, key, s->key, set, SET, message, INK, tag, BLOCK + 1) == 0);
    CHECK(bowlinette_is_valid(schedule, key, s->key, set, SET, message, LONGEST + 1, tag, BLOCK) == 0);
}

/* The struct that tells of an ink file has its 18 numbers one behind the other, in the order of the header. */
static void ink_numbers(void)
{
    CHECK(sizeof(bowlinette_ink) == 144 && BOWLINETTE_INK_NUMBERS == 18);
    CHECK(offsetof(bowlinette_ink, pad_number) == 0);
    CHECK(offsetof(bowlinette_ink, iv) == 8);
    CHECK(offsetof(bowlinette_ink, sealed) == 16);
    CHECK(offsetof(bowlinette_ink, sealed_length) == 24);
    CHECK(offsetof(bowlinette_ink, tag) == 32);
    CHECK(offsetof(bowlinette_ink, remarks) == 40);
    CHECK(offsetof(bowlinette_ink, kinds) == 48);
    CHECK(offsetof(bowlinette_ink, offsets) == 80);
    CHECK(offsetof(bowlinette_ink, lengths) == 112);
}

/* The lengths of the fields of an ink file, how many remarks it has, and the length of its buffer. */
struct fields {
    size_t pad_number, iv, sealed, tag, remarks, lengths[BOWLINETTE_REMARKS_MAX], out;
};

/* Right ones, and the kinds of remarks that go with all. */
static const struct fields right = {8, BLOCK, 3 * BLOCK, BLOCK, 4, {0, 15, 255, 1}, sizeof room.bytes};
static uint8_t kinds[] = {0x1f, 0x10, 0x10, 0x1a, 0x10, 0x10};

/* How many bytes a file of these fields has. */
static size_t file_length(const struct fields *f)
{
    size_t k, length = 4 * BOWLINETTE_INK_HEAD_LENGTH + f->pad_number + f->iv + f->sealed + f->tag;

    for (k = 0; k < f->remarks && k < BOWLINETTE_REMARKS_MAX; k++)
        length += BOWLINETTE_INK_HEAD_LENGTH + f->lengths[k];
    return length;
}

/* Writes them to the room: parts of the message, and what was sealed. */
static uint32_t write_fields(const struct fields *f, uint64_t *length)
{
    return bowlinette_write_ink(message + 1, f->pad_number, message + 50, f->iv, sealed, f->sealed, message + 100, f->tag,
                                kinds, f->remarks, message + 200, f->lengths[0], message + 500, f->lengths[1],
                                message + 800, f->lengths[2], message + 1100, f->lengths[3], room.bytes, f->out, length);
}

/* Fields that must be refused with the number, or written where that is 0. */
static void fields(uint32_t number, const struct fields *f, unsigned long where)
{
    uint64_t length = 0;

    fresh();
    if (number != BOWLINETTE_DONE) {
        check(write_fields(f, &room.length) == number, "the number of fields refused", where);
        check(untouched(0), "what is lent for fields refused", where);
    } else {
        check(write_fields(f, &length) == number, "the number of fields", where);
        check(length == file_length(f) && untouched(length), "the length of fields", where);
    }
}

/* The right fields, but for one part and then for another. */
#define FIELDS(number, part, n, other, m) \
    do {                                  \
        struct fields f = right;          \
        f.part = (n);                     \
        f.other = (m);                    \
        fields(number, &f, __LINE__);     \
    } while (0)
#define FIELD(number, part, n) FIELDS(number, part, n, part, n)

/* Refusals 30, 31 and 9 of writing, with their neighbours. */
static void refusals_of_writing_ink(void)
{
    static const size_t lengths[] = {0, 7, 8, 9, 15, 16, 17, 32};
    static const size_t blocks[] = {16, 32, 1048560, 1048576}, no_blocks[] = {0, 15, 17, 1048575, 1048577, 1048592};
    const size_t n = file_length(&right);
    size_t i, k;

    for (i = 0; i < sizeof lengths / sizeof lengths[0]; i++) {
        FIELD(lengths[i] == BOWLINETTE_PAD_NUMBER_LENGTH ? 0 : 31, pad_number, lengths[i]);
        FIELD(lengths[i] == BLOCK ? 0 : 31, iv, lengths[i]);
        FIELD(lengths[i] == BLOCK ? 0 : 31, tag, lengths[i]);
    }
    for (i = 0; i < sizeof blocks / sizeof blocks[0]; i++)
        FIELD(0, sealed, blocks[i]);
    for (i = 0; i < sizeof no_blocks / sizeof no_blocks[0]; i++)
        FIELD(31, sealed, no_blocks[i]);
    for (k = 0; k < BOWLINETTE_REMARKS_MAX; k++) {
        FIELD(0, lengths[k], 0);
        FIELD(0, lengths[k], BOWLINETTE_REMARK_LENGTH_MAX);
        FIELD(31, lengths[k], BOWLINETTE_REMARK_LENGTH_MAX + 1);
        FIELDS(0, lengths[k], 1000, remarks, k);
    }
    FIELD(30, remarks, 5);
    FIELD(30, remarks, 6);
    FIELD(0, out, n);
    FIELD(9, out, n - 1);
    FIELD(9, out, 0);
}

/* The kinds of remarks, and which of several faults is told. */
static void refusals_of_remarks(void)
{
    unsigned k, kind;

    for (k = 0; k < BOWLINETTE_REMARKS_MAX; k++) {
        const uint8_t was = kinds[k];
        for (kind = 0; kind < 256; kind++) {
            kinds[k] = (uint8_t)kind;
            fields(kind < BOWLINETTE_INK_REMARK_FIRST || kind > BOWLINETTE_INK_REMARK_LAST ? 30 : 0, &right, __LINE__);
        }
        FIELD(30, lengths[k], 256);
        FIELDS(31, tag, 17, out, 0);
        FIELDS(30, remarks, 5, out, 0);
        if (k > 0)
            FIELD(31, lengths[k - 1], 256);
        if (k < 3)
            FIELD(30, lengths[k + 1], 256);
        kinds[k] = was;
    }
    FIELDS(31, pad_number, 7, lengths[0], 256);
    FIELDS(31, lengths[3], 256, remarks, 5);
    FIELDS(31, lengths[0], 256, out, 0);
    FIELDS(30, remarks, 5, out, 0);
}

/* A part of the file read from a copy of just so many bytes: refused with the number, or accepted where that is 0. */
static void read_part(uint32_t number, size_t n)
{
    uint8_t *copy = malloc(n + (n == 0));
    bowlinette_ink ink;

    CHECK(copy != NULL);
    memcpy(copy, file, n);
    if (number != BOWLINETTE_DONE)
        REFUSED(number, bowlinette_read_ink(copy, n, (uint64_t *)&room.ink));
    else
        CHECK(bowlinette_read_ink(copy, n, (uint64_t *)&ink) == BOWLINETTE_DONE);
    CHECK(memcmp(copy, file, n) == 0);
    free(copy);
}

/* The file with a byte changed. */
static void read_changed(uint32_t number, size_t n, size_t at, unsigned with)
{
    const uint8_t was = file[at];

    file[at] = (uint8_t)with;
    read_part(number, n);
    file[at] = was;
}

/* Writes the right fields to the file, and says where its records begin, and where the last one ends. */
static size_t right_file(size_t begins[9])
{
    const size_t lengths[8] = {right.pad_number, right.iv, right.sealed, right.tag,
                               right.lengths[0], right.lengths[1], right.lengths[2], right.lengths[3]};
    bowlinette_ink ink = {0};
    uint64_t n = 0;
    unsigned k;

    for (begins[0] = 0, k = 0; k < 8; k++)
        begins[k + 1] = begins[k] + BOWLINETTE_INK_HEAD_LENGTH + lengths[k];
    fresh();
    CHECK(write_fields(&right, &n) == BOWLINETTE_DONE && n == begins[8]);
    memcpy(file, room.bytes, sizeof file);
    CHECK(bowlinette_read_ink(file, begins[8], (uint64_t *)&ink) == BOWLINETTE_DONE);
    CHECK(ink.pad_number == begins[1] - lengths[0] && ink.iv == begins[2] - lengths[1]);
    CHECK(ink.sealed == begins[3] - lengths[2] && ink.sealed_length == lengths[2]);
    CHECK(ink.tag == begins[4] - lengths[3] && ink.remarks == BOWLINETTE_REMARKS_MAX);
    for (k = 0; k < BOWLINETTE_REMARKS_MAX; k++) {
        CHECK(ink.kinds[k] == kinds[k] && ink.lengths[k] == lengths[4 + k]);
        CHECK(ink.offsets[k] == begins[5 + k] - lengths[4 + k]);
    }
    return begins[8];
}

/* Refusals 30 and 31 of reading, with their neighbours. */
static void refusals_of_reading_ink(void)
{
    size_t begins[9];
    const size_t n = right_file(begins);
    size_t end, k = 0;

    for (end = 0; end <= n; end++) {
        if (k < 8 && end == begins[k + 1])
            k++;
        read_part(end == begins[k] && k >= 4 ? 0 : end < begins[k] + BOWLINETTE_INK_HEAD_LENGTH ? 30 : 31, end);
    }
    for (k = 0; k < 8; k++) {
        CHECK(file[begins[k]] == 0xa5 && file[begins[k] + 1] == (k < 4 ? k + 1 : kinds[k - 4]));
        read_changed(30, n, begins[k], 0xa4);
        read_changed(30, n, begins[k] + 1, 0x00);
        read_changed(30, n, begins[k] + 1, 0x05);
        read_changed(30, n, begins[k] + 1, 0x0f);
        read_changed(k < 4 ? 30 : 0, n, begins[k] + 1, BOWLINETTE_INK_REMARK_FIRST);
        read_changed(k < 4 ? 30 : 0, n, begins[k] + 1, BOWLINETTE_INK_REMARK_LAST);
        read_changed(30, n, begins[k] + 1, 0x20);
        read_changed(30, n, begins[k] + 1, 0xff);
        read_changed(31, n, begins[k] + 4, 1);
        read_changed(31, n, begins[k] + 5, 1);
        read_changed(31, n, begins[k] + 5, 0xff);
    }
    for (end = 1; end <= 7; end++) {
        memcpy(file + n, file + begins[4], BOWLINETTE_INK_HEAD_LENGTH);
        read_part(30, n + end);
        memmove(file + begins[7], file + begins[4], BOWLINETTE_INK_HEAD_LENGTH);
        read_part(end == BOWLINETTE_INK_HEAD_LENGTH ? 0 : 30, begins[7] + end);
        right_file(begins);
    }
}

/* The longest file: the header says how many bytes it has. */
static void the_longest_ink_file(void)
{
    const struct fields longest = {8, BLOCK, BOWLINETTE_CODE_LENGTH_MAX, BLOCK, 4, {255, 255, 255, 255}, BOWLINETTE_INK_LENGTH_MAX};
    struct fields shorter = longest;
    bowlinette_ink ink = {0};
    uint64_t n = 0;

    shorter.out--;
    fields(9, &shorter, __LINE__);
    fields(0, &longest, __LINE__);
    CHECK(write_fields(&longest, &n) == BOWLINETTE_DONE && n == BOWLINETTE_INK_LENGTH_MAX);
    memcpy(file, room.bytes, n);
    CHECK(bowlinette_read_ink(file, n, (uint64_t *)&ink) == BOWLINETTE_DONE);
    CHECK(ink.sealed_length == BOWLINETTE_CODE_LENGTH_MAX && memcmp(file + ink.sealed, sealed, ink.sealed_length) == 0);
    CHECK(ink.lengths[3] == 255 && ink.offsets[3] + ink.lengths[3] == n);
    CHECK(ink.pad_number == 6 && file[1] == BOWLINETTE_INK_PAD_NUMBER);
    CHECK(ink.iv == 20 && file[15] == BOWLINETTE_INK_IV);
    CHECK(ink.sealed == 42 && file[37] == BOWLINETTE_INK_SEALED);
    CHECK(ink.tag == 42 + BOWLINETTE_CODE_LENGTH_MAX + 6 && file[ink.tag - 5] == BOWLINETTE_INK_TAG);
}

/* All that goes by a key, by the schedule. */
static void with_a_key(const struct size *s)
{
    static const size_t lengths[] = {0, 1, BLOCK - 1, BLOCK, BLOCK + 1, INK, LONGEST};
    size_t n;

    works(s);
    works_for_reading(s);
    blocks(s);
    top_masks(s, chain, book, s->book, BOWLINETTE_BOOK_ROUND(0), bowlinette_build, bowlinette_seal);
    top_masks(s, reading_chain, reading, s->reading, BOWLINETTE_READING_SUBTRACTS, bowlinette_build_reading, bowlinette_read);
    for (n = 0; n < sizeof lengths / sizeof lengths[0]; n++) {
        seal(s, lengths[n]);
        reader(s, lengths[n]);
        ink_file(s, lengths[n]);
        archive(s, lengths[n]);
    }
    refusals_of_blocks();
    refusals_of_the_works(s);
    refusals_of_the_works_for_reading(s);
    refusals_of_the_archive(s);
}

int main(void)
{
    size_t i;

    for (i = 0; i < sizeof key; i++)
        key[i] = (uint8_t)(29 * i + 1);
    version();
    texts();
    the_example_of_wf_lea();
    for (i = 0; i < sizeof sizes / sizeof sizes[0]; i++) {
        const struct size *s = &sizes[i];
        offsets(s);
        chains_of_one_byte(s);
        for (schedule = BOWLINETTE_SCHEDULE_LEA; schedule <= BOWLINETTE_SCHEDULE_WF_LEA; schedule++)
            with_a_key(s);
        refusals_of_the_schedule(s);
        refusals_of_the_makers(s);
        refusals_of_reading(s);
        refusals_of_the_pad();
        refusals_of_the_driver(s);
        refusals_of_a_session(s);
        refusals_of_the_first_byte(s);
    }
    ink_numbers();
    refusals_of_writing_ink();
    refusals_of_remarks();
    refusals_of_reading_ink();
    the_longest_ink_file();
    printf("%lu checks through the C interface, %lu failed\n", checks, failures);
    return failures != 0;
}
