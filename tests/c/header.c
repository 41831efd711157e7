/* Prints the header's constants, a line for each key size, then what the functions give. */
#include "bowlinette.h"
#include <stdio.h>

#define SIZE(bits)                                                                            \
    printf("%d %d %d %d %d %d\n", BOWLINETTE_KEY_LENGTH_##bits, BOWLINETTE_ROUNDS_##bits,     \
           BOWLINETTE_CHAIN_LENGTH_##bits, BOWLINETTE_BOOK_LENGTH_##bits,                     \
           BOWLINETTE_READING_LENGTH_##bits, BOWLINETTE_RANDOM_LENGTH_##bits)

static void show(uint32_t number, const uint8_t *bytes)
{
    size_t i;
    printf("%lu ", (unsigned long)number);
    for (i = 0; i < BOWLINETTE_BLOCK_LENGTH; i++)
        printf("%02x", bytes[i]);
    printf("\n");
}

/* A set of identity codings, alone and at the front of what is no chain. */
static void checks(void)
{
    static uint8_t set[BOWLINETTE_CHAIN_LENGTH_128];
    size_t i;

    for (i = 0; i < BOWLINETTE_SET_LENGTH; i++)
        set[i] = (uint8_t)(i % BOWLINETTE_CODING_LENGTH);
    printf("%d", bowlinette_check_set(set, BOWLINETTE_SET_LENGTH) == BOWLINETTE_DONE);
    printf(" %d", bowlinette_check_set(set, 1) == BOWLINETTE_REFUSED_CHAIN_LENGTH);
    printf(" %d\n", bowlinette_check_chain(16, set, sizeof set) == BOWLINETTE_REFUSED_NO_PERMUTATION);
}

/* A chain and a reading chain that goes on from its last set, made from bytes that are not random, and refused. */
static void chains(void)
{
    static uint8_t noise[BOWLINETTE_RANDOM_LENGTH_192], chain[BOWLINETTE_CHAIN_LENGTH_192];
    const uint8_t *last = chain + BOWLINETTE_CHAIN_LAST_SET_192;
    const uint8_t *middles = chain + BOWLINETTE_CHAIN_ROUND(BOWLINETTE_ROUNDS_192, 0);
    const size_t key = BOWLINETTE_KEY_LENGTH_192;
    uint8_t set[BOWLINETTE_SET_LENGTH];
    uint64_t n = 0;
    uint32_t number;
    size_t i;

    for (i = 0; i < sizeof noise; i++)
        noise[i] = (uint8_t)(i % 251 * 77);
    number = bowlinette_make_chain(key, noise, sizeof noise, chain, sizeof chain, &n);
    show(number, middles);
    show(number, middles + BOWLINETTE_ROUND_MASKS);
    printf("%lu", (unsigned long)n);
    printf(" %d", bowlinette_make_chain(key, noise, n - 1, chain, sizeof chain, &n) == BOWLINETTE_REFUSED_RANDOM);
    printf(" %d\n", bowlinette_make_chain(key, noise, n, chain, sizeof chain - 1, &n) == BOWLINETTE_REFUSED_ROOM);
    for (i = 0; i < sizeof set; i++)
        set[i] = last[i];
    number = bowlinette_make_reading_chain(key, set, sizeof set, noise, sizeof noise, chain, sizeof chain, &n);
    show(number, chain + BOWLINETTE_CHAIN_SET(1));
    show(number, middles);
    printf("%lu", (unsigned long)n);
    number = bowlinette_make_reading_chain(key, set, sizeof set - 1, noise, 0, chain, sizeof chain, &n);
    printf(" %d", number == BOWLINETTE_REFUSED_CHAIN_LENGTH);
    number = bowlinette_make_reading_chain(key, noise, sizeof set, noise, 0, chain, sizeof chain, &n);
    printf(" %d\n", number == BOWLINETTE_REFUSED_NO_PERMUTATION);
}

/* A short message and one of a block, coded for sealing and for a tag by identity codings. */
static void codes(void)
{
    static const uint8_t message[BOWLINETTE_BLOCK_LENGTH] = "in ink";
    uint8_t set[BOWLINETTE_SET_LENGTH], out[BOWLINETTE_BLOCK_LENGTH], kind = 9;
    uint64_t length = 0;
    uint32_t number;
    size_t i;

    for (i = 0; i < sizeof set; i++)
        set[i] = (uint8_t)(i % BOWLINETTE_CODING_LENGTH);
    number = bowlinette_code_for_sealing(set, sizeof set, message, 6, out, sizeof out, &length);
    show(number, out);
    number = bowlinette_code_for_tag(set, sizeof set, message, 6, out, sizeof out, &length, &kind);
    show(number, out);
    printf("%d %d", length == sizeof out, kind == BOWLINETTE_KIND_PADDED);
    number = bowlinette_code_for_tag(set, sizeof set, message, 16, out, sizeof out, &length, &kind);
    printf(" %d %d", number == BOWLINETTE_DONE, kind == BOWLINETTE_KIND_WHOLE);
    number = bowlinette_code_for_sealing(set, sizeof set, message, 16, out, sizeof out, &length);
    printf(" %d", number == BOWLINETTE_REFUSED_ROOM);
    printf(" %d\n", BOWLINETTE_CODE_LENGTH_MAX == BOWLINETTE_MESSAGE_LENGTH_MAX + 1);
}

/* Every function of the driver on bytes of a book's length, of which only the first is a book's; and refused. */
static void driver(void)
{
    static uint8_t book[BOWLINETTE_BOOK_LENGTH_192], coded[2 * BOWLINETTE_BLOCK_LENGTH];
    uint8_t out[2 * BOWLINETTE_BLOCK_LENGTH];
    const size_t length = sizeof book, one = BOWLINETTE_BLOCK_LENGTH;
    uint64_t written = 0;
    bowlinette_session session;
    size_t i;

    for (i = 0; i < sizeof book; i++)
        book[i] = (uint8_t)(i % 251 * 77);
    book[BOWLINETTE_BOOK_SIZE_BYTE] = BOWLINETTE_KEY_LENGTH_192;
    for (i = 0; i < sizeof coded; i++)
        coded[i] = (uint8_t)(13 * i);
    show(bowlinette_run_round(book + BOWLINETTE_BOOK_ROUND(0), BOWLINETTE_ROUND_LENGTH, coded, one, out), out);
    show(bowlinette_run_rounds(book, length, BOWLINETTE_ROUNDS_192, coded, one, out), out);
    show(bowlinette_seal(book, length, coded, one, coded, 2 * one, out, sizeof out, &written), out + one);
    printf("%d\n", written == 2 * one);
    printf("%d", bowlinette_begin(&session, book, length) == BOWLINETTE_DONE);
    printf(" %d\n", bowlinette_block_call(&session, book, length, coded, one) == BOWLINETTE_DONE);
    show(bowlinette_last_call(&session, book, length, coded + one, one, BOWLINETTE_KIND_PADDED, out), out);
    book[BOWLINETTE_BOOK_SIZE_BYTE] = BOWLINETTE_KEY_LENGTH_128;
    printf("%d", bowlinette_begin(&session, book, length) == BOWLINETTE_REFUSED_SIZE_BYTE);
    printf(" %d\n", bowlinette_begin(&session, book, length - 1) == BOWLINETTE_REFUSED_BOOK_LENGTH);
}

/* A chain of identity codings, of both kinds; its middle codings come last. */
static uint8_t identities[BOWLINETTE_CHAIN_LENGTH_256];

static void reading_chain(void)
{
    const size_t rounds = BOWLINETTE_ROUNDS_256, key = BOWLINETTE_KEY_LENGTH_256;
    uint32_t number;
    size_t i, l;

    for (i = 0; i < BOWLINETTE_CHAIN_ROUND(rounds, 0); i++)
        identities[i] = (uint8_t)(i % BOWLINETTE_CODING_LENGTH);
    number = bowlinette_check_reading_chain(key, identities, sizeof identities);
    printf("%d", number == BOWLINETTE_REFUSED_NO_PERMUTATION);
    for (l = 0; l < rounds; l++)
        for (i = 0; i < BOWLINETTE_ROUND_MASKS; i++)
            identities[BOWLINETTE_CHAIN_ROUND(rounds, l) + i] = (uint8_t)(i % BOWLINETTE_CODING_LENGTH);
    printf(" %d\n", bowlinette_check_reading_chain(key, identities, sizeof identities) == BOWLINETTE_DONE);
}

/* A reading book of identity codings, which deciphers, and two blocks read by it. */
static void reading(uint8_t schedule, const uint8_t *key, size_t length)
{
    static uint8_t book[BOWLINETTE_READING_LENGTH_256];
    uint8_t sealed[2 * BOWLINETTE_BLOCK_LENGTH], out[2 * BOWLINETTE_BLOCK_LENGTH] = {0};
    const size_t one = BOWLINETTE_BLOCK_LENGTH;
    uint64_t written = 0;
    uint32_t number;
    size_t i;

    number = bowlinette_build_reading(schedule, key, length, identities, sizeof identities, book, sizeof book - 1);
    printf("%d", number == BOWLINETTE_REFUSED_ROOM);
    number = bowlinette_build_reading(schedule, key, length, identities, sizeof identities, book, sizeof book);
    printf(" %d\n", number == BOWLINETTE_DONE);
    for (i = 0; i < sizeof sealed; i++)
        sealed[i] = (uint8_t)(13 * i);
    show(bowlinette_read(book, sizeof book, sealed, one, sealed, 2 * one, out, sizeof out, &written), out + one);
    printf("%d", written == 2 * one);
    number = bowlinette_read(book, BOWLINETTE_BOOK_LENGTH_128, sealed, one, sealed, one, out, one, &written);
    printf(" %d\n", number == BOWLINETTE_REFUSED_BOOK_LENGTH);
}

/* CMAC of a message of one block, from its definition. */
static void cmac_of_one_block(uint8_t schedule, const uint8_t *key, size_t length, const uint8_t *message, uint8_t *tag)
{
    uint8_t x[BOWLINETTE_BLOCK_LENGTH] = {0}, k[BOWLINETTE_BLOCK_LENGTH + 1] = {0};
    size_t i;

    bowlinette_encipher(schedule, key, length, x, sizeof x, k);
    for (i = 0; i < sizeof x; i++)
        x[i] = (uint8_t)(message[i] ^ k[i] << 1 ^ k[i + 1] >> 7);
    x[sizeof x - 1] ^= k[0] >> 7 ? 0x87 : 0;
    bowlinette_encipher(schedule, key, length, x, sizeof x, tag);
}

/* Bytes opened, and a message checked beside its tag and another, by identity codings. */
static void archive(uint8_t schedule, const uint8_t *key, size_t length)
{
    static const uint8_t message[BOWLINETTE_BLOCK_LENGTH] = "in ink";
    uint8_t set[BOWLINETTE_SET_LENGTH], sealed[BOWLINETTE_BLOCK_LENGTH], iv[BOWLINETTE_BLOCK_LENGTH] = {0};
    uint8_t out[BOWLINETTE_BLOCK_LENGTH] = {0}, tag[BOWLINETTE_BLOCK_LENGTH], valid = 9;
    const size_t one = BOWLINETTE_BLOCK_LENGTH;
    uint64_t written = 0;
    uint32_t number;
    size_t i;

    for (i = 0; i < sizeof set; i++)
        set[i] = (uint8_t)(i % BOWLINETTE_CODING_LENGTH);
    for (i = 0; i < one; i++)
        tag[i] = i < 6 ? message[i] : 10;
    bowlinette_encipher(schedule, key, length, tag, one, sealed);
    show(bowlinette_open(schedule, key, length, set, sizeof set, iv, one, sealed, one, out, one, &written), out);
    printf("%d", written == 6);
    iv[one - 1] ^= 1;
    number = bowlinette_open(schedule, key, length, set, sizeof set, iv, one, sealed, one, out, one, &written);
    printf(" %d", number == BOWLINETTE_REFUSED_PADDING);
    number = bowlinette_open(schedule, key, length, set, sizeof set, iv, one, sealed, one, out, one - 1, &written);
    printf(" %d\n", number == BOWLINETTE_REFUSED_ROOM);
    cmac_of_one_block(schedule, key, length, message, tag);
    number = bowlinette_check(schedule, key, length, set, sizeof set, message, one, tag, one, &valid);
    printf("%d %d", number == BOWLINETTE_DONE, valid == BOWLINETTE_VALID);
    number = bowlinette_check(schedule, key, length, set, sizeof set, message, one - 1, tag, one, &valid);
    printf(" %d %d", number == BOWLINETTE_DONE, valid == BOWLINETTE_INVALID);
    number = bowlinette_check(schedule, key, length, set, sizeof set, message, one, tag, one - 1, &valid);
    printf(" %d\n", number == BOWLINETTE_REFUSED_BLOCK_LENGTH);
}

/* An ink file of one sealed block and two remarks written and read, and parts of it refused. */
static void ink_file(void)
{
    static const uint8_t bytes[] = "sixteen bytes or more of ink, or of anything";
    static const uint8_t kinds[] = {BOWLINETTE_INK_REMARK_LAST, BOWLINETTE_INK_REMARK_FIRST};
    const size_t one = BOWLINETTE_BLOCK_LENGTH, eight = BOWLINETTE_PAD_NUMBER_LENGTH;
    uint8_t file[7 * BOWLINETTE_BLOCK_LENGTH] = {0};
    bowlinette_ink ink = {0};
    uint64_t n = 0;
    uint32_t number;
    size_t i;

    number = bowlinette_write_ink(bytes, eight, bytes + 1, one, bytes + 2, one, bytes + 3, one, kinds, sizeof kinds,
                                  bytes + 4, 5, bytes, 0, bytes, 9, bytes, 9, file, sizeof file, &n);
    for (i = 0; i < n; i += one)
        show(number, file + i);
    number = bowlinette_read_ink(file, n, (uint64_t *)&ink);
    printf("%d", number == BOWLINETTE_DONE);
    for (i = 0; i < BOWLINETTE_INK_NUMBERS; i++)
        printf(" %lu", (unsigned long)((const uint64_t *)&ink)[i]);
    number = bowlinette_read_ink(file, n - 1, (uint64_t *)&ink);
    printf("\n%d", number == BOWLINETTE_REFUSED_RECORD);
    number = bowlinette_read_ink(file, n - BOWLINETTE_INK_HEAD_LENGTH - 1, (uint64_t *)&ink);
    printf(" %d", number == BOWLINETTE_REFUSED_RECORD_LENGTH);
    number = bowlinette_write_ink(bytes, eight, bytes + 1, one, bytes + 2, one, bytes + 3, one, kinds, sizeof kinds,
                                  bytes + 4, 5, bytes, 0, bytes, 9, bytes, 9, file, n - 1, &n);
    printf(" %d\n", number == BOWLINETTE_REFUSED_ROOM);
}

/* A block enciphered, deciphered and taken through five rounds, the row of round 3, and refused. */
static void cipher(uint8_t schedule, const uint8_t *key, size_t length)
{
    uint8_t block[BOWLINETTE_BLOCK_LENGTH + 1], out[BOWLINETTE_BLOCK_LENGTH] = {0};
    const size_t one = BOWLINETTE_BLOCK_LENGTH;
    uint32_t row[BOWLINETTE_ROW_WORDS], number;
    size_t i;

    for (i = 0; i < sizeof block; i++)
        block[i] = (uint8_t)(11 * i);
    show(bowlinette_encipher(schedule, key, length, block, one, out), out);
    show(bowlinette_decipher(schedule, key, length, block, one, out), out);
    show(bowlinette_first_rounds(schedule, key, length, 5, block, one, out), out);
    number = bowlinette_round_keys(schedule, key, length, 3, row);
    printf("%d", number == BOWLINETTE_DONE);
    for (i = 0; i < BOWLINETTE_ROW_WORDS; i++)
        printf(" %08lx", (unsigned long)row[i]);
    number = bowlinette_encipher(schedule, key, length, block, sizeof block, out);
    printf("\n%d", number == BOWLINETTE_REFUSED_BLOCK_LENGTH);
    number = bowlinette_encipher(schedule, key, length - 1, block, sizeof block, out);
    printf(" %d", number == BOWLINETTE_REFUSED_KEY_LENGTH);
    number = bowlinette_encipher((uint8_t)(schedule + 2), key, length - 1, block, sizeof block, out);
    printf(" %d\n", number == BOWLINETTE_REFUSED_SCHEDULE);
}

int main(void)
{
    static const uint8_t schedules[] = {BOWLINETTE_SCHEDULE_LEA, BOWLINETTE_SCHEDULE_WF_LEA};
    uint8_t key[BOWLINETTE_KEY_LENGTH_256];
    size_t i;

    for (i = 0; i < sizeof key; i++)
        key[i] = (uint8_t)(7 * i);
    SIZE(128);
    SIZE(192);
    SIZE(256);
    checks();
    chains();
    codes();
    driver();
    reading_chain();
    for (i = 0; i < sizeof schedules; i++) {
        cipher(schedules[i], key, sizeof key);
        reading(schedules[i], key, sizeof key);
        archive(schedules[i], key, sizeof key);
    }
    ink_file();
    return 0;
}
