/*
 * Bowlinette: the cipher LEA, with its own key schedule or the one-way one of WF-LEA, table books of it, and
 * what is done with them, for C and C++ programs.
 * Link libbowlinette.a, which is built for x86-64 Linux. docs/FORMAT.md has the layout of chains, books,
 * sessions and ink files, docs/SECURITY.md what a caller must see to.
 *
 * Every function but bowlinette_is_valid returns 0, or the number of a refusal. Where several refusals
 * apply, the lowest number is returned, 34 counting as before 1, and 33 as the next after 6; of an ink file,
 * the number of the first record at fault, and 9 comes last. After a refusal nothing behind any pointer has
 * changed; after a success only what the function's pointers that are not to const refer to has.
 *
 * All lengths count bytes. No pointer may be null, also where its length is 0, and what is written
 * must not overlap what is read. The functions keep nothing between calls and use no heap, so several
 * threads may call them at the same time, as long as no thread's session or output buffer is used by
 * another meanwhile; what is only read (a book, a key) may be shared.
 */
#ifndef BOWLINETTE_H
#define BOWLINETTE_H

#include <stddef.h>
#include <stdint.h>

#ifdef __cplusplus
extern "C" {
#endif

/* The version of this interface. */
#define BOWLINETTE_VERSION_MAJOR 4
#define BOWLINETTE_VERSION_MINOR 0
#define BOWLINETTE_VERSION "4.0"

/* What is returned. */
#define BOWLINETTE_DONE 0
#define BOWLINETTE_REFUSED_KEY_LENGTH 1     /* the key is not of 16, 24 or 32 bytes */
#define BOWLINETTE_REFUSED_CHAIN_LENGTH 2   /* wrong length of a chain for the key, or of a set */
#define BOWLINETTE_REFUSED_NO_PERMUTATION 3 /* a coding is no permutation of 0 to 15 */
#define BOWLINETTE_REFUSED_WORD_RULE 4      /* word 3 of a set differs from word 0 of the set before; in a
                                               reading chain, word 0 from word 3 */
#define BOWLINETTE_REFUSED_MASK 5           /* a mask is over 1 */
#define BOWLINETTE_REFUSED_BOOK_LENGTH 6    /* the book, or reading book, has none of its three lengths */
#define BOWLINETTE_REFUSED_BLOCK_LENGTH 7   /* the block, IV or tag is not of 16 bytes */
#define BOWLINETTE_REFUSED_MESSAGE_LENGTH 8 /* the message, coded or sealed or not, has a wrong length */
#define BOWLINETTE_REFUSED_ROOM 9           /* out is too short */
#define BOWLINETTE_REFUSED_KIND 10          /* the kind is neither 0 nor 1 */
#define BOWLINETTE_REFUSED_PADDING 11       /* what was opened does not end in padding */
#define BOWLINETTE_REFUSED_FINISHED 21      /* a block or last call on a finished session */
#define BOWLINETTE_REFUSED_LIMIT 22         /* a block call after 65,535 accepted ones */
#define BOWLINETTE_REFUSED_RECORD 30        /* of an ink file, a record's mark, kind or order, a record that
                                               is missing, its head cut short, or a fifth remark */
#define BOWLINETTE_REFUSED_RECORD_LENGTH 31 /* a record's length is not allowed, or past the file's end */
#define BOWLINETTE_REFUSED_RANDOM 32        /* the random bytes ran out */
#define BOWLINETTE_REFUSED_SIZE_BYTE 33     /* the first byte of the book is not the key length that goes with
                                               the length of the book */
#define BOWLINETTE_REFUSED_SCHEDULE 34      /* the schedule is neither 0 nor 1 */

/*
 * The schedule that makes the round keys of a key: LEA's, or the one-way one of WF-LEA, whose round keys are cut
 * from SHA-256 digests, so that the key is not to be worked back from them. It is told to every function that is given the
 * key; no book and no file states it. All that is built, opened and checked for one pad must go by the same one.
 */
#define BOWLINETTE_SCHEDULE_LEA 0
#define BOWLINETTE_SCHEDULE_WF_LEA 1

/* A block, in bytes, and the round keys of one round, in 32-bit words. */
#define BOWLINETTE_BLOCK_LENGTH 16
#define BOWLINETTE_ROW_WORDS 6

/*
 * A coding, in bytes: the images of 0 to 15, each once. A set has 32 codings; coding 8w + j serves
 * half byte j of word w of a block, j = 0 lowest.
 */
#define BOWLINETTE_CODING_LENGTH 16
#define BOWLINETTE_SET_LENGTH 512

/*
 * The longest message, and the most bytes that a coded or sealed message has. The kind says whether a
 * message coded for a tag has padding: 0 no, 1 yes.
 */
#define BOWLINETTE_MESSAGE_LENGTH_MAX 1048575
#define BOWLINETTE_CODE_LENGTH_MAX 1048576
#define BOWLINETTE_KIND_WHOLE 0
#define BOWLINETTE_KIND_PADDED 1

/* What checking says of a tag. */
#define BOWLINETTE_INVALID 0
#define BOWLINETTE_VALID 1

/* The tables of one round of a book, in bytes, a tag session, in bytes, and the block calls it takes. */
#define BOWLINETTE_ROUND_LENGTH 18432
#define BOWLINETTE_SESSION_LENGTH 19
#define BOWLINETTE_BLOCK_CALLS_MAX 65535

/*
 * An ink file is a run of records, each a byte hex a5, its kind, its length in four bytes, lowest first,
 * and its bytes: a pad number, an IV, sealed blocks and a tag, in this order, and then up to four remarks.
 * The kinds; the head of a record, a pad number, the longest remark and the longest file in bytes; the
 * most remarks, and how many numbers tell where all that stands.
 */
#define BOWLINETTE_INK_PAD_NUMBER 0x01
#define BOWLINETTE_INK_IV 0x02
#define BOWLINETTE_INK_SEALED 0x03
#define BOWLINETTE_INK_TAG 0x04
#define BOWLINETTE_INK_REMARK_FIRST 0x10
#define BOWLINETTE_INK_REMARK_LAST 0x1f
#define BOWLINETTE_INK_HEAD_LENGTH 6
#define BOWLINETTE_PAD_NUMBER_LENGTH 8
#define BOWLINETTE_REMARK_LENGTH_MAX 255
#define BOWLINETTE_INK_LENGTH_MAX 1049684
#define BOWLINETTE_REMARKS_MAX 4
#define BOWLINETTE_INK_NUMBERS 18

/* The three key sizes: the key in bytes, its rounds, its chain, book and reading book in bytes. */
#define BOWLINETTE_KEY_LENGTH_128 16
#define BOWLINETTE_ROUNDS_128 24
#define BOWLINETTE_CHAIN_LENGTH_128 23104
#define BOWLINETTE_BOOK_LENGTH_128 466961
#define BOWLINETTE_READING_LENGTH_128 450560

#define BOWLINETTE_KEY_LENGTH_192 24
#define BOWLINETTE_ROUNDS_192 28
#define BOWLINETTE_CHAIN_LENGTH_192 26784
#define BOWLINETTE_BOOK_LENGTH_192 540689
#define BOWLINETTE_READING_LENGTH_192 524288

#define BOWLINETTE_KEY_LENGTH_256 32
#define BOWLINETTE_ROUNDS_256 32
#define BOWLINETTE_CHAIN_LENGTH_256 30464
#define BOWLINETTE_BOOK_LENGTH_256 614417
#define BOWLINETTE_READING_LENGTH_256 598016

/*
 * So many random bytes suffice for a chain or a reading chain, nearly always: how many are drawn depends on
 * the bytes. A call that draws more is refused, has used none, and may be made again with the same bytes and
 * more behind them.
 */
#define BOWLINETTE_RANDOM_LENGTH_128 19500
#define BOWLINETTE_RANDOM_LENGTH_192 22500
#define BOWLINETTE_RANDOM_LENGTH_256 25500

/*
 * Where the parts of a chain of r rounds begin: the message set U, set l (l from 0 to r), and what it has
 * for round l (l from 0 to r - 1), 24 middle codings and then 24 masks. The pad is given U, the archive
 * set r. A reading chain has the same parts: its set 0 is set r of the chain of the book that seals, and
 * what is read is coded by its U.
 */
#define BOWLINETTE_CHAIN_MESSAGE_SET 0
#define BOWLINETTE_CHAIN_SET(l) (512 + 512 * (size_t)(l))
#define BOWLINETTE_CHAIN_LAST_SET_128 12800
#define BOWLINETTE_CHAIN_LAST_SET_192 14848
#define BOWLINETTE_CHAIN_LAST_SET_256 16896
#define BOWLINETTE_CHAIN_ROUND(r, l) (1024 + 512 * (size_t)(r) + 408 * (size_t)(l))
#define BOWLINETTE_ROUND_MASKS 384

/*
 * Where the parts of a book begin: the length of its key, in one byte, its start, group g of fold tables (g
 * from 0 to 2), the tables of round l. In a round come 24 add tables of 512 bytes, then 24 turn tables of
 * 256.
 */
#define BOWLINETTE_BOOK_SIZE_BYTE 0
#define BOWLINETTE_BOOK_START 1
#define BOWLINETTE_BOOK_GROUP(g) (17 + 8192 * (size_t)(g))
#define BOWLINETTE_BOOK_ROUND(l) (24593 + 18432 * (size_t)(l))
#define BOWLINETTE_ROUND_TURNS 12288

/*
 * Where the parts of a reading book begin: the tables of reading round l, and after the last of them its
 * one group of fold tables. In a reading round come 24 turn tables of 256 bytes, then 24 subtract tables
 * of 512.
 */
#define BOWLINETTE_READING_ROUND(l) (18432 * (size_t)(l))
#define BOWLINETTE_READING_SUBTRACTS 6144
#define BOWLINETTE_READING_FOLDS_128 442368
#define BOWLINETTE_READING_FOLDS_192 516096
#define BOWLINETTE_READING_FOLDS_256 589824

/* What a returned number means, as a sentence. */
static inline const char *bowlinette_text(uint32_t refusal)
{
    switch (refusal) {
    case BOWLINETTE_DONE:
        return "Done.";
    case BOWLINETTE_REFUSED_KEY_LENGTH:
        return "The key is not of 16, 24 or 32 bytes.";
    case BOWLINETTE_REFUSED_CHAIN_LENGTH:
        return "The chain has not the length that goes with the key, or the set is not of 512 bytes.";
    case BOWLINETTE_REFUSED_NO_PERMUTATION:
        return "A coding is no permutation of 0 to 15.";
    case BOWLINETTE_REFUSED_WORD_RULE:
        return "Word 3 of a set of the chain is not coded as word 0 of the set before it, or in a "
               "reading chain word 0 as word 3.";
    case BOWLINETTE_REFUSED_MASK:
        return "A mask of the chain is over 1.";
    case BOWLINETTE_REFUSED_BOOK_LENGTH:
        return "The book, the reading book or the tables of a round have a length that none has.";
    case BOWLINETTE_REFUSED_BLOCK_LENGTH:
        return "The block, IV or tag is not of 16 bytes.";
    case BOWLINETTE_REFUSED_MESSAGE_LENGTH:
        return "The message is too long, or coded or sealed bytes are none, too many or no whole blocks.";
    case BOWLINETTE_REFUSED_ROOM:
        return "The output buffer is too short.";
    case BOWLINETTE_REFUSED_KIND:
        return "The kind is neither 0 nor 1.";
    case BOWLINETTE_REFUSED_PADDING:
        return "What was opened does not end in padding.";
    case BOWLINETTE_REFUSED_FINISHED:
        return "The session is finished.";
    case BOWLINETTE_REFUSED_LIMIT:
        return "The session has taken 65,535 block calls.";
    case BOWLINETTE_REFUSED_RECORD:
        return "A record of the ink file has a wrong mark, kind or place, is missing, has its first six "
               "bytes cut short, or is a fifth remark.";
    case BOWLINETTE_REFUSED_RECORD_LENGTH:
        return "A record of the ink file has a length that its kind does not allow, or that goes past "
               "the end of the file.";
    case BOWLINETTE_REFUSED_RANDOM:
        return "The random bytes ran out.";
    case BOWLINETTE_REFUSED_SIZE_BYTE:
        return "The first byte of the book is not the key length that goes with the length of the book.";
    case BOWLINETTE_REFUSED_SCHEDULE:
        return "The schedule is neither 0, LEA's, nor 1, WF-LEA's.";
    default:
        return "This number is not known.";
    }
}

/*
 * Enciphers one block and writes the 16 bytes of the ciphertext to out.
 * Refuses 34 (schedule), 1 (key length), then 7 (block length).
 */
uint32_t bowlinette_encipher(uint8_t schedule,
                             const uint8_t *key, size_t key_length,
                             const uint8_t *block, size_t block_length,
                             uint8_t *out);

/*
 * Deciphers one block and writes the 16 bytes of the plaintext to out.
 * Refuses 34 (schedule), 1 (key length), then 7 (block length).
 */
uint32_t bowlinette_decipher(uint8_t schedule,
                             const uint8_t *key, size_t key_length,
                             const uint8_t *block, size_t block_length,
                             uint8_t *out);

/*
 * Takes one block through the first rounds of enciphering and writes the 16 bytes that stand after
 * them to out. With 0 rounds that is the block; a count above the key's rounds means all of them.
 * Refuses 34 (schedule), 1 (key length), then 7 (block length).
 */
uint32_t bowlinette_first_rounds(uint8_t schedule,
                                 const uint8_t *key, size_t key_length,
                                 size_t rounds,
                                 const uint8_t *block, size_t block_length,
                                 uint8_t *out);

/*
 * Writes the six round keys of one round to row, in the order in which the round uses them. Rounds
 * count from 0; the number given is taken mod the key's rounds.
 * Refuses 34 (schedule), then 1 (key length).
 */
uint32_t bowlinette_round_keys(uint8_t schedule,
                               const uint8_t *key, size_t key_length,
                               size_t round,
                               uint32_t *row);

/*
 * Checks a set that comes alone.
 * Refuses 2 (length), then 3 (permutations).
 */
uint32_t bowlinette_check_set(const uint8_t *set, size_t set_length);

/*
 * Checks a chain for keys of a length. A chain holds the message set, the sets 0 to r, and for each
 * of the r rounds 24 middle codings and then 24 masks, a byte each, 0 or 1.
 * Refuses 1 (key length), then 2 (chain length), 3 (permutations), 4 (the word 3 rule), 5 (masks).
 */
uint32_t bowlinette_check_chain(size_t key_length,
                                const uint8_t *chain, size_t chain_length);

/*
 * Checks a reading chain for keys of a length. It is laid out as a chain is; in place of the word 3 rule,
 * word 0 of each set after set 0 is coded as word 3 of the set before it.
 * Refuses 1 (key length), then 2 (chain length), 3 (permutations), 4 (the word 0 rule), 5 (masks).
 */
uint32_t bowlinette_check_reading_chain(size_t key_length,
                                        const uint8_t *chain, size_t chain_length);

/*
 * Makes a chain for keys of key_length bytes from random bytes and writes it to the front of out, which may
 * be longer: the bytes after the chain stay as they were. Drawn are U, the sets, but for the words that the
 * word 3 rule fixes, and for each round its middle codings and its 24 masks. How many bytes were used up goes
 * to drawn; more may be given, and those after them are not looked at.
 * Refuses 1 (key length), 9 (out shorter than the chain), then 32 (fewer random bytes than are drawn).
 * TAKE CARE: the chain is as secret as the random bytes. They are the caller's, from the system's generator
 * (getrandom), and each is used once: a byte that a chain was drawn from must never be given again, to any
 * call, nor be known to anyone.
 */
uint32_t bowlinette_make_chain(size_t key_length,
                               const uint8_t *random, size_t random_length,
                               uint8_t *out, size_t out_length,
                               uint64_t *drawn);

/*
 * Makes a reading chain in the same way: its set 0 is the set that is given, for which nothing is drawn, and
 * of the sets after it word 0 is not drawn. For a review screen, set is the last set (set r) of the chain of
 * the pad whose files are read; key_length is that of the pad's key.
 * Refuses 1 (key length), 2 (length of the set), 3 (its permutations), 9 (out shorter than the chain), then
 * 32 (fewer random bytes than are drawn).
 * TAKE CARE: as above. Random bytes that made the pad's chain must not make its reading chain.
 */
uint32_t bowlinette_make_reading_chain(size_t key_length,
                                       const uint8_t *set, size_t set_length,
                                       const uint8_t *random, size_t random_length,
                                       uint8_t *out, size_t out_length,
                                       uint64_t *drawn);

/*
 * Builds the book of a key, by a schedule, and of a chain, and writes it to the front of out, which may be
 * longer: the bytes after the book stay as they were. The chain and the book have the lengths above. The book's
 * first byte is the length of the key.
 * Refuses 34 (schedule), 1 (key length), 2 to 5 (the chain), then 9 (out shorter than the book).
 */
uint32_t bowlinette_build(uint8_t schedule,
                          const uint8_t *key, size_t key_length,
                          const uint8_t *chain, size_t chain_length,
                          uint8_t *out, size_t out_length);

/*
 * Builds the tables of one round of that book alone, 18,432 bytes, and writes them to the front of
 * out. Rounds count from 0; the number given is taken mod the key's rounds.
 * Refuses 34 (schedule), 1 (key length), 2 to 5 (the chain), then 9 (out shorter than the tables).
 */
uint32_t bowlinette_build_round(uint8_t schedule,
                                const uint8_t *key, size_t key_length,
                                const uint8_t *chain, size_t chain_length,
                                size_t round,
                                uint8_t *out, size_t out_length);

/*
 * Builds the reading book of a key and a reading chain and writes it to the front of out, which may be
 * longer: the bytes after the book stay as they were. It reads what the book of the same schedule and key seals
 * whose chain's last set is the reading chain's set 0.
 * Refuses 34 (schedule), 1 (key length), 2 to 5 (the reading chain), then 9 (out shorter than the reading
 * book).
 */
uint32_t bowlinette_build_reading(uint8_t schedule,
                                  const uint8_t *key, size_t key_length,
                                  const uint8_t *chain, size_t chain_length,
                                  uint8_t *out, size_t out_length);

/*
 * Codes a message for sealing: pads it by PKCS#7 with 1 to 16 bytes, codes its blocks by the set u
 * and writes them to the front of out, which may be longer: the bytes after them stay as they were.
 * How many were written goes to length.
 * Refuses 2 (length of u), 3 (its permutations), 8 (message too long), then 9 (out too short).
 */
uint32_t bowlinette_code_for_sealing(const uint8_t *u, size_t u_length,
                                     const uint8_t *message, size_t message_length,
                                     uint8_t *out, size_t out_length,
                                     uint64_t *length);

/*
 * Codes a message for a tag: as above, but nothing is added to a message that fills one or more
 * whole blocks (kind 0); hex 80 and then zeros to the end of the block are added to others (kind 1).
 * How many bytes were written goes to length, the kind to kind.
 * Refuses 2 (length of u), 3 (its permutations), 8 (message too long), then 9 (out too short).
 */
uint32_t bowlinette_code_for_tag(const uint8_t *u, size_t u_length,
                                 const uint8_t *message, size_t message_length,
                                 uint8_t *out, size_t out_length,
                                 uint64_t *length, uint8_t *kind);

/*
 * The functions below use a book's length to know its rounds, and refuse by 33 a book whose first byte is
 * not the length of keys with so many rounds; the tables of a round, and reading books, have no such byte.
 * All other bytes they read as they are: of an entry of an add or subtract table the bits 0 to 4, of any
 * other entry the bits 0 to 3. Blocks go in and come out coded.
 *
 * Takes one block through the tables of one round, 18,432 bytes, and writes the 16 bytes that stand
 * after it to out.
 * Refuses 6 (length of the tables), then 7 (block length).
 */
uint32_t bowlinette_run_round(const uint8_t *tables, size_t tables_length,
                              const uint8_t *block, size_t block_length,
                              uint8_t *out);

/*
 * Takes one block through the first rounds of a book and writes the 16 bytes that stand after them
 * to out. With 0 rounds that is the block; a count above the book's rounds means all of them.
 * Refuses 6 (book length), 33 (its first byte), then 7 (block length).
 */
uint32_t bowlinette_run_rounds(const uint8_t *book, size_t book_length,
                               size_t rounds,
                               const uint8_t *block, size_t block_length,
                               uint8_t *out);

/*
 * Seals a message coded for sealing: from the IV, taken as coded by the last set, each block is folded
 * in, goes through the rounds and is written, to the front of out, which may be longer: the bytes
 * after them stay as they were. How many were written, as many as were read, goes to length.
 * Refuses 6 (book length), 33 (its first byte), 7 (IV length), 8 (coded empty, over 1,048,576 bytes or no
 * multiple of 16), then 9 (out shorter than coded).
 */
uint32_t bowlinette_seal(const uint8_t *book, size_t book_length,
                         const uint8_t *iv, size_t iv_length,
                         const uint8_t *coded, size_t coded_length,
                         uint8_t *out, size_t out_length,
                         uint64_t *length);

/*
 * Reads a sealed message by a reading book: each block goes through the rounds, is folded with the sealed
 * block before it, the first with the IV, and is written, to the front of out, which may be longer: the
 * bytes after them stay as they were. How many were written, as many as were read, goes to length. They
 * are coded by the reading chain's U, padding and all.
 * Refuses 6 (length of the reading book), 7 (IV length), 8 (sealed empty, over 1,048,576 bytes or no
 * multiple of 16), then 9 (out shorter than sealed).
 * TAKE CARE: nothing is checked of what was sealed. Bytes that nobody sealed, or that were changed, are
 * read too; a tag is checked where the key is.
 */
uint32_t bowlinette_read(const uint8_t *book, size_t book_length,
                         const uint8_t *iv, size_t iv_length,
                         const uint8_t *sealed, size_t sealed_length,
                         uint8_t *out, size_t out_length,
                         uint64_t *length);

/*
 * A tag session, which the caller owns and only the three functions below write: all of it is in these
 * bytes, so it may be copied, kept and compared. Any bytes are safe to be given; what a session is
 * before it has begun does not matter. All calls of a session should get the same book. A message coded
 * for a tag goes in a block at a time, its last block and its kind by the last call.
 */
typedef struct bowlinette_session {
    uint8_t bytes[BOWLINETTE_SESSION_LENGTH];
} bowlinette_session;

/*
 * Begins a session, whatever it held: its block is the book's start, and it has taken no call.
 * Refuses 6 (book length), then 33 (its first byte).
 */
uint32_t bowlinette_begin(bowlinette_session *session,
                          const uint8_t *book, size_t book_length);

/*
 * A block call: folds the coded block into the session's, takes that through the rounds, and counts
 * one call more.
 * Refuses 6 (book length), 33 (its first byte), 7 (block length), 21 (session finished), then 22 (65,535
 * calls taken).
 */
uint32_t bowlinette_block_call(bowlinette_session *session,
                               const uint8_t *book, size_t book_length,
                               const uint8_t *block, size_t block_length);

/*
 * A last call: folds in the last coded block by its kind, takes that through the rounds and writes the
 * 16 bytes of the tag to tag. The session is then finished.
 * Refuses 6 (book length), 33 (its first byte), 7 (block length), 10 (kind), then 21 (session finished).
 */
uint32_t bowlinette_last_call(bowlinette_session *session,
                              const uint8_t *book, size_t book_length,
                              const uint8_t *block, size_t block_length,
                              uint8_t kind,
                              uint8_t *tag);

/*
 * The functions below have the schedule that the book was built by, the key, and set, the chain's set of
 * number r, the last of its sets.
 *
 * Opens a sealed message: decodes the IV and the blocks by the set, deciphers them, takes the padding
 * off and writes the message to the front of out: the bytes after it stay as they were. How many were
 * written goes to length.
 * Refuses 34 (schedule), 1 (key length), 2 (length of the set), 3 (its permutations), 7 (IV length), 8 (sealed
 * empty, over 1,048,576 bytes or no multiple of 16), 9 (out shorter than sealed), then 11 (padding: its last
 * byte v is not 1 to 16, or the last v bytes are not all v).
 */
uint32_t bowlinette_open(uint8_t schedule,
                         const uint8_t *key, size_t key_length,
                         const uint8_t *set, size_t set_length,
                         const uint8_t *iv, size_t iv_length,
                         const uint8_t *sealed, size_t sealed_length,
                         uint8_t *out, size_t out_length,
                         uint64_t *length);

/*
 * Checks a tag: whether, decoded by the set, it is the CMAC of the message, which is given plain. The
 * answer, valid or invalid, goes to valid.
 * Refuses 34 (schedule), 1 (key length), 2 (length of the set), 3 (its permutations), 7 (tag length), then 8
 * (message too long).
 * TAKE CARE: 0 is returned for an invalid tag too, and a refusal leaves valid as it was. A program that
 * lets something go by a tag asks bowlinette_is_valid instead.
 */
uint32_t bowlinette_check(uint8_t schedule,
                          const uint8_t *key, size_t key_length,
                          const uint8_t *set, size_t set_length,
                          const uint8_t *message, size_t message_length,
                          const uint8_t *tag, size_t tag_length,
                          uint8_t *valid);

/*
 * The same in one word: 1 only if the tag is valid, 0 if it is invalid and where bowlinette_check would
 * refuse.
 */
uint32_t bowlinette_is_valid(uint8_t schedule,
                             const uint8_t *key, size_t key_length,
                             const uint8_t *set, size_t set_length,
                             const uint8_t *message, size_t message_length,
                             const uint8_t *tag, size_t tag_length);

/*
 * Where the fields of an ink file stand: the offsets of the bytes of pad number, IV, sealed blocks and tag,
 * the length of the sealed blocks, how many remarks there are, and of each its kind, offset and length;
 * zeros for remarks that there are not.
 */
typedef struct bowlinette_ink {
    uint64_t pad_number;
    uint64_t iv;
    uint64_t sealed;
    uint64_t sealed_length;
    uint64_t tag;
    uint64_t remarks;
    uint64_t kinds[BOWLINETTE_REMARKS_MAX];
    uint64_t offsets[BOWLINETTE_REMARKS_MAX];
    uint64_t lengths[BOWLINETTE_REMARKS_MAX];
} bowlinette_ink;

/*
 * Reads an ink file: writes to ink the 18 numbers that a bowlinette_ink has, in its order; a struct is
 * given as (uint64_t *)&ink. Only the heads of records are looked at.
 * Goes record by record. Refuses, at the first record at fault, 30 (fewer than six bytes left, no mark, a
 * kind that is not known or not due there, a fifth remark; also a file that ends where one of the first
 * four records is due), then 31 (a length that the kind does not allow, or past the file's end).
 * TAKE CARE: a file that is read has the form of an ink file, no more: anyone can write one. Its tag is
 * checked where the key is, and speaks of the message alone, not of pad number and remarks. A remark is any
 * bytes, zeros among them, and no C string.
 */
uint32_t bowlinette_read_ink(const uint8_t *file, size_t file_length,
                             uint64_t ink[BOWLINETTE_INK_NUMBERS]);

/*
 * Writes an ink file to the front of out, which may be longer: the bytes after it stay as they were. kinds
 * has a byte for each remark; the bytes of the first are remark0, and so on. Remarks past the length of
 * kinds are not looked at, but their pointers may not be null either. How many bytes were written goes to
 * length: 64 and the sealed bytes, and for each remark 6 and its bytes.
 * Goes record by record, as reading does. Refuses 31 (pad number not of 8 bytes, IV not of 16, sealed
 * blocks empty, over 1,048,576 bytes or no multiple of 16, tag not of 16), for each remark 30 (kind not hex
 * 10 to 1f) and then 31 (over 255 bytes), 30 (a fifth remark), then 9 (out too short).
 * TAKE CARE: pad number and remarks stand in the file as they are given, for everyone to read and to change.
 */
uint32_t bowlinette_write_ink(const uint8_t *pad_number, size_t pad_number_length,
                              const uint8_t *iv, size_t iv_length,
                              const uint8_t *sealed, size_t sealed_length,
                              const uint8_t *tag, size_t tag_length,
                              const uint8_t *kinds, size_t kinds_length,
                              const uint8_t *remark0, size_t remark0_length,
                              const uint8_t *remark1, size_t remark1_length,
                              const uint8_t *remark2, size_t remark2_length,
                              const uint8_t *remark3, size_t remark3_length,
                              uint8_t *out, size_t out_length,
                              uint64_t *length);

#ifdef __cplusplus
}
#endif

#endif
