/* A message from the pad to the archive: coded, sealed, tagged, put into an ink file; opened, and its tag checked. */
#include "bowlinette.h"
#include <stdio.h>
#include <stdlib.h>

enum { LEA = BOWLINETTE_SCHEDULE_LEA, BLOCK = BOWLINETTE_BLOCK_LENGTH, SET = BOWLINETTE_SET_LENGTH };

static uint8_t chain[BOWLINETTE_CHAIN_LENGTH_128], book[BOWLINETTE_BOOK_LENGTH_128], noise[BOWLINETTE_RANDOM_LENGTH_128];

/* Ends the program where a call was refused. */
static void done(const char *call, uint32_t refusal)
{
    if (refusal != BOWLINETTE_DONE) {
        fprintf(stderr, "%s: %s\n", call, bowlinette_text(refusal));
        exit(1);
    }
}

/* Bytes that nobody can foretell. */
static void random_bytes(uint8_t *out, size_t n)
{
    FILE *source = fopen("/dev/urandom", "rb");
    if (source == NULL || fread(out, 1, n, source) != n) {
        fprintf(stderr, "no random bytes\n");
        exit(1);
    }
    fclose(source);
}

int main(void)
{
    static const uint8_t message[] = "ink"; /* with the zero at its end */
    static const uint8_t number[BOWLINETTE_PAD_NUMBER_LENGTH] = "pad 017", remark[] = "counter 3";
    static const uint8_t kinds[] = {BOWLINETTE_INK_REMARK_FIRST};
    const uint8_t *u = chain + BOWLINETTE_CHAIN_MESSAGE_SET, *last = chain + BOWLINETTE_CHAIN_LAST_SET_128;
    uint8_t key[BOWLINETTE_KEY_LENGTH_128], iv[BLOCK], coded[BLOCK], sealed[BLOCK], opened[BLOCK], tag[BLOCK], kind;
    static uint8_t file[BOWLINETTE_INK_LENGTH_MAX];
    bowlinette_session session;
    bowlinette_ink ink;
    uint64_t n;

    /* the works, which has the key, by LEA's schedule, and makes the chain; the book's first byte states the key's length */
    random_bytes(key, sizeof key);
    random_bytes(noise, sizeof noise);
    done("make chain", bowlinette_make_chain(sizeof key, noise, sizeof noise, chain, sizeof chain, &n));
    done("build", bowlinette_build(LEA, key, sizeof key, chain, sizeof chain, book, sizeof book));

    /* the pad codes for sealing, which has the message set; the teller's PC seals, which has the book */
    random_bytes(iv, sizeof iv);
    done("code", bowlinette_code_for_sealing(u, SET, message, sizeof message, coded, sizeof coded, &n));
    done("seal", bowlinette_seal(book, sizeof book, iv, sizeof iv, coded, n, sealed, sizeof sealed, &n));

    /* the pad codes for a tag; the PC makes it in a session: this message is one block */
    done("code", bowlinette_code_for_tag(u, SET, message, sizeof message, coded, sizeof coded, &n, &kind));
    done("begin", bowlinette_begin(&session, book, sizeof book));
    done("last call", bowlinette_last_call(&session, book, sizeof book, coded, n, kind, tag));

    /* all of it, and one remark, in one file */
    done("write ink", bowlinette_write_ink(number, sizeof number, iv, BLOCK, sealed, BLOCK, tag, BLOCK, kinds, sizeof kinds, remark, sizeof remark,
                                           remark, 0, remark, 0, remark, 0, file, sizeof file, &n));

    /* the archive, which has the key, by the same schedule, and the last set */
    done("read ink", bowlinette_read_ink(file, n, (uint64_t *)&ink));
    done("open", bowlinette_open(LEA, key, sizeof key, last, SET, file + ink.iv, BLOCK, file + ink.sealed, ink.sealed_length, opened, sizeof opened, &n));
    if (!bowlinette_is_valid(LEA, key, sizeof key, last, SET, opened, n, file + ink.tag, BLOCK)) {
        fprintf(stderr, "the tag is not valid\n");
        return 1;
    }
    printf("%s\n", (const char *)opened);
    return 0;
}
