/*
 * The C library beside Crypto++, which others wrote: blocks by LEA and by WF-LEA, whole files sealed and opened, and
 * tags made by sessions and checked, for random keys and messages. All codings are identities, so that a sealed file is
 * CBC with PKCS#7 and a tag is CMAC; the masks are random, as they change nothing.
 * Prints the seed, which given as an argument repeats the run, and how many comparisons there were.
 */
#include "bowlinette.h"
#include <chrono>
#include <cryptopp/cmac.h>
#include <cryptopp/filters.h>
#include <cryptopp/lea.h>
#include <cryptopp/modes.h>
#include <cryptopp/sha.h>
#include <cstdio>
#include <cstdlib>
#include <random>
#include <string>
#include <vector>

using Bytes = std::vector<uint8_t>;

/* Of each schedule and size: how many keys have blocks compared, how many blocks of each, and how many keys have books. */
static const int KEYS = 1000, BLOCKS = 4, BOOKS = 10;

/* Messages of every length up to this go through each book. */
static const size_t SHORT = 100;

static const size_t BLOCK = BOWLINETTE_BLOCK_LENGTH;
static const size_t LONGEST = BOWLINETTE_MESSAGE_LENGTH_MAX;

static const struct size {
    size_t key, rounds, chain, book;
} sizes[] = {
    {BOWLINETTE_KEY_LENGTH_128, BOWLINETTE_ROUNDS_128, BOWLINETTE_CHAIN_LENGTH_128, BOWLINETTE_BOOK_LENGTH_128},
    {BOWLINETTE_KEY_LENGTH_192, BOWLINETTE_ROUNDS_192, BOWLINETTE_CHAIN_LENGTH_192, BOWLINETTE_BOOK_LENGTH_192},
    {BOWLINETTE_KEY_LENGTH_256, BOWLINETTE_ROUNDS_256, BOWLINETTE_CHAIN_LENGTH_256, BOWLINETTE_BOOK_LENGTH_256},
};

static std::mt19937_64 random_number;

/* How many comparisons of each kind there were. */
static struct {
    unsigned long enciphered, deciphered, sealed, opened, tags, valid, invalid;
} counts;

/* Counts a comparison; one that fails ends the run. */
static void compare(bool same, unsigned long &count, const char *what, size_t key, size_t message)
{
    if (!same) {
        printf("peer: differs: %s, key of %zu bytes, message of %zu\n", what, key, message);
        exit(1);
    }
    count++;
}

/* A call that must not be refused. */
static void done(uint32_t number, const char *what)
{
    if (number != BOWLINETTE_DONE) {
        printf("peer: %s was refused: %u\n", what, (unsigned)number);
        exit(1);
    }
}

static size_t below(size_t bound)
{
    return random_number() % bound;
}

static Bytes random_bytes(size_t n)
{
    Bytes bytes(n);
    for (auto &byte : bytes)
        byte = (uint8_t)random_number();
    return bytes;
}

/* One way of LEA of Crypto++ with other round keys: a row for each round, of the digest of the key and the row's number. */
template <class Way> class one_way : public Way {
    void UncheckedSetKey(const uint8_t *key, unsigned length, const CryptoPP::NameValuePairs &parameters) override
    {
        Way::UncheckedSetKey(key, length, parameters);
        for (unsigned l = 0; l < this->m_rounds; l++) {
            const uint8_t number = (uint8_t)(l + 1);
            uint8_t digest[CryptoPP::SHA256::DIGESTSIZE];
            CryptoPP::SHA256 hash;
            hash.Update(key, length);
            hash.Update(&number, 1);
            hash.Final(digest);
            for (unsigned m = 0; m < 6; m++)
                this->m_rkey[6 * l + m] = CryptoPP::GetWord<uint32_t>(false, CryptoPP::LITTLE_ENDIAN_ORDER, digest + 4 * m);
        }
    }
};

/* The two ciphers of Crypto++, and the numbers of their schedules. */
struct lea : CryptoPP::LEA {
    static const uint8_t schedule = BOWLINETTE_SCHEDULE_LEA;
};

struct wf_lea : CryptoPP::LEA_Info, CryptoPP::BlockCipherDocumentation {
    typedef CryptoPP::BlockCipherFinal<CryptoPP::ENCRYPTION, one_way<CryptoPP::LEA::Enc>> Encryption;
    typedef CryptoPP::BlockCipherFinal<CryptoPP::DECRYPTION, one_way<CryptoPP::LEA::Dec>> Decryption;
    static const uint8_t schedule = BOWLINETTE_SCHEDULE_WF_LEA;
};

/* Blocks of a key, there and back. */
template <class Cipher> static void blocks(const size &size)
{
    for (int k = 0; k < KEYS; k++) {
        const Bytes key = random_bytes(size.key);
        typename Cipher::Encryption there(key.data(), key.size());
        typename Cipher::Decryption back(key.data(), key.size());
        for (int n = 0; n < BLOCKS; n++) {
            const Bytes block = random_bytes(BLOCK);
            Bytes ours(BLOCK), theirs(BLOCK);
            done(bowlinette_encipher(Cipher::schedule, key.data(), key.size(), block.data(), BLOCK, ours.data()), "encipher");
            there.ProcessBlock(block.data(), theirs.data());
            compare(ours == theirs, counts.enciphered, "encipher", size.key, BLOCK);
            done(bowlinette_decipher(Cipher::schedule, key.data(), key.size(), block.data(), BLOCK, ours.data()), "decipher");
            back.ProcessBlock(block.data(), theirs.data());
            compare(ours == theirs, counts.deciphered, "decipher", size.key, BLOCK);
        }
    }
}

/* So many identity codings. */
static Bytes identities(size_t count)
{
    Bytes codings(BOWLINETTE_CODING_LENGTH * count);
    for (size_t i = 0; i < codings.size(); i++)
        codings[i] = (uint8_t)(i % BOWLINETTE_CODING_LENGTH);
    return codings;
}

/* A chain of identities, its masks random. */
static Bytes chain(const size &size)
{
    Bytes chain = identities(32 * (size.rounds + 2));
    const Bytes middles = identities(24);
    for (size_t l = 0; l < size.rounds; l++) {
        chain.insert(chain.end(), middles.begin(), middles.end());
        for (size_t place = 0; place < 24; place++)
            chain.push_back((uint8_t)below(2));
    }
    return chain;
}

/* A schedule and a key, their book and its set. */
struct product {
    uint8_t schedule;
    Bytes key, book, set;

    product(uint8_t number, const size &size) : schedule(number), key(random_bytes(size.key)), book(size.book), set(identities(32))
    {
        const Bytes codings = chain(size);
        done(bowlinette_build(schedule, key.data(), key.size(), codings.data(), codings.size(), book.data(), book.size()), "build");
    }

    Bytes sealed(const Bytes &iv, const Bytes &message) const
    {
        Bytes coded(message.size() + BLOCK), out(message.size() + BLOCK);
        uint64_t length;
        done(bowlinette_code_for_sealing(set.data(), set.size(), message.data(), message.size(), coded.data(), coded.size(),
                                         &length), "code_for_sealing");
        done(bowlinette_seal(book.data(), book.size(), iv.data(), BLOCK, coded.data(), length, out.data(), out.size(),
                             &length), "seal");
        out.resize(length);
        return out;
    }

    Bytes opened(const Bytes &iv, const Bytes &file) const
    {
        Bytes out(file.size());
        uint64_t length;
        done(bowlinette_open(schedule, key.data(), key.size(), set.data(), set.size(), iv.data(), BLOCK, file.data(),
                             file.size(), out.data(), out.size(), &length), "open");
        out.resize(length);
        return out;
    }

    Bytes tag(const Bytes &message) const
    {
        Bytes coded(message.size() + BLOCK), tag(BLOCK);
        uint64_t length;
        uint8_t kind;
        bowlinette_session session;
        done(bowlinette_code_for_tag(set.data(), set.size(), message.data(), message.size(), coded.data(), coded.size(),
                                     &length, &kind), "code_for_tag");
        done(bowlinette_begin(&session, book.data(), book.size()), "begin");
        for (size_t at = 0; at + BLOCK < length; at += BLOCK)
            done(bowlinette_block_call(&session, book.data(), book.size(), &coded[at], BLOCK), "block_call");
        done(bowlinette_last_call(&session, book.data(), book.size(), &coded[length - BLOCK], BLOCK, kind, tag.data()),
             "last_call");
        return tag;
    }

    bool valid(const Bytes &message, const Bytes &tag) const
    {
        uint8_t valid;
        done(bowlinette_check(schedule, key.data(), key.size(), set.data(), set.size(), message.data(), message.size(),
                              tag.data(), BLOCK, &valid), "check");
        return valid == BOWLINETTE_VALID;
    }
};

/* CBC with PKCS#7 of Crypto++. */
template <class Cipher> static Bytes their_file(const Bytes &key, const Bytes &iv, const Bytes &message)
{
    typename CryptoPP::CBC_Mode<Cipher>::Encryption cbc(key.data(), key.size(), iv.data());
    Bytes file;
    CryptoPP::VectorSource(message, true,
        new CryptoPP::StreamTransformationFilter(cbc, new CryptoPP::VectorSink(file),
                                                 CryptoPP::StreamTransformationFilter::PKCS_PADDING));
    return file;
}

/* CMAC of Crypto++. */
template <class Cipher> static Bytes their_tag(const Bytes &key, const Bytes &message)
{
    CryptoPP::CMAC<Cipher> cmac(key.data(), key.size());
    Bytes tag(BLOCK);
    cmac.CalculateDigest(tag.data(), message.data(), message.size());
    return tag;
}

/* A message sealed and tagged on both sides, and what the others made opened and checked. */
template <class Cipher> static void whole(const product &ours, const Bytes &message)
{
    const size_t k = ours.key.size(), n = message.size();
    const Bytes iv = random_bytes(BLOCK);
    const Bytes file = their_file<Cipher>(ours.key, iv, message);
    compare(ours.sealed(iv, message) == file, counts.sealed, "sealing", k, n);
    compare(ours.opened(iv, file) == message, counts.opened, "opening", k, n);
    Bytes tag = their_tag<Cipher>(ours.key, message);
    compare(ours.tag(message) == tag, counts.tags, "the tag", k, n);
    compare(ours.valid(message, tag), counts.valid, "checking the tag", k, n);
    tag[below(BLOCK)] ^= (uint8_t)(1 << below(8));
    compare(!ours.valid(message, tag), counts.invalid, "checking another tag", k, n);
}

/* For each book short messages and one of some thousand bytes; for one book the longest. */
template <class Cipher> static void messages(const size &size)
{
    for (int b = 0; b < BOOKS; b++) {
        const product ours(Cipher::schedule, size);
        for (size_t n = 0; n <= SHORT; n++)
            whole<Cipher>(ours, random_bytes(n));
        whole<Cipher>(ours, random_bytes(below(20001)));
        if (b == 0)
            whole<Cipher>(ours, random_bytes(LONGEST));
    }
}

int main(int argc, char **argv)
{
    const uint64_t clock = (uint64_t)std::chrono::system_clock::now().time_since_epoch().count();
    const uint64_t seed = argc > 1 ? std::stoull(argv[1]) : clock;
    printf("peer: seed %llu\n", (unsigned long long)seed);
    random_number.seed(seed);
    for (const size &size : sizes) {
        blocks<lea>(size);
        messages<lea>(size);
        blocks<wf_lea>(size);
        messages<wf_lea>(size);
    }
    printf("peer: %lu blocks enciphered and %lu deciphered, %lu files sealed and %lu opened, %lu tags made, %lu found Valid"
           " and %lu Invalid: all as Crypto++ has them\n",
           counts.enciphered, counts.deciphered, counts.sealed, counts.opened, counts.tags, counts.valid, counts.invalid);
    return 0;
}
