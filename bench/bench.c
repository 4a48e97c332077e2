// Times our ciphers beside libtomcrypt's in one run, after a check that both give the same bytes.
// It prints lines of Markdown; bench/run builds and starts it.
#include <stdint.h>
#include <stdio.h>
#include <stdlib.h>
#include <string.h>
#include <time.h>
#include <tomcrypt.h>

enum { BLOCK = 16, KEY = 16, SIV_KEY = 32, TEXT = 32, MOST = 4096, REPEATS = 41 };

// One batch of calls takes about this long.
static const double BATCH_NS = 4e6;

// ---- ours: the static library of the crate `exports`. Each answers the number of bytes written, 0 where it refuses.

uint64_t zulgoad_aes128_ecb(const uint8_t *key, size_t key_len, const uint8_t *text, size_t text_len, uint8_t *out, size_t out_len);
uint64_t zulgoad_cmac(const uint8_t *key, size_t key_len, const uint8_t *data, size_t data_len, uint8_t *out, size_t out_len);
uint64_t zulgoad_siv_seal(const uint8_t *key, size_t key_len, const uint8_t *text, size_t text_len, const uint8_t *plain, size_t plain_len, uint8_t *out, size_t out_len);
uint64_t zulgoad_siv_open(const uint8_t *key, size_t key_len, const uint8_t *text, size_t text_len, const uint8_t *sealed, size_t sealed_len, uint8_t *out, size_t out_len);

// ---- theirs: the same four calls over libtomcrypt

// The descriptor that only encrypts: its key schedule leaves out the one for decryption, which no call here needs.
static int tom_cipher;

static uint64_t tom_aes128_ecb(const uint8_t *key, size_t key_len, const uint8_t *text, size_t text_len, uint8_t *out, size_t out_len)
{
    symmetric_key schedule;
    if (key_len != KEY || text_len % BLOCK != 0 || out_len < text_len) return 0;
    if (aes_enc_setup(key, KEY, 0, &schedule) != CRYPT_OK) return 0;
    for (size_t i = 0; i < text_len; i += BLOCK) aes_enc_ecb_encrypt(text + i, out + i, &schedule);
    return text_len;
}

static uint64_t tom_cmac(const uint8_t *key, size_t key_len, const uint8_t *data, size_t data_len, uint8_t *out, size_t out_len)
{
    unsigned long tag_len = BLOCK;
    if (key_len != KEY || out_len < BLOCK) return 0;
    if (omac_memory(tom_cipher, key, KEY, data, data_len, out, &tag_len) != CRYPT_OK) return 0;
    return tag_len;
}

// Ends one CMAC and makes the state ready for the next under the same key, so that the key is set up once.
static int tom_tag(omac_state *mac, uint8_t tag[BLOCK])
{
    unsigned long tag_len = BLOCK;
    int err = omac_done(mac, tag, &tag_len);
    mac->buflen = 0;
    memset(mac->prev, 0, sizeof mac->prev);
    return err;
}

static void xor_block(uint8_t a[BLOCK], const uint8_t *b)
{
    for (int i = 0; i < BLOCK; i++) a[i] ^= b[i];
}

// RFC 5297, section 2.3.
static void dbl(uint8_t a[BLOCK])
{
    uint8_t carry = a[0] >> 7;
    for (int i = 0; i < BLOCK - 1; i++) a[i] = (uint8_t)(a[i] << 1 | a[i + 1] >> 7);
    a[BLOCK - 1] = (uint8_t)(a[BLOCK - 1] << 1 ^ (carry ? 0x87 : 0));
}

// RFC 5297, section 2.4, of the two strings `text` and `plain`.
static int tom_s2v(const uint8_t *key, const uint8_t *text, size_t text_len, const uint8_t *plain, size_t plain_len, uint8_t v[BLOCK])
{
    static const uint8_t zero[BLOCK];
    omac_state mac;
    uint8_t d[BLOCK], t[BLOCK];
    int err = omac_init(&mac, tom_cipher, key, KEY);
    if (err != CRYPT_OK) return err;
    if ((err = omac_process(&mac, zero, BLOCK)) != CRYPT_OK) return err;
    if ((err = tom_tag(&mac, d)) != CRYPT_OK) return err;
    dbl(d);
    if ((err = omac_process(&mac, text, text_len)) != CRYPT_OK) return err;
    if ((err = tom_tag(&mac, t)) != CRYPT_OK) return err;
    xor_block(d, t);
    if (plain_len >= BLOCK) {
        if ((err = omac_process(&mac, plain, plain_len - BLOCK)) != CRYPT_OK) return err;
        xor_block(d, plain + plain_len - BLOCK);
    } else {
        dbl(d);
        for (size_t i = 0; i < plain_len; i++) d[i] ^= plain[i];
        d[plain_len] ^= 0x80;
    }
    if ((err = omac_process(&mac, d, BLOCK)) != CRYPT_OK) return err;
    return tom_tag(&mac, v);
}

// Counter mode from V with bits 31 and 63, counted from the right, cleared.
static int tom_mask(const uint8_t *key, const uint8_t v[BLOCK], const uint8_t *in, size_t len, uint8_t *out)
{
    symmetric_CTR ctr;
    uint8_t q[BLOCK];
    int err;
    if (len == 0) return CRYPT_OK;
    memcpy(q, v, BLOCK);
    q[8] &= 0x7f;
    q[12] &= 0x7f;
    err = ctr_start(tom_cipher, q, key, KEY, 0, CTR_COUNTER_BIG_ENDIAN, &ctr);
    if (err != CRYPT_OK) return err;
    if ((err = ctr_encrypt(in, out, len, &ctr)) != CRYPT_OK) return err;
    return ctr_done(&ctr);
}

static uint64_t tom_siv_seal(const uint8_t *key, size_t key_len, const uint8_t *text, size_t text_len, const uint8_t *plain, size_t plain_len, uint8_t *out, size_t out_len)
{
    if (key_len != SIV_KEY || out_len < BLOCK || out_len - BLOCK < plain_len) return 0;
    if (tom_s2v(key, text, text_len, plain, plain_len, out) != CRYPT_OK) return 0;
    if (tom_mask(key + KEY, out, plain, plain_len, out + BLOCK) != CRYPT_OK) return 0;
    return BLOCK + plain_len;
}

static uint64_t tom_siv_open(const uint8_t *key, size_t key_len, const uint8_t *text, size_t text_len, const uint8_t *sealed, size_t sealed_len, uint8_t *out, size_t out_len)
{
    uint8_t v[BLOCK];
    if (key_len != SIV_KEY || sealed_len < BLOCK || out_len < sealed_len - BLOCK) return 0;
    size_t plain_len = sealed_len - BLOCK;
    if (tom_mask(key + KEY, sealed, sealed + BLOCK, plain_len, out) != CRYPT_OK) return 0;
    if (tom_s2v(key, text, text_len, out, plain_len, v) != CRYPT_OK || mem_neq(v, sealed, BLOCK)) {
        zeromem(out, plain_len);
        return 0;
    }
    return plain_len;
}

// ---- the two sides

typedef uint64_t plain_call(const uint8_t *, size_t, const uint8_t *, size_t, uint8_t *, size_t);
typedef uint64_t siv_call(const uint8_t *, size_t, const uint8_t *, size_t, const uint8_t *, size_t, uint8_t *, size_t);

struct side {
    const char *name;
    plain_call *ecb, *cmac;
    siv_call *seal, *open;
};

static const struct side ours = { "ours", zulgoad_aes128_ecb, zulgoad_cmac, zulgoad_siv_seal, zulgoad_siv_open };
static const struct side theirs = { "libtomcrypt", tom_aes128_ecb, tom_cmac, tom_siv_seal, tom_siv_open };

// ---- equal bytes

static void fail(const char *side, const char *what, size_t len)
{
    printf("DIFFERENT: %s, %s, length %zu\n", side, what, len);
    exit(1);
}

static size_t unhex(const char *s, uint8_t *out)
{
    size_t n = 0;
    for (; s[0] && s[1]; s += 2) {
        unsigned byte;
        if (sscanf(s, "%2x", &byte) != 1) abort();
        out[n++] = (uint8_t)byte;
    }
    return n;
}

static void hold(const struct side *s, const char *what, const char *want, const uint8_t *got, uint64_t got_len)
{
    uint8_t bytes[128];
    size_t n = unhex(want, bytes);
    if (got_len != n || memcmp(got, bytes, n) != 0) fail(s->name, what, n);
}

// FIPS 197 C.1, RFC 4493 section 4, RFC 5297 A.1.
static void vectors(const struct side *s)
{
    static const struct { size_t len; const char *tag; } tags[] = {
        { 0, "bb1d6929e95937287fa37d129b756746" },
        { 16, "070a16b46b4d4144f79bdd9dd04a287c" },
        { 40, "dfa66747de9ae63030ca32611497c827" },
        { 64, "51f0bebf7e3b9d92fc49741779363cfe" },
    };
    uint8_t key[SIV_KEY], text[64], plain[64], out[128], back[64];
    uint64_t n;

    unhex("000102030405060708090a0b0c0d0e0f", key);
    unhex("00112233445566778899aabbccddeeff", plain);
    n = s->ecb(key, KEY, plain, BLOCK, out, BLOCK);
    hold(s, "FIPS 197 C.1", "69c4e0d86a7b0430d8cdb78070b4c55a", out, n);

    unhex("2b7e151628aed2a6abf7158809cf4f3c", key);
    unhex("6bc1bee22e409f96e93d7e117393172aae2d8a571e03ac9c9eb76fac45af8e51"
          "30c81c46a35ce411e5fbc1191a0a52eff69f2445df4f9b17ad2b417be66c3710", plain);
    for (size_t i = 0; i < sizeof tags / sizeof tags[0]; i++) {
        n = s->cmac(key, KEY, plain, tags[i].len, out, BLOCK);
        hold(s, "RFC 4493 section 4", tags[i].tag, out, n);
    }

    unhex("fffefdfcfbfaf9f8f7f6f5f4f3f2f1f0f0f1f2f3f4f5f6f7f8f9fafbfcfdfeff", key);
    size_t text_len = unhex("101112131415161718191a1b1c1d1e1f2021222324252627", text);
    size_t plain_len = unhex("112233445566778899aabbccddee", plain);
    n = s->seal(key, SIV_KEY, text, text_len, plain, plain_len, out, sizeof out);
    hold(s, "RFC 5297 A.1, sealing", "85632d07c6e8f37f950acd320a2ecc9340c02b9690c4dc04daef7f6afe5c", out, n);
    n = s->open(key, SIV_KEY, text, text_len, out, n, back, sizeof back);
    hold(s, "RFC 5297 A.1, opening", "112233445566778899aabbccddee", back, n);
}

// What is worked on; filled with fixed pseudo-random bytes.
static uint8_t key[SIV_KEY], text[TEXT], plain[MOST], sealed[MOST + BLOCK], made[MOST + BLOCK], other[MOST + BLOCK];

static void fill(uint8_t *out, size_t len)
{
    static uint32_t x = 2463534242u;
    for (size_t i = 0; i < len; i++) {
        x ^= x << 13;
        x ^= x >> 17;
        x ^= x << 5;
        out[i] = (uint8_t)(x >> 24);
    }
}

static void same(const char *what, size_t len, uint64_t want, uint64_t a, uint64_t b)
{
    if (a != want) fail(ours.name, what, len);
    if (b != want) fail(theirs.name, what, len);
    if (memcmp(made, other, sizeof made) != 0) fail("the two sides", what, len);
}

static void same_at(size_t len)
{
    uint64_t a, b;
    size_t blocks = len / BLOCK * BLOCK;
    memset(made, 0xA5, sizeof made);
    memset(other, 0xA5, sizeof other);
    a = ours.ecb(key, KEY, plain, blocks, made, sizeof made);
    b = theirs.ecb(key, KEY, plain, blocks, other, sizeof other);
    same("AES-128", blocks, blocks, a, b);
    a = ours.cmac(key, KEY, plain, len, made, sizeof made);
    b = theirs.cmac(key, KEY, plain, len, other, sizeof other);
    same("CMAC", len, BLOCK, a, b);
    a = ours.seal(key, SIV_KEY, text, TEXT, plain, len, made, sizeof made);
    b = theirs.seal(key, SIV_KEY, text, TEXT, plain, len, other, sizeof other);
    same("SIV sealing", len, BLOCK + len, a, b);
    memcpy(sealed, made, BLOCK + len);
    a = ours.open(key, SIV_KEY, text, TEXT, sealed, BLOCK + len, made, sizeof made);
    b = theirs.open(key, SIV_KEY, text, TEXT, sealed, BLOCK + len, other, sizeof other);
    same("SIV opening", len, len, a, b);
    if (memcmp(made, plain, len) != 0) fail("both sides", "SIV opening", len);
    sealed[len] ^= 1;
    if (ours.open(key, SIV_KEY, text, TEXT, sealed, BLOCK + len, made, sizeof made) != 0) fail(ours.name, "a forged text opens", len);
    if (theirs.open(key, SIV_KEY, text, TEXT, sealed, BLOCK + len, other, sizeof other) != 0) fail(theirs.name, "a forged text opens", len);
}

// ---- times

enum what { AES, CMAC, SEAL, OPEN };

struct row {
    const char *name;
    enum what what;
    size_t len;
    unsigned calls;
    double ours[REPEATS], theirs[REPEATS], ratio[REPEATS];
};

static struct row rows[] = {
    { .name = "AES-128, block by block", .what = AES, .len = 4096 },
    { .name = "CMAC", .what = CMAC, .len = 64 },
    { .name = "CMAC", .what = CMAC, .len = 4096 },
    { .name = "SIV, sealing", .what = SEAL, .len = 64 },
    { .name = "SIV, sealing", .what = SEAL, .len = 1024 },
    { .name = "SIV, sealing", .what = SEAL, .len = 4096 },
    { .name = "SIV, opening", .what = OPEN, .len = 64 },
    { .name = "SIV, opening", .what = OPEN, .len = 1024 },
    { .name = "SIV, opening", .what = OPEN, .len = 4096 },
};
enum { ROWS = sizeof rows / sizeof rows[0] };

// Processor time of this thread, in nanoseconds: what other programs take does not count.
static double now(void)
{
    struct timespec t;
    clock_gettime(CLOCK_THREAD_CPUTIME_ID, &t);
    return (double)t.tv_sec * 1e9 + (double)t.tv_nsec;
}

// The time of `calls` calls. An answer of 0 would be a refusal.
static double timed(const struct side *s, const struct row *r, unsigned calls)
{
    unsigned accepted = 0;
    double start = now();
    for (unsigned i = 0; i < calls; i++) {
        uint64_t n = 0;
        switch (r->what) {
        case AES: n = s->ecb(key, KEY, plain, r->len, made, sizeof made); break;
        case CMAC: n = s->cmac(key, KEY, plain, r->len, made, sizeof made); break;
        case SEAL: n = s->seal(key, SIV_KEY, text, TEXT, plain, r->len, made, sizeof made); break;
        case OPEN: n = s->open(key, SIV_KEY, text, TEXT, sealed, BLOCK + r->len, made, sizeof made); break;
        }
        accepted += n != 0;
    }
    double took = now() - start;
    if (accepted != calls) fail(s->name, r->name, r->len);
    return took;
}

static void prepare(const struct row *r)
{
    if (r->what == OPEN) theirs.seal(key, SIV_KEY, text, TEXT, plain, r->len, sealed, sizeof sealed);
}

// So many calls that a batch takes about BATCH_NS on their side.
static void calibrate(struct row *r)
{
    prepare(r);
    r->calls = 1;
    double took = timed(&theirs, r, r->calls);
    while (took < BATCH_NS / 4) {
        r->calls *= 2;
        took = timed(&theirs, r, r->calls);
    }
    r->calls = (unsigned)((double)r->calls * BATCH_NS / took) + 1;
}

static void repeat(struct row *r, int i)
{
    double a, b, bytes = (double)r->calls * (double)r->len;
    prepare(r);
    if (i % 2 == 0) {
        a = timed(&ours, r, r->calls);
        b = timed(&theirs, r, r->calls);
    } else {
        b = timed(&theirs, r, r->calls);
        a = timed(&ours, r, r->calls);
    }
    r->ours[i] = a / bytes;
    r->theirs[i] = b / bytes;
    r->ratio[i] = a / b;
}

static int compare(const void *a, const void *b)
{
    double x = *(const double *)a, y = *(const double *)b;
    return (x > y) - (x < y);
}

static void report(struct row *r)
{
    qsort(r->ours, REPEATS, sizeof(double), compare);
    qsort(r->theirs, REPEATS, sizeof(double), compare);
    qsort(r->ratio, REPEATS, sizeof(double), compare);
    double a = r->ours[REPEATS / 2], b = r->theirs[REPEATS / 2];
    printf("| %s | %zu | %.2f | %.2f | %.2f | %.2f to %.2f |\n", r->name, r->len, a, b, a / b, r->ratio[REPEATS / 4], r->ratio[REPEATS - 1 - REPEATS / 4]);
}

int main(void)
{
    tom_cipher = register_cipher(&aes_enc_desc);
    if (tom_cipher < 0) return 2;
    vectors(&theirs);
    vectors(&ours);
    fill(key, sizeof key);
    fill(text, sizeof text);
    fill(plain, sizeof plain);
    for (size_t len = 0; len <= 100; len++) same_at(len);
    for (size_t len = 1023; len <= 1025; len++) same_at(len);
    for (size_t len = 4095; len <= 4096; len++) same_at(len);
    printf("Equal bytes: both sides give the vectors of FIPS 197 C.1, RFC 4493 section 4 and RFC 5297 A.1,\n");
    printf("the same bytes at lengths 0 to 100, 1,023 to 1,025, 4,095 and 4,096, and open no forged text.\n\n");

    for (int k = 0; k < ROWS; k++) calibrate(&rows[k]);
    for (int i = 0; i < REPEATS; i++)
        for (int k = 0; k < ROWS; k++) repeat(&rows[k], i);
    printf("| what | bytes | ours, ns/byte | libtomcrypt, ns/byte | ours / libtomcrypt | middle half of the ratios |\n");
    printf("|---|--:|--:|--:|--:|--:|\n");
    for (int k = 0; k < ROWS; k++) report(&rows[k]);
    return 0;
}
