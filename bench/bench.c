/*
 * Times puligastru_digest beside the BLAKE2 of other libraries, in one process
 * and with interleaved calls, and prints the best of many rounds.
 *
 * Built with those of HAVE_OPENSSL, HAVE_LIBSODIUM and HAVE_LIBB2 that hold. Its
 * one argument multiplies the number of rounds.
 */

#include <stdint.h>
#include <stdio.h>
#include <stdlib.h>
#include <string.h>
#include <time.h>

#include "puligastru.h"
#ifdef HAVE_OPENSSL
#include <openssl/evp.h>
#endif
#ifdef HAVE_LIBSODIUM
#include <sodium.h>
#endif
#ifdef HAVE_LIBB2
#include <blake2.h>
#endif

enum { MOST_PEERS = 4, LONGEST = 16 << 20 };

struct hash {
    const char *name;
    void (*digest)(uint8_t *out, const uint8_t *input, size_t length);
};

struct family {
    const char *name;
    size_t digest_bytes;
    const struct hash *hashes; /* the first is ours */
    size_t count;
};

struct size {
    const char *name;
    size_t length;
    int calls, rounds; /* a round times `calls` calls of each hash */
};

static void stop(const char *who, const char *why)
{
    fprintf(stderr, "bench: %s: %s\n", who, why);
    exit(1);
}

static void ours_b(uint8_t *out, const uint8_t *input, size_t length)
{
    if (puligastru_digest(PULIGASTRU_BLAKE2B, 64, input, 0, input, length, out, 64) != 0)
        stop("Puligastru", "refused");
}

static void ours_s(uint8_t *out, const uint8_t *input, size_t length)
{
    if (puligastru_digest(PULIGASTRU_BLAKE2S, 32, input, 0, input, length, out, 32) != 0)
        stop("Puligastru", "refused");
}

#ifdef HAVE_OPENSSL
/* Algorithms looked up once and one context kept: the quickest way that OpenSSL offers. */
static const EVP_MD *evp_b, *evp_s;
static EVP_MD_CTX *evp_context;

static void openssl_start(void)
{
#if OPENSSL_VERSION_NUMBER >= 0x30000000L
    evp_b = EVP_MD_fetch(NULL, "BLAKE2B-512", NULL);
    evp_s = EVP_MD_fetch(NULL, "BLAKE2S-256", NULL);
#else
    evp_b = EVP_blake2b512();
    evp_s = EVP_blake2s256();
#endif
    evp_context = EVP_MD_CTX_new();
    if (evp_b == NULL || evp_s == NULL || evp_context == NULL)
        stop("OpenSSL", "has no BLAKE2 here");
}

static void openssl(const EVP_MD *md, uint8_t *out, const uint8_t *input, size_t length)
{
    if (!EVP_DigestInit_ex(evp_context, md, NULL) || !EVP_DigestUpdate(evp_context, input, length) ||
        !EVP_DigestFinal_ex(evp_context, out, NULL))
        stop("OpenSSL", "failed");
}

static void openssl_b(uint8_t *out, const uint8_t *input, size_t length)
{
    openssl(evp_b, out, input, length);
}

static void openssl_s(uint8_t *out, const uint8_t *input, size_t length)
{
    openssl(evp_s, out, input, length);
}
#endif

#ifdef HAVE_LIBSODIUM
static void sodium_b(uint8_t *out, const uint8_t *input, size_t length)
{
    if (crypto_generichash(out, 64, input, length, NULL, 0) != 0)
        stop("libsodium", "failed");
}
#endif

#ifdef HAVE_LIBB2
static void libb2_b(uint8_t *out, const uint8_t *input, size_t length)
{
    if (blake2b(out, input, NULL, 64, length, 0) != 0)
        stop("libb2", "failed");
}

static void libb2_s(uint8_t *out, const uint8_t *input, size_t length)
{
    if (blake2s(out, input, NULL, 32, length, 0) != 0)
        stop("libb2", "failed");
}
#endif

static const struct hash b_hashes[] = {
    {"Puligastru", ours_b},
#ifdef HAVE_OPENSSL
    {"OpenSSL", openssl_b},
#endif
#ifdef HAVE_LIBSODIUM
    {"libsodium", sodium_b},
#endif
#ifdef HAVE_LIBB2
    {"libb2", libb2_b},
#endif
};

static const struct hash s_hashes[] = {
    {"Puligastru", ours_s},
#ifdef HAVE_OPENSSL
    {"OpenSSL", openssl_s},
#endif
#ifdef HAVE_LIBB2
    {"libb2", libb2_s},
#endif
};

static const struct family families[] = {
    {"BLAKE2b", 64, b_hashes, sizeof b_hashes / sizeof *b_hashes},
    {"BLAKE2s", 32, s_hashes, sizeof s_hashes / sizeof *s_hashes},
};

static const struct size sizes[] = {
    {"16 MiB", LONGEST, 1, 30},
    {"256 KiB", 256 << 10, 1, 1000},
    {"64 bytes", 64, 200, 5000},
};

enum { FAMILIES = sizeof families / sizeof *families, SIZES = sizeof sizes / sizeof *sizes };

static double now(void)
{
    struct timespec t;
    clock_gettime(CLOCK_MONOTONIC, &t);
    return (double)t.tv_sec + 1e-9 * (double)t.tv_nsec;
}

/* Stops unless all of the family give the same digest. */
static void compare(const struct family *f, const uint8_t *input, size_t length)
{
    uint8_t ours[64], theirs[64];
    f->hashes[0].digest(ours, input, length);
    for (size_t i = 1; i < f->count; i++) {
        f->hashes[i].digest(theirs, input, length);
        if (memcmp(ours, theirs, f->digest_bytes) != 0)
            stop(f->hashes[i].name, "gives another digest than Puligastru");
    }
}

/* The shortest time of one call, in seconds, for each of the family. Each round begins with another one. */
static void measure(const struct family *f, const struct size *s, int rounds, const uint8_t *input, double *best)
{
    uint8_t out[64];
    for (size_t i = 0; i < f->count; i++)
        best[i] = 1e9;
    for (int round = 0; round < rounds; round++) {
        for (size_t k = 0; k < f->count; k++) {
            size_t i = ((size_t)round + k) % f->count;
            double start = now();
            for (int call = 0; call < s->calls; call++)
                f->hashes[i].digest(out, input, s->length);
            double each = (now() - start) / s->calls;
            if (each < best[i])
                best[i] = each;
        }
    }
}

static void print_head(const struct family *f)
{
    printf("\n%s, digest of %zu bytes, no key\n%-16s", f->name, f->digest_bytes, "");
    for (size_t i = 0; i < f->count; i++)
        printf(i == 0 ? "%12s" : "%12s  ratio", f->hashes[i].name);
    printf("\n");
}

static void print_row(const struct family *f, const struct size *s, const double *best)
{
    int is_short = s->length < 1024;
    printf("%-9s %-6s", s->name, is_short ? "ns" : "MB/s");
    for (size_t i = 0; i < f->count; i++) {
        printf("%12.0f", is_short ? 1e9 * best[i] : 1e-6 * (double)s->length / best[i]);
        if (i > 0)
            printf("%7.2f", best[i] / best[0]);
    }
    printf("\n");
    fflush(stdout);
}

int main(int argc, char **argv)
{
    int times = argc > 1 ? atoi(argv[1]) : 1;
    uint8_t *input = malloc(LONGEST);
    if (times < 1)
        stop("usage", "the argument is a number from 1 on");
    if (input == NULL)
        stop("malloc", "no memory");
    for (size_t i = 0; i < LONGEST; i++)
        input[i] = (uint8_t)(i ^ i >> 8 ^ i >> 16);

#ifdef HAVE_OPENSSL
    openssl_start();
    printf("%s\n", OpenSSL_version(OPENSSL_VERSION));
#endif
#ifdef HAVE_LIBSODIUM
    if (sodium_init() < 0)
        stop("libsodium", "does not start");
    printf("libsodium %s\n", sodium_version_string());
#endif

    for (int i = 0; i < FAMILIES; i++)
        for (int k = 0; k < SIZES; k++)
            compare(&families[i], input, sizes[k].length);
    for (int i = 0; i < FAMILIES; i++) {
        print_head(&families[i]);
        for (int k = 0; k < SIZES; k++) {
            double best[MOST_PEERS];
            measure(&families[i], &sizes[k], times * sizes[k].rounds, input, best);
            print_row(&families[i], &sizes[k], best);
        }
    }
    printf("\nratio: speed of Puligastru / speed of the peer; below 1 the peer is the faster one\n");
    free(input);
    return 0;
}
