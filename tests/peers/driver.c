/*
 * Reads cases on standard input, digests each, and writes the answers to
 * standard output. Built twice: over Puligastru, and with -DPEER_LIBB2 over
 * libb2, which is fed the input in the case's pieces.
 *
 * A case: eight numbers of 8 bytes, little-endian (see struct numbers), then
 * the lengths of its pieces likewise, then the key and the input. An answer:
 * the result in 4 bytes, then the output buffer with MARGIN bytes before it
 * and after it, all of which held FILL before the call.
 */

#include <stdint.h>
#include <stdio.h>
#include <stdlib.h>
#include <string.h>
#include <sys/mman.h>

#ifdef PEER_LIBB2
#include <blake2.h>
#else
#include "puligastru.h"
#endif

enum { MARGIN = 16, FILL = 0xa5 };

struct numbers {
    uint64_t variant, digest_bytes, key_len, input_len, out_len;
    uint64_t shift;  /* the key and the input begin this far past an aligned address */
    uint64_t mapped; /* 1: the input is not sent, it is address space of that length */
    uint64_t pieces; /* how many */
};

static void stop(const char *why)
{
    fprintf(stderr, "driver: %s\n", why);
    exit(2);
}

static void receive(void *to, size_t length)
{
    if (fread(to, 1, length, stdin) != length)
        stop("the cases end too early");
}

static void *room(uint64_t length)
{
    void *p = malloc(length + 1); /* never NULL for no bytes */
    if (p == NULL)
        stop("no memory");
    return p;
}

#ifdef PEER_LIBB2

static uint32_t answer(
    const struct numbers *n, const uint64_t *pieces, const uint8_t *key, const uint8_t *input, uint8_t *out)
{
    blake2b_state b;
    blake2s_state s;
    size_t d = n->digest_bytes, k = n->key_len;
    int bad;
    if (n->variant == 0)
        bad = k == 0 ? blake2b_init(&b, d) : blake2b_init_key(&b, d, key, k);
    else
        bad = k == 0 ? blake2s_init(&s, d) : blake2s_init_key(&s, d, key, k);
    for (uint64_t i = 0; i < n->pieces; input += pieces[i++])
        bad |= n->variant == 0 ? blake2b_update(&b, input, pieces[i]) : blake2s_update(&s, input, pieces[i]);
    bad |= n->variant == 0 ? blake2b_final(&b, out, d) : blake2s_final(&s, out, d);
    return bad != 0;
}

#else

static uint32_t answer(
    const struct numbers *n, const uint64_t *pieces, const uint8_t *key, const uint8_t *input, uint8_t *out)
{
    (void)pieces;
    return puligastru_digest(
        (uint32_t)n->variant, n->digest_bytes, key, n->key_len, input, n->input_len, out, n->out_len);
}

#endif

/* Address space that reads as zeros and takes no memory. */
static uint8_t *map(size_t length)
{
    void *p = mmap(NULL, length, PROT_READ, MAP_PRIVATE | MAP_ANONYMOUS | MAP_NORESERVE, -1, 0);
    return p == MAP_FAILED ? NULL : p;
}

int main(void)
{
    struct numbers n;
    while (fread(&n, sizeof n, 1, stdin) == 1) {
        uint64_t *pieces = room(n.pieces * sizeof *pieces);
        uint8_t *key = room(n.shift + n.key_len);
        uint8_t *input = n.mapped ? map(n.input_len) : room(n.shift + n.input_len);
        size_t all = MARGIN + n.out_len + MARGIN;
        uint8_t *out = room(all);
        uint32_t result;

        receive(pieces, n.pieces * sizeof *pieces);
        receive(key + n.shift, n.key_len);
        if (!n.mapped)
            receive(input + n.shift, n.input_len);
        if (input == NULL)
            stop("no address space");
        memset(out, FILL, all);
        result = answer(&n, pieces, key + n.shift, n.mapped ? input : input + n.shift, out + MARGIN);
        fwrite(&result, sizeof result, 1, stdout);
        fwrite(out, 1, all, stdout);
        fflush(stdout); /* so that the answers end at the case that stops the program, if one does */

        if (n.mapped)
            munmap(input, n.input_len);
        else
            free(input);
        free(out);
        free(key);
        free(pieces);
    }
    return ferror(stdin) || ferror(stdout) ? 2 : 0;
}
