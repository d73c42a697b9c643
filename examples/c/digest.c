/*
 * digest b|s BYTES FILE [KEYFILE]
 *
 * Prints the BLAKE2b (b) or BLAKE2s (s) digest of FILE, BYTES bytes long, as
 * "HEX  FILE". The key is all of KEYFILE, or none. Without arguments it prints
 * both digests of the text "abc".
 *
 * Exit status: 0 printed, 1 the library refused, 2 wrong usage or a file that
 * cannot be read.
 */

#include <errno.h>
#include <stdint.h>
#include <stdio.h>
#include <stdlib.h>
#include <string.h>

#include "puligastru.h"

struct bytes {
    uint8_t *at; /* never NULL, as the library asks, also for no bytes */
    size_t length;
};

static void stop(const char *what, const char *why)
{
    fprintf(stderr, "digest: %s: %s\n", what, why);
    exit(2);
}

static struct bytes read_file(const char *path)
{
    struct bytes b = {NULL, 0};
    size_t room = 0;
    FILE *f = fopen(path, "rb");
    if (f == NULL)
        stop(path, strerror(errno));
    do {
        if (b.length == room) {
            room = room == 0 ? 65536 : 2 * room;
            b.at = realloc(b.at, room);
            if (b.at == NULL)
                stop(path, "too long for this machine's memory");
        }
        b.length += fread(b.at + b.length, 1, room - b.length, f);
        if (ferror(f))
            stop(path, strerror(errno));
    } while (!feof(f));
    fclose(f);
    return b;
}

static const char *sentence(uint32_t refusal)
{
    switch (refusal) {
    case PULIGASTRU_BAD_DIGEST_BYTES:
        return "a digest has 1 to 64 bytes with b, 1 to 32 with s";
    case PULIGASTRU_KEY_TOO_LONG:
        return "a key has at most 64 bytes with b, 32 with s";
    case PULIGASTRU_INPUT_TOO_LONG:
        return "the input is longer than 2^40 bytes";
    case PULIGASTRU_BAD_OUT_LEN:
        return "the output buffer is not as long as the digest";
    default:
        return "a refusal that this program does not know";
    }
}

/* Prints the digest, or the refusal, and returns the exit status. */
static int print_digest(uint32_t variant, size_t digest_bytes, struct bytes key, struct bytes input, const char *name)
{
    uint8_t out[64];
    /* Never claim more room than there is. A longer digest is refused by 11, before out_len is looked at. */
    size_t out_len = digest_bytes < sizeof out ? digest_bytes : sizeof out;
    uint32_t refusal = puligastru_digest(
        variant, digest_bytes, key.at, key.length, input.at, input.length, out, out_len);
    if (refusal != 0) {
        fprintf(stderr, "digest: refusal %lu: %s\n", (unsigned long)refusal, sentence(refusal));
        return 1;
    }
    for (size_t i = 0; i < out_len; i++)
        printf("%02x", out[i]);
    printf("  %s\n", name);
    return 0;
}

static int print_abc(void)
{
    uint8_t text[] = {'a', 'b', 'c'};
    struct bytes input = {text, sizeof text};
    struct bytes no_key = {text, 0};
    int b = print_digest(PULIGASTRU_BLAKE2B, 64, no_key, input, "abc, BLAKE2b");
    int s = print_digest(PULIGASTRU_BLAKE2S, 32, no_key, input, "abc, BLAKE2s");
    return b != 0 ? b : s;
}

static int is_number(const char *word)
{
    return word[0] != '\0' && word[strspn(word, "0123456789")] == '\0';
}

int main(int argc, char **argv)
{
    if (argc == 1)
        return print_abc();
    if (argc < 4 || argc > 5 || (strcmp(argv[1], "b") != 0 && strcmp(argv[1], "s") != 0) || !is_number(argv[2])) {
        fprintf(stderr, "usage: digest b|s BYTES FILE [KEYFILE]\n");
        return 2;
    }

    uint32_t variant = argv[1][0] == 'b' ? PULIGASTRU_BLAKE2B : PULIGASTRU_BLAKE2S;
    size_t digest_bytes = strtoul(argv[2], NULL, 10); /* of a number too great for it, the greatest */
    struct bytes input = read_file(argv[3]);
    struct bytes key = {input.at, 0};
    if (argc == 5)
        key = read_file(argv[4]);

    int status = print_digest(variant, digest_bytes, key, input, argv[3]);
    if (argc == 5)
        free(key.at);
    free(input.at);
    return status;
}
