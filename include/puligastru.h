/*
 * Puligastru's functions for C, for whoever writes a bench loader.
 *
 * `rt lib`, run in crates/puligastru, proves and builds the library. A program links it by
 *
 *     cc -O2 -Iinclude loader.c crates/puligastru/out/libpuligastru.a -o loader
 *
 * The archive asks for memcpy, memmove and memset of the C library and no more.
 *
 * EVERY CALL ends and answers, whatever the numbers and bytes are. No call
 * allocates, stops the program, or keeps anything for the next call, so calls
 * may run in several threads at once.
 *
 * A BUFFER is a pointer and then its length in bytes. The library cannot test
 * a pointer. These rules are the caller's, and outside them nothing is
 * promised:
 *
 *   - A pointer is never NULL, also where its length is 0. Nothing is read or
 *     written there then, and the address of any object will do.
 *   - All bytes of the length can be read, and nobody writes them during the
 *     call. A length is at most PTRDIFF_MAX, as of any object in C.
 *   - A buffer without `const` can be written, and overlaps no other buffer
 *     of the call. Buffers with `const` may overlap one another.
 *
 * THE RESULT is 0 where the call did what it is for. Any other number from 11
 * on is a refusal. A call tests for its refusals in the order in which they
 * are listed with it, and answers the first that holds.
 */

#ifndef PULIGASTRU_H
#define PULIGASTRU_H

#include <stddef.h>
#include <stdint.h>

#ifdef __cplusplus
extern "C" {
#endif

/* Variants. Any number other than 0 is BLAKE2s. */
#define PULIGASTRU_BLAKE2B 0
#define PULIGASTRU_BLAKE2S 1

/* Refusals of puligastru_digest. */
#define PULIGASTRU_BAD_DIGEST_BYTES 11
#define PULIGASTRU_KEY_TOO_LONG 12
#define PULIGASTRU_INPUT_TOO_LONG 13
#define PULIGASTRU_BAD_OUT_LEN 14

/*
 * The BLAKE2 digest of one buffer.
 *
 *   variant       0 is BLAKE2b, any other number BLAKE2s.
 *   digest_bytes  Length of the digest: 1 to 64 (BLAKE2b), 1 to 32 (BLAKE2s).
 *                 A shorter digest is not the beginning of a longer one.
 *   key, key_len  The key: 0 to 64 bytes (BLAKE2b), 0 to 32 (BLAKE2s). With 0
 *                 bytes the digest is the one without a key.
 *   input, input_len
 *                 The bytes to digest: 0 to 2^40.
 *   out, out_len  Where the digest goes; out_len is equal to digest_bytes.
 *
 * Result: 0, and `out` holds the digest; or a refusal, and `out` is as it was.
 * key and input are never changed.
 *
 *   11  digest_bytes is not 1 to 64 (BLAKE2b) or 1 to 32 (BLAKE2s).
 *   12  key_len is above 64 (BLAKE2b) or 32 (BLAKE2s).
 *   13  input_len is above 2^40, which is 1,099,511,627,776.
 *   14  out_len is not digest_bytes.
 */
uint32_t puligastru_digest(
    uint32_t variant,
    size_t digest_bytes,
    const uint8_t *key,
    size_t key_len,
    const uint8_t *input,
    size_t input_len,
    uint8_t *out,
    size_t out_len);

#ifdef __cplusplus
}
#endif

#endif
