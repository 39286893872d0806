/* SHA-256, from the standard's description (FIPS 180-4). */
#ifndef STORY_SHA256_H
#define STORY_SHA256_H

#include <stddef.h>
#include <stdint.h>

#define DIGEST_LEN 32

typedef struct {
    uint8_t bytes[DIGEST_LEN];
} digest;

typedef struct {
    uint32_t state[8];
    uint64_t total;     /* bytes taken so far */
    uint8_t pending[64]; /* the bytes of the block that is not yet full */
} sha256;

void sha256_start(sha256 *sum);
void sha256_add(sha256 *sum, const void *bytes, size_t count);
digest sha256_end(sha256 *sum);

digest digest_of(const void *bytes, size_t count);
int digest_equal(const digest *a, const digest *b);

/* The first eight hexadecimal digits and a closing zero: enough to tell two digests of a story apart. */
void digest_short(const digest *d, char text[9]);

#endif
