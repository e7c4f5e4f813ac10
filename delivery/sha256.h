/* SHA-256 (FIPS 180-4), for the checksums of a certificate. */
#ifndef SHA256_H
#define SHA256_H

#include <stddef.h>
#include <stdint.h>

struct sha {
    uint32_t h[8];
    uint64_t bytes;
    unsigned char part[64]; /* of the next block, as far as it has come */
};

void sha_begin(struct sha *s);
void sha_add(struct sha *s, const void *bytes, size_t n);

/* 64 hexadecimal digits and a zero */
void sha_end(struct sha *s, char out[65]);

#endif
