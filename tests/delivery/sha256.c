/*
 * SHA-256 of delivery/sha256.c: the examples of the standard (FIPS 180-4) and of NIST's page of further ones, each given at once and in
 * pieces of every awkward length, the last longer than 2^32 bits. Prints how many hold; status 0 only if all do.
 */
#include "sha256.h"

#include <stdio.h>
#include <stdlib.h>
#include <string.h>

static const struct {
    const char *text; /* the message is `times` of it; NULL: zero bytes */
    size_t times;
    const char *sum;
} examples[] = {
    {"abc", 1, "ba7816bf8f01cfea414140de5dae2223b00361a396177a9cb410ff61f20015ad"},
    {"abcdbcdecdefdefgefghfghighijhijkijkljklmklmnlmnomnopnopq", 1, "248d6a61d20638b8e5c026930c3e6039a33ce45964ff2167f6ecedd419db06c1"},
    {"abcdefghbcdefghicdefghijdefghijkefghijklfghijklmghijklmnhijklmnoijklmnopjklmnopqklmnopqrlmnopqrsmnopqrstnopqrstu", 1,
     "cf5b16a778af8380036ce59e7b0492370b249b11e8f07a51afac45037afee9d1"},
    {"a", 1000000, "cdc76e5c9914fb9281a1c7e284d73e67f1809a48a497200e046d39ccc7112cd0"},
    {"", 1, "e3b0c44298fc1c149afbf4c8996fb92427ae41e4649b934ca495991b7852b855"},
    {"\xbd", 1, "68325720aabd7c82f30f554b313d0570c95accbb7dc4b5aae11204c08ffe732b"},
    {"\xc9\x8c\x8e\x55", 1, "7abc22c0ae5af26ce93dbb94433a0e0b2e119d014f8e7f65bd56c61ccccd9504"},
    {NULL, 55, "02779466cdec163811d078815c633f21901413081449002f24aa3e80f0b88ef7"},
    {NULL, 56, "d4817aa5497628e7c77e6b606107042bbba3130888c5f47a375e6179be789fbb"},
    {NULL, 57, "65a16cb7861335d5ace3c60718b5052e44660726da4cd13bb745381b235a1785"},
    {NULL, 64, "f5a5fd42d16a20302798ef6ed309979b43003d2320d9f0e8ea9831a92759fb4b"},
    {NULL, 1000, "541b3e9daa09b20bf85fa273e5cbd3e80185aa4ec298e765db87742b70138a53"},
    {"A", 1000, "c2e686823489ced2017f6059b8b239318b6364f6dcd835d0a519105a1eadd6e4"},
    {"U", 1005, "f4d62ddec0f3dd90ea1380fa16a5ff8dc4c54b21740650f24afc4120903552b0"},
    {NULL, 1000000, "d29751f2649b32ff572b5e0a9f541ea660a50f94ff0beedfb0b692b924cc8025"},
    {"Z", 536870912, "15a1868c12cc53951e182344277447cd0979536badcc512ad24c67e9b2d4f3dd"},
};

#define LONG (1u << 20u) /* of a longer message, whose bytes are all the same, so many are kept */

static int holds(const unsigned char *message, size_t n, size_t piece, const char *sum)
{
    char found[65];
    struct sha s;
    sha_begin(&s);
    for (size_t k = 0; k < n; k += piece)
        sha_add(&s, message + (n > LONG ? 0 : k), n - k < piece ? n - k : piece);
    sha_end(&s, found);
    if (strcmp(found, sum) != 0)
        printf("%zu bytes in pieces of %zu: %s, not %s\n", n, piece, found, sum);
    return strcmp(found, sum) == 0;
}

int main(void)
{
    static const size_t pieces[] = {1, 55, 63, 64, 65, 127, 4096};
    size_t good = 0, all = 0;
    for (size_t e = 0; e < sizeof examples / sizeof *examples; e++) {
        size_t length = examples[e].text ? strlen(examples[e].text) : 1, n = length * examples[e].times;
        size_t kept = n > LONG ? LONG : n;
        unsigned char *message = calloc(kept + 1, 1);
        if (!message)
            return 2;
        for (size_t k = 0; examples[e].text && k < kept; k += length)
            memcpy(message + k, examples[e].text, length);
        all++, good += (size_t)holds(message, n, n > LONG ? LONG : n + 1, examples[e].sum);
        for (size_t p = 0; n <= LONG && p < sizeof pieces / sizeof *pieces; p++)
            all++, good += (size_t)holds(message, n, pieces[p], examples[e].sum);
        free(message);
    }
    printf("SHA-256: %zu of %zu hold\n", good, all);
    return good == all ? 0 : 1;
}
