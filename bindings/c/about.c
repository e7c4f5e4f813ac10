/*
 * What the library says of itself: its version, and the words of its answers, which stand once, in gullyfork.h. The one part of the
 * library that is not Rattle and not proved: a text is no number that a contract could speak of.
 */
#include "gullyfork.h"

const char *gf_version(void)
{
    return GF_VERSION;
}

#define GF_WORDS(name, number, words) case name: return words;

const char *gf_words(uint8_t answer)
{
    switch (answer) {
        GF_ANSWERS(GF_WORDS)
    }
    return "not an answer of this library";
}
