/* Numbers in the words of a certificate. */
#ifndef WORDS_H
#define WORDS_H

#define NUMBER 64 /* bytes of a number in words */

/* six digits */
const char *digits(double x, char out[NUMBER]);

/* a number to read, and all its bits */
const char *number(double x, char out[NUMBER]);

#endif
