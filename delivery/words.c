#include "words.h"

#include <math.h>
#include <stdio.h>

const char *digits(double x, char out[NUMBER])
{
    snprintf(out, NUMBER, isnan(x) ? "nan" : "%.6g", x);
    return out;
}

const char *number(double x, char out[NUMBER])
{
    snprintf(out, NUMBER, isnan(x) ? "nan" : "%.6g (%a)", x, x);
    return out;
}
