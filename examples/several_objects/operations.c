/* The operations: a table of pointers to texts and to functions. */
#include "program.h"

static number sum(number a, number b) { return a + b; }

static number product(number a, number b) { return a * b; }

static number greatest_divisor(number a, number b) { return b == 0 ? a : greatest_divisor(b, a % b); }

const struct operation operations[] = {
    {" + ", sum},
    {" * ", product},
    {" gcd ", greatest_divisor},
};

const number operation_count = sizeof operations / sizeof operations[0];
