#include "text.h"

/* Without bytes in the file. */
static char digits[20];

void print_number(unsigned long n) {
    unsigned long first = sizeof digits;
    printed_parts++;
    do {
        digits[--first] = '0' + n % 10;
        n /= 10;
    } while (n != 0);
    put(digits + first, sizeof digits - first);
}
