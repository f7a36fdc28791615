/* Texts and numbers on standard output. */
#include "program.h"

/* Without bytes in the file. */
static char digits[20];

void print(const char *text) {
    number length = 0;
    while (text[length] != 0)
        length++;
    put(text, length);
}

void print_number(number n) {
    number first = sizeof digits;
    do {
        digits[--first] = '0' + n % 10;
        n /= 10;
    } while (n != 0);
    put(digits + first, sizeof digits - first);
}
