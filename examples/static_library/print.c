#include "text.h"

static void print_plain(const char *text) {
    unsigned long length = 0;
    while (text[length] != 0)
        length++;
    put(text, length);
    if (printed)
        printed(length);
}

void print(const char *text) {
    printed_parts++;
    print_plain(prefix());
    print_plain(text);
}
