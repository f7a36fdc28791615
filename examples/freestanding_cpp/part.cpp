#include "part.h"

int made;

static long length(const char *text)
{
    long n = 0;
    while (text[n])
        n++;
    return n;
}

Part::Part(const char *text) : name(text), number(++made)
{
    tell();
}

void Part::tell() const
{
    char digit = '0' + number;
    write_to(1, &digit, 1);
    write_to(1, " ", 1);
    write_to(1, name, length(name));
    write_to(1, "\n", 1);
}
