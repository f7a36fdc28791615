// Names of each kind: strong, weak and common ones, functions and variables, one of which each thread has for itself,
// a LOCAL function, and a name of the linker's.
#include <stdio.h>

extern char _end[];

int shared[4];
long total = 12;
_Thread_local int own = 5;

__attribute__((weak)) int scale(int x)
{
    return 10 * x;
}

static __attribute__((noinline)) int twice(int x)
{
    return x + x;
}

int main(void)
{
    for (int i = 0; i < 4; i++)
        shared[i] = twice(i);
    total += scale(shared[3]) + own;
    printf("%ld\n", total);
    return _end <= (char *)&total;
}
