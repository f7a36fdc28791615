/* Prints on the first serial port what shows that all of the image is in memory as it was linked. */

typedef unsigned long u64;

extern char __executable_start[], _etext[], _edata[], _end[];

/* Volatile, so that all is read from memory. */
static const char *volatile words[] = {"read-only", "data", "and", "pointers"};
static volatile int counts[] = {3, 5, 7};
static volatile int zeros[1000];

static void put(char c)
{
    __asm__ volatile("outb %0, %1" : : "a"(c), "Nd"((unsigned short)0x3f8));
}

static void text(const char *s)
{
    while (*s)
        put(*s++);
}

static void number(u64 n)
{
    if (n > 9)
        number(n / 10);
    put('0' + n % 10);
}

static void line(const char *what, u64 n)
{
    text(what);
    number(n);
    put('\n');
}

void kernel(void)
{
    u64 efer_low, sum = 0, bytes = 0;
    __asm__ volatile("rdmsr" : "=a"(efer_low) : "c"(0xc0000080) : "rdx");
    line("long mode: ", efer_low >> 10 & 1);
    for (unsigned i = 0; i < sizeof words / sizeof *words; i++) {
        text(words[i]);
        put(i + 1 < sizeof words / sizeof *words ? ' ' : '\n');
    }
    counts[1] += 100;
    for (unsigned i = 0; i < sizeof counts / sizeof *counts; i++)
        sum += counts[i];
    line("sum: ", sum);
    for (unsigned i = 0; i < sizeof zeros / sizeof *zeros; i++)
        bytes += zeros[i];
    line("zeros: ", bytes);
    line("loaded at: ", (u64)__executable_start);
    line("in order: ", __executable_start < _etext && _etext < _edata && _edata < _end);
}
