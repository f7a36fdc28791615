/* What the objects share. Hidden: each name is one of this program, so the compiler needs no GOT. */
#pragma GCC visibility push(hidden)

typedef unsigned long number;

/* An operation: how it is printed, and what it makes of two numbers. */
struct operation {
    const char *sign;
    number (*of)(number, number);
};

extern const struct operation operations[];
extern const number operation_count;
extern number operands[];
extern number total;

void put(const char *bytes, number length);
void print(const char *text);
void print_number(number n);
