/* Prints what each operation makes of 6 and 7, and answers the sum of all. */
#include "program.h"

number total = 0;

/* With bytes in the file, and writable. */
number operands[] = {6, 7};

int run(void) {
    for (number i = 0; i < operation_count; i++) {
        number result = operations[i].of(operands[0], operands[1]);
        print_number(operands[0]);
        print(operations[i].sign);
        print_number(operands[1]);
        print(" = ");
        print_number(result);
        print("\n");
        total += result;
    }
    return (int)total;
}
