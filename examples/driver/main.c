#include <stdio.h>

#include "words.h"

int main(int argc, char **argv) {
    sort_words(argv + 1, argc - 1);
    for (int i = 1; i < argc; i++) {
        printf("%s\n", argv[i]);
    }
    printf("%d moved\n", moved);
    return argc < 2;
}
