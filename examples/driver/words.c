#include "words.h"

#include <string.h>

int moved;

void sort_words(char **words, int count) {
    for (int i = 1; i < count; i++) {
        for (int j = i; j > 0 && strcmp(words[j - 1], words[j]) > 0; j--) {
            char *word = words[j];
            words[j] = words[j - 1];
            words[j - 1] = word;
            moved++;
        }
    }
}
