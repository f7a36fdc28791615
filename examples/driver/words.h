/* Orders words by their letters, in place. */
void sort_words(char **words, int count);

/* How many words sort_words has moved so far. */
extern int moved;
