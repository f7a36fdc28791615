/* A list whose keys are added up, by a function that is static. */
#include <stdio.h>

struct node {
    int key;
    struct node *next;
};

static int total(struct node *first, int more)
{
    int sum = 0;
    for (struct node *node = first; node; node = node->next)
        sum += node->key + more;
    return sum;
}

int listed(int key)
{
    struct node second = { key, 0 };
    struct node first = { key + 1, &second };
    return total(&first, 3);
}

int main(int argc, char **argv)
{
    (void)argv;
    printf("%d\n", listed(argc + 40));
    return 0;
}
