// A program on a C library: sorts words, converts numbers, allocates, prints, takes a signal, and counts in a second
// thread, with variables that each thread has for itself.
#include <errno.h>
#include <pthread.h>
#include <signal.h>
#include <stdio.h>
#include <stdlib.h>
#include <string.h>

static volatile sig_atomic_t signals;

// Of each thread: one variable with a value from the start and one without, the first by an offset in the code, the
// second by one in the table of global offsets.
static _Thread_local volatile int first __attribute__((tls_model("local-exec"))) = 40;
_Thread_local volatile int counted;

static void on_signal(int number)
{
    signals += number == SIGUSR1;
    counted++;
}

static void *count_to(void *to)
{
    for (int i = 0; i < *(int *)to; i++) {
        first++;
        counted++;
    }
    printf("second thread: %d, %d\n", first, counted);
    return 0;
}

static int by_text(const void *a, const void *b)
{
    return strcmp(*(char *const *)a, *(char *const *)b);
}

static char *copy(const char *text)
{
    char *made = malloc(strlen(text) + 1);
    if (!made)
        exit(3);
    return strcpy(made, text);
}

__attribute__((constructor)) static void before(void)
{
    puts("before main");
}

static void after(void)
{
    puts("after main");
}

int main(int count, char **words)
{
    char *sorted[16];
    int n = 0;
    long sum = 0;
    atexit(after);
    signal(SIGUSR1, on_signal);
    for (int i = 1; i < count && n < 16; i++)
        sorted[n++] = copy(words[i]);
    qsort(sorted, n, sizeof *sorted, by_text);
    for (int i = 0; i < n; i++) {
        char *end;
        errno = 0;
        long number = strtol(sorted[i], &end, 10);
        if (errno == ERANGE)
            printf("%-24s too large: %s\n", sorted[i], strerror(errno));
        else if (*end)
            printf("%-24s no number\n", sorted[i]);
        else
            printf("%-24s %8ld %#010lx %.3f\n", sorted[i], number, number, number / 7.0);
        if (!errno && !*end)
            sum += number;
        free(sorted[i]);
    }
    pthread_t second;
    int to = 5;
    if (pthread_create(&second, 0, count_to, &to) || pthread_join(second, 0))
        exit(4);
    raise(SIGUSR1);
    raise(SIGUSR1);
    printf("sum %ld, signals %d\n", sum, (int)signals);
    printf("first thread: %d, %d\n", first, counted);
    return sum == 379 ? 0 : 1;
}
