/* What the baseline and the driver share: the load, the clock and the line that is printed. */
#include <stdint.h>
#include <stdio.h>
#include <stdlib.h>
#include <string.h>
#include <time.h>

enum { KEY_BYTES = 16, HEADER_BYTES = 22, MOST_IN_FILE = 67108864 };

static void fail(const char *why)
{
    fprintf(stderr, "%s\n", why);
    exit(1);
}

static size_t number_of(const char *word)
{
    char *end;
    unsigned long long number = strtoull(word, &end, 10);
    if (*word == 0 || *end != 0 || number == 0)
        fail("a number of at least 1 is wanted");
    return number;
}

static void *taken(size_t count, size_t size)
{
    void *it = calloc(count, size);
    if (!it)
        fail("no memory");
    return it;
}

static double seconds(void)
{
    struct timespec now;
    clock_gettime(CLOCK_MONOTONIC, &now);
    return (double)now.tv_sec + (double)now.tv_nsec * 1e-9;
}

/* The key numbered i: 16 digits. */
static void write_key(unsigned char *to, size_t i)
{
    for (int at = KEY_BYTES - 1; at >= 0; at--, i /= 10)
        to[at] = (unsigned char)('0' + i % 10);
}

/* The value of the put numbered i. */
static void write_value(unsigned char *to, size_t bytes, size_t i)
{
    memset(to, (int)('a' + i % 26), bytes);
}

/* Which key the operation numbered i is of, where they are shuffled: each once, far apart. */
static size_t shuffled(size_t i, size_t keys)
{
    return (size_t)(i % keys * UINT64_C(2654435761) % keys);
}

/* A phase of a run: `fill`, `overwrite`, `get`, `delete` or `list`, and of how many keys. */
struct phase {
    const char *name;
    size_t operations;
};

static struct phase phase_of(char *word, size_t keys)
{
    char *colon = strchr(word, ':');
    if (!colon)
        return (struct phase){ word, keys };
    *colon = 0;
    return (struct phase){ word, number_of(colon + 1) };
}
