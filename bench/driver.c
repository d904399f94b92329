/* Holds a session with `PROGRAM pipe DIR`, phase by phase, and compares every reply. The requests and the replies of some
 * megabytes are made while the clock stands, so the driver does little but copy and compare while it runs.
 *
 * usage: driver PROGRAM DIR KEYS VALUE_BYTES PHASE[:OPERATIONS]..
 * A phase is `fill` (a put of each key in order), `overwrite`, `get` or `delete` (of shuffled keys; a delete goes on where
 * the one before ended), or `list` (a FOLD). Many requests are in flight, but where a phase's name is written in capitals:
 * there each reply is read before the next request is sent.
 * Prints a line for each: its name, the operations, the seconds, and the program's resident bytes behind it. The first
 * is `open`, from the start of the program to its first reply.
 */
#define _GNU_SOURCE
#include <ctype.h>
#include <errno.h>
#include <fcntl.h>
#include <poll.h>
#include <signal.h>
#include <sys/wait.h>
#include <unistd.h>

#include "bench.h"

enum { BATCH = 32 << 20, PIECE = 1 << 20 };

struct text {
    unsigned char *bytes;
    size_t length, room;
};

static int to, from;
static size_t keys, value_bytes;
static size_t number, seq, deletes;
static uint32_t *last_put; /* of each key: the number of its put, from 1, or 0 where it isn't there */
static struct text requests, replies;

static unsigned char *grown(struct text *text, size_t more)
{
    if (text->length + more > text->room) {
        text->room = 2 * (text->length + more);
        text->bytes = realloc(text->bytes, text->room);
        if (!text->bytes)
            fail("driver: no memory");
    }
    text->length += more;
    return text->bytes + text->length - more;
}

static void add(struct text *text, const char *line)
{
    memcpy(grown(text, strlen(line)), line, strlen(line));
}

/* Adds a word, a number and a line feed. */
static void add_line(struct text *text, const char *word, size_t count)
{
    char line[64];
    snprintf(line, sizeof line, "%s %zu\n", word, count);
    add(text, line);
}

static void add_put(size_t key)
{
    char line[64];
    snprintf(line, sizeof line, "PUT %d %zu\n", KEY_BYTES, value_bytes);
    add(&requests, line);
    write_key(grown(&requests, KEY_BYTES), key);
    write_value(grown(&requests, value_bytes), value_bytes, ++number);
    add(&requests, "\n");
    add_line(&replies, "OK", ++seq);
    last_put[key] = (uint32_t)number;
}

static void add_get(size_t key)
{
    add_line(&requests, "GET", KEY_BYTES);
    write_key(grown(&requests, KEY_BYTES), key);
    add(&requests, "\n");
    if (!last_put[key]) {
        add(&replies, "NONE\n");
        return;
    }
    add_line(&replies, "VALUE", value_bytes);
    write_value(grown(&replies, value_bytes), value_bytes, last_put[key]);
    add(&replies, "\n");
}

static void add_delete(size_t key)
{
    add_line(&requests, "DEL", KEY_BYTES);
    write_key(grown(&requests, KEY_BYTES), key);
    add(&requests, "\n");
    if (last_put[key])
        add_line(&replies, "OK", ++seq);
    else
        add(&replies, "NONE\n");
    last_put[key] = 0;
}

static void wait_for(struct pollfd *what, nfds_t count)
{
    if (poll(what, count, 600000) <= 0)
        fail("driver: the program stands still");
}

static size_t taken_now(unsigned char *into, size_t most)
{
    ssize_t count = read(from, into, most);
    if (count == 0 || (count < 0 && errno != EAGAIN))
        fail("driver: the program gives no replies");
    return count > 0 ? (size_t)count : 0;
}

/* Sends all requests, as fast as they are taken, and takes all replies. */
static void exchange(void)
{
    static unsigned char piece[PIECE];
    size_t sent = 0, got = 0;
    while (got < replies.length) {
        struct pollfd wait[2] = { { from, POLLIN, 0 }, { sent < requests.length ? to : -1, POLLOUT, 0 } };
        wait_for(wait, 2);
        if (wait[1].revents) {
            ssize_t count = write(to, requests.bytes + sent, requests.length - sent);
            if (count < 0 && errno != EAGAIN)
                fail("driver: the program takes no requests");
            sent += count > 0 ? (size_t)count : 0;
        }
        if (wait[0].revents) {
            size_t count = taken_now(piece, sizeof piece);
            if (count > replies.length - got || memcmp(piece, replies.bytes + got, count) != 0)
                fail("driver: a reply is wrong");
            got += count;
        }
    }
    requests.length = replies.length = 0;
}

static size_t key_at(const char *name, size_t i)
{
    if (strcmp(name, "fill") == 0)
        return i;
    return shuffled(strcmp(name, "delete") == 0 ? deletes++ : i, keys);
}

static void add_operation(const char *name, size_t i)
{
    size_t key = key_at(name, i);
    if (strcmp(name, "get") == 0)
        add_get(key);
    else if (strcmp(name, "delete") == 0)
        add_delete(key);
    else if (strcmp(name, "fill") == 0 || strcmp(name, "overwrite") == 0)
        add_put(key);
    else
        fail("driver: no such phase");
}

/* The seconds that so many operations took, in batches or one by one. */
static double operations(const char *name, size_t count, int one_by_one)
{
    double took = 0;
    for (size_t i = 0; i < count;) {
        do
            add_operation(name, i++);
        while (!one_by_one && i < count && requests.length + replies.length < BATCH);
        double start = seconds();
        exchange();
        took += seconds() - start;
    }
    return took;
}

/* Checks a row of a listing: a pair that is there, once. */
static void check_row(const unsigned char *row, const char *header, size_t header_bytes, unsigned char *listed)
{
    const unsigned char *digits = row + header_bytes, *value = digits + KEY_BYTES;
    size_t key = 0;
    for (int at = 0; at < KEY_BYTES; at++)
        key = 10 * key + (size_t)(digits[at] - '0');
    if (memcmp(row, header, header_bytes) != 0 || key >= keys || !last_put[key] || listed[key]++)
        fail("driver: another row in a listing");
    if (value[0] != 'a' + last_put[key] % 26 || memcmp(value, value + 1, value_bytes - 1) != 0 || value[value_bytes] != '\n')
        fail("driver: another value in a listing");
}

/* The seconds that a listing took, and how many pairs it had. */
static double listing(size_t *pairs)
{
    char header[64], end[64];
    size_t header_bytes = (size_t)snprintf(header, sizeof header, "PAIR %d %zu\n", KEY_BYTES, value_bytes);
    size_t row_bytes = header_bytes + KEY_BYTES + value_bytes + 1, held = 0;
    unsigned char *piece = taken(1, row_bytes + PIECE), *listed = taken(keys, 1);
    double start = seconds();
    if (write(to, "FOLD\n", 5) != 5)
        fail("driver: the program takes no requests");
    for (*pairs = 0;;) {
        struct pollfd wait = { from, POLLIN, 0 };
        wait_for(&wait, 1);
        held += taken_now(piece + held, PIECE);
        size_t at = 0;
        for (; held - at >= row_bytes; at += row_bytes, ++*pairs)
            check_row(piece + at, header, header_bytes, listed);
        memmove(piece, piece + at, held -= at);
        size_t end_bytes = (size_t)snprintf(end, sizeof end, "END %zu\n", *pairs);
        if (held == end_bytes && memcmp(piece, end, end_bytes) == 0)
            break;
    }
    double took = seconds() - start;
    free(piece);
    free(listed);
    return took;
}

static size_t resident(pid_t child)
{
    char path[64];
    unsigned long pages = 0;
    snprintf(path, sizeof path, "/proc/%d/statm", (int)child);
    FILE *file = fopen(path, "r");
    if (!file || fscanf(file, "%*u %lu", &pages) != 1)
        pages = 0;
    if (file)
        fclose(file);
    return pages * (size_t)sysconf(_SC_PAGESIZE);
}

static void report(const char *what, size_t count, double took, pid_t child)
{
    printf("%s %zu %.9f %zu\n", what, count, took, resident(child));
    fflush(stdout);
}

static void close_on_exec(int pipe_ends[2])
{
    if (pipe2(pipe_ends, O_CLOEXEC) != 0)
        fail("driver: no pipe");
    fcntl(pipe_ends[0], F_SETPIPE_SZ, 1 << 20);
}

static pid_t start(char **words)
{
    int in[2], out[2];
    close_on_exec(in);
    close_on_exec(out);
    pid_t child = fork();
    if (child < 0)
        fail("driver: no process");
    if (child == 0) {
        dup2(in[0], 0);
        dup2(out[1], 1);
        execl(words[0], words[0], "pipe", words[1], (char *)NULL);
        fail("driver: the program can't be started");
    }
    close(in[0]);
    close(out[1]);
    to = in[1], from = out[0];
    fcntl(to, F_SETFL, O_NONBLOCK);
    fcntl(from, F_SETFL, O_NONBLOCK);
    return child;
}

static void run_phase(char *word, pid_t child)
{
    struct phase phase = phase_of(word, keys);
    if (strcmp(phase.name, "list") == 0) {
        size_t pairs;
        double took = listing(&pairs);
        report("list", pairs, took, child);
        return;
    }
    char name[32] = "";
    int one_by_one = isupper((unsigned char)phase.name[0]);
    for (size_t i = 0; phase.name[i] && i + 1 < sizeof name; i++)
        name[i] = (char)tolower((unsigned char)phase.name[i]);
    double took = operations(name, phase.operations, one_by_one);
    report(phase.name, phase.operations, took, child);
}

int main(int argc, char **argv)
{
    if (argc < 5)
        fail("usage: driver PROGRAM DIR KEYS VALUE_BYTES PHASE[:OPERATIONS]..");
    keys = number_of(argv[3]), value_bytes = number_of(argv[4]);
    last_put = taken(keys, sizeof *last_put);

    signal(SIGPIPE, SIG_IGN);
    double begun = seconds();
    pid_t child = start(argv + 1);
    add(&requests, "SYNC\n");
    if (write(to, requests.bytes, requests.length) != (ssize_t)requests.length)
        fail("driver: the program takes no requests");
    char line[64];
    size_t got = 0;
    do {
        struct pollfd wait = { from, POLLIN, 0 };
        wait_for(&wait, 1);
        got += taken_now((unsigned char *)line + got, sizeof line - 1 - got);
        line[got] = 0;
    } while (!strchr(line, '\n'));
    double took = seconds() - begun;
    if (sscanf(line, "SYNCED %zu", &seq) != 1)
        fail("driver: the program doesn't open the directory");
    requests.length = 0;
    report("open", seq, took, child);

    for (int i = 5; i < argc; i++)
        run_phase(argv[i], child);
    close(to);
    int status;
    if (waitpid(child, &status, 0) != child || !WIFEXITED(status) || WEXITSTATUS(status) != 0)
        fail("driver: the program ended with a refusal");
    return 0;
}
