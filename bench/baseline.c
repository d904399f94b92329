/* What the store costs beside bare files: the record of a put or of a delete is appended by one write(2), a new file is
 * begun where one would pass 64 MiB, after it was synced, and a get is one pread(2) of the record, with the places in an
 * array. A list is a get of each key, whose pairs go to a file by pieces of 64 KiB. No checksum, no requests, no look-up by
 * key. The last phase is `round`: a request and a reply of some bytes over two pipes to a process that does nothing else.
 *
 * usage: baseline DIR KEYS VALUE_BYTES PHASE[:OPERATIONS]..
 * The phases are those of the driver. Prints a line for each: its name, the operations and the seconds.
 */
#include <fcntl.h>
#include <sys/wait.h>
#include <unistd.h>

#include "bench.h"

enum { MOST_FILES = 4096, GATHERED = 65536 };

struct place {
    uint32_t file, at;
};

static const char *dir;
static int files[MOST_FILES], sink;
static size_t count, length;
static size_t keys, value_bytes, number, deletes;
static struct place *places;
static unsigned char *record, *gathered;
static size_t held;

static void begin_file(void)
{
    char path[4096];
    if (count > 0 && fsync(files[count - 1]) != 0)
        fail("baseline: no sync");
    if (count == MOST_FILES)
        fail("baseline: too many files");
    snprintf(path, sizeof path, "%s/%zu", dir, count);
    files[count] = open(path, O_RDWR | O_CREAT | O_EXCL | O_APPEND, 0666);
    if (files[count++] < 0)
        fail("baseline: no file");
    length = 0;
}

static struct place append(size_t size)
{
    if (count == 0 || length + size > MOST_IN_FILE)
        begin_file();
    struct place place = { (uint32_t)(count - 1), (uint32_t)length };
    if (write(files[count - 1], record, size) != (ssize_t)size)
        fail("baseline: short write");
    length += size;
    return place;
}

static void put(size_t key)
{
    write_key(record + HEADER_BYTES, key);
    write_value(record + HEADER_BYTES + KEY_BYTES, value_bytes, ++number);
    places[key] = append(HEADER_BYTES + KEY_BYTES + value_bytes);
}

static void get(size_t key)
{
    size_t size = HEADER_BYTES + KEY_BYTES + value_bytes;
    if (pread(files[places[key].file], record, size, places[key].at) != (ssize_t)size)
        fail("baseline: short read");
}

static void delete(size_t key)
{
    write_key(record + HEADER_BYTES, key);
    append(HEADER_BYTES + KEY_BYTES);
}

static void flush(void)
{
    if (write(sink, gathered, held) != (ssize_t)held)
        fail("baseline: no output");
    held = 0;
}

static void list(size_t key)
{
    get(key);
    if (held + KEY_BYTES + value_bytes > GATHERED)
        flush();
    memcpy(gathered + held, record + HEADER_BYTES, KEY_BYTES + value_bytes);
    held += KEY_BYTES + value_bytes;
}

static void answer(int from, int to)
{
    char byte;
    while (read(from, &byte, 1) == 1)
        if (write(to, &byte, 1) != 1)
            break;
    _exit(0);
}

static void rounds(size_t operations)
{
    int in[2], out[2];
    char byte = 'x';
    if (pipe(in) != 0 || pipe(out) != 0)
        fail("baseline: no pipe");
    pid_t child = fork();
    if (child == 0) {
        close(in[1]);
        answer(in[0], out[1]);
    }
    for (size_t i = 0; i < operations; i++)
        if (write(in[1], &byte, 1) != 1 || read(out[0], &byte, 1) != 1)
            fail("baseline: no answer");
    close(in[1]);
    waitpid(child, NULL, 0);
}

static void operation(const char *name, size_t i)
{
    if (strcmp(name, "fill") == 0)
        put(i);
    else if (strcmp(name, "overwrite") == 0)
        put(shuffled(i, keys));
    else if (strcmp(name, "get") == 0)
        get(shuffled(i, keys));
    else if (strcmp(name, "list") == 0)
        list(i);
    else if (strcmp(name, "delete") == 0)
        delete(shuffled(deletes++, keys));
    else
        fail("baseline: no such phase");
}

static void run_phase(char *word)
{
    struct phase phase = phase_of(word, keys);
    double start = seconds();
    if (strcmp(phase.name, "round") == 0)
        rounds(phase.operations);
    else
        for (size_t i = 0; i < phase.operations; i++)
            operation(phase.name, i);
    flush();
    printf("%s %zu %.9f\n", phase.name, phase.operations, seconds() - start);
    fflush(stdout);
}

int main(int argc, char **argv)
{
    if (argc < 4)
        fail("usage: baseline DIR KEYS VALUE_BYTES PHASE[:OPERATIONS]..");
    dir = argv[1], keys = number_of(argv[2]), value_bytes = number_of(argv[3]);
    record = taken(1, HEADER_BYTES + KEY_BYTES + value_bytes);
    gathered = taken(1, GATHERED + KEY_BYTES + value_bytes);
    places = taken(keys, sizeof *places);
    sink = open("/dev/null", O_WRONLY);
    for (int i = 4; i < argc; i++)
        run_phase(argv[i]);
    return 0;
}
