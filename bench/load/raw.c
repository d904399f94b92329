// Makes a directory of data files with their hints, and loads it into an open addressing table: from the hints, as they
// are read whole and checked, or from the records, each of which is read and checked. Each data file is synced before.
// usage: raw make DIR KEYS VALUE_BYTES, raw hints DIR, raw scan DIR; a last word `hold` keeps what was loaded until
// standard input ends.
#include <fcntl.h>
#include <sys/stat.h>
#include <unistd.h>
#include "../keydir/slots.h"
#include "../slices.h"

enum { HEADER = 22, HINT_HEADER = 30, KEY = 16, MOST_IN_FILE = 67108864, PIECE = 1 << 20 };

static const char *dir;
static Table keys;
static uint64_t last, sum;

static uint64_t number_at(const unsigned char *from, int bytes) {
    uint64_t number = 0;
    while (bytes--) number = number << 8 | *from++;
    return number;
}

static unsigned char *add_number(unsigned char *to, uint64_t number, int bytes) {
    for (int i = bytes; i--; number >>= 8) to[i] = (unsigned char)number;
    return to + bytes;
}

static int opened(uint32_t id, const char *kind, int flags) {
    char path[4096];
    snprintf(path, sizeof path, "%s/%u.bitcask.%s", dir, id, kind);
    return open(path, flags, 0666);
}

static void write_whole(uint32_t id, const char *kind, const unsigned char *bytes, size_t len) {
    int file = opened(id, kind, O_WRONLY | O_CREAT | O_EXCL);
    if (file < 0) exit(1);
    for (size_t at = 0; at < len;) {
        ssize_t some = write(file, bytes + at, len - at);
        if (some <= 0) exit(1);
        at += (size_t)some;
    }
    if (fsync(file) || close(file)) exit(1);
}

static size_t add_record(unsigned char *to, const Key16 *key, uint64_t seq, size_t value) {
    unsigned char *end = add_number(to + 4, 5, 4);
    end = add_number(add_number(add_number(end, KEY, 2), value, 4), seq, 8);
    memcpy(end, key->bytes, KEY);
    memset(end + KEY, 7, value);
    size_t size = HEADER + KEY + value;
    add_number(to, ~by_slices(0xffffffffu, to + 4, size - 4), 4);
    return size;
}

static size_t add_row(unsigned char *to, const unsigned char *record, uint64_t at) {
    memcpy(to, record + 4, 10);
    add_number(to + 10, at, 8);
    memcpy(to + 18, record + 14, 8);
    memcpy(to + 26, record, 4);
    memcpy(to + HINT_HEADER, record + HEADER, KEY);
    return HINT_HEADER + KEY;
}

static void add_mark(unsigned char *hint, size_t len, uint64_t covered, uint64_t rows) {
    unsigned char *end = add_number(hint + len, 0, 10);
    end = add_number(add_number(end, covered, 8), rows, 8);
    add_number(end, (uint32_t)~by_slices(0xffffffffu, hint, len), 4);
}

static int make(size_t items, size_t value) {
    size_t size = HEADER + KEY + value, fits = MOST_IN_FILE / size;
    unsigned char *data = taken(MOST_IN_FILE), *hint = taken((fits + 1) * (HINT_HEADER + KEY));
    Orders orders = orders_of(items);
    uint32_t id = 1;
    for (size_t i = 0; i < items; id++) {
        size_t len = 0, rows = 0, hinted = 0;
        for (; i < items && rows < fits; i++, rows++) {
            Key16 key = key_of(orders.shuffled[i]);
            add_record(data + len, &key, i + 1, value);
            hinted += add_row(hint + hinted, data + len, len);
            len += size;
        }
        add_mark(hint, hinted, len, rows);
        write_whole(id, "data", data, len);
        write_whole(id, "hint", hint, hinted + HINT_HEADER);
    }
    return 0;
}

// Takes in a record or a row: of each key the one with the greatest number stays.
static void learn(const unsigned char *key, size_t len, Version version) {
    Key16 held;
    if (len != KEY) exit(1);
    memcpy(held.bytes, key, KEY);
    const Slot *slot = slot_of(&keys, key, KEY);
    if (slot->len == 0 || slot->version.seq < version.seq) put(&keys, &held, version);
    if (last < version.seq) last = version.seq;
    sum += version.at;
}

static unsigned char *read_whole(int file, size_t len) {
    unsigned char *bytes = taken(len);
    for (size_t at = 0; at < len;) {
        ssize_t some = read(file, bytes + at, len - at);
        if (some <= 0) exit(1);
        at += (size_t)some;
    }
    return bytes;
}

static size_t length_of(int file) {
    struct stat is;
    if (fstat(file, &is)) exit(1);
    return (size_t)is.st_size;
}

static void load_hint(uint32_t id, int file) {
    size_t len = length_of(file), end = len - HINT_HEADER;
    unsigned char *bytes = read_whole(file, len);
    if (number_at(bytes + end + 26, 4) != (uint32_t)~by_slices(0xffffffffu, bytes, end)) exit(1);
    for (size_t at = 0; at < end;) {
        const unsigned char *row = bytes + at;
        size_t key = number_at(row + 4, 2), value = number_at(row + 6, 4);
        Version version = { number_at(row + 18, 8), number_at(row + 10, 8), (uint32_t)number_at(row, 4), id,
            (uint32_t)(HEADER + key + value), (uint32_t)number_at(row + 26, 4), 0 };
        learn(row + HINT_HEADER, key, version);
        at += HINT_HEADER + key;
    }
    free(bytes);
}

static void load_records(uint32_t id, int file) {
    size_t len = length_of(file), held = 0;
    unsigned char *piece = taken(2 * PIECE);
    for (uint64_t at = 0; at < len;) {
        ssize_t some = read(file, piece + held, PIECE);
        if (some <= 0) exit(1);
        held += (size_t)some;
        size_t from = 0;
        for (;;) {
            const unsigned char *record = piece + from;
            if (held - from < HEADER) break;
            size_t key = number_at(record + 8, 2), value = number_at(record + 10, 4), size = HEADER + key + value;
            if (held - from < size) break;
            if (number_at(record, 4) != (uint32_t)~by_slices(0xffffffffu, record + 4, size - 4)) exit(1);
            Version version = { number_at(record + 14, 8), at, (uint32_t)number_at(record + 4, 4), id, (uint32_t)size,
                (uint32_t)number_at(record, 4), 0 };
            learn(record + HEADER, key, version);
            from += size, at += size;
        }
        memmove(piece, piece + from, held - from);
        held -= from;
    }
    free(piece);
}

static int load(int by_hints, int holds) {
    uint64_t start = now();
    keys = sized(16);
    for (uint32_t id = 1;; id++) {
        int file = opened(id, "data", O_RDWR);
        if (file < 0) break;
        if (fsync(file)) exit(1);
        if (by_hints) {
            int hint = opened(id, "hint", O_RDONLY);
            if (hint < 0) exit(1);
            load_hint(id, hint);
            close(hint);
        } else load_records(id, file);
        close(file);
    }
    uint64_t all = now() - start;
    if (holds) return held(keys.len);
    printf("%zu keys, last seq %llu\n", keys.len, (unsigned long long)last);
    fprintf(stderr, "%llu\n", (unsigned long long)(keys.len ? all / keys.len : 0));
    return 0;
}

int main(int argc, char **argv) {
    if (argc < 3) return 2;
    dir = argv[2];
    fill_table();
    if (strcmp(argv[1], "make") == 0 && argc == 5) return make(strtoul(argv[3], NULL, 10), strtoul(argv[4], NULL, 10));
    return load(strcmp(argv[1], "hints") == 0, argc > 3);
}
