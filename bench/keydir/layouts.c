// Three layouts of a keydir in plain C, over the keys of table.c, to see what a get of each costs: an index table as that
// of indexmap, and behind it
//   heap   a column of keys whose bytes stand on the heap, and a column of versions, as the keydir has them
//   near   a column of keys that keep up to 23 bytes in place, and a column of versions
//   entry  one column of such a key with its version, 64 bytes, a cache line
// The words are how many keys there are, and the layout.
#include <emmintrin.h>
#include "keys.h"

#define INLINE static inline __attribute__((always_inline))

enum { HEAP, NEAR, ENTRY };

typedef struct { uint8_t tags[16]; uint32_t indices[12]; } Group;
typedef struct { uint8_t *bytes; size_t room, len; } HeapKey;
typedef struct { uint8_t len, bytes[23]; } NearKey;
typedef struct { NearKey key; Version version; } Entry;

typedef struct {
    Group *groups;
    uint64_t *hashes;
    HeapKey *heap;
    NearKey *near;
    Version *versions;
    Entry *entries;
    size_t groups_mask, len, room;
} Table;

// A hash as one word, and its tag, which isn't 0.
INLINE uint32_t hash(const uint8_t *key) {
    uint64_t hash = hash_of(key, 16);
    return (uint32_t)(hash ^ hash >> 32);
}

INLINE uint8_t tag(uint32_t hash) { return hash >> 24 ? (uint8_t)(hash >> 24) : 1; }

INLINE unsigned matches(const Group *g, uint8_t tag) {
    __m128i tags = _mm_loadu_si128((const __m128i *)g->tags);
    return (unsigned)_mm_movemask_epi8(_mm_cmpeq_epi8(tags, _mm_set1_epi8((char)tag))) & 0xfff;
}

INLINE int is_key(const Table *t, int layout, size_t i, const uint8_t *key) {
    if (layout == HEAP) return t->heap[i].len == 16 && memcmp(t->heap[i].bytes, key, 16) == 0;
    const NearKey *k = layout == NEAR ? &t->near[i] : &t->entries[i].key;
    return k->len == 16 && memcmp(k->bytes, key, 16) == 0;
}

// The place of a key, or SIZE_MAX. A full group has a mark for each hash that went past it.
INLINE size_t place_of(const Table *t, int layout, uint32_t hash, const uint8_t *key) {
    for (size_t at = hash & t->groups_mask;; at = (at + 1) & t->groups_mask) {
        const Group *g = &t->groups[at];
        for (unsigned m = matches(g, tag(hash)); m; m &= m - 1) {
            size_t i = g->indices[__builtin_ctz(m)];
            if (is_key(t, layout, i, key)) return i;
        }
        uint32_t past;
        memcpy(&past, g->tags + 12, 4);
        if (!(past >> (tag(hash) & 31) & 1)) return SIZE_MAX;
    }
}

INLINE Version *version_at(const Table *t, int layout, size_t i) {
    return layout == ENTRY ? &t->entries[i].version : &t->versions[i];
}

static void index_at(Table *t, uint32_t hash, size_t i) {
    for (size_t at = hash & t->groups_mask;; at = (at + 1) & t->groups_mask) {
        Group *g = &t->groups[at];
        unsigned free = matches(g, 0);
        if (free) {
            int lane = __builtin_ctz(free);
            g->tags[lane] = tag(hash);
            g->indices[lane] = (uint32_t)i;
            return;
        }
        uint32_t past;
        memcpy(&past, g->tags + 12, 4);
        past |= 1u << (tag(hash) & 31);
        memcpy(g->tags + 12, &past, 4);
    }
}

static void *resized(void *p, size_t bytes) {
    p = realloc(p, bytes);
    if (!p) exit(1);
    return p;
}

// Takes so many groups; nine entries a group on average are the most.
static void start_groups(Table *t, int layout, size_t groups) {
    free(t->groups);
    t->groups = taken(groups * sizeof(Group));
    memset(t->groups, 0, groups * sizeof(Group));
    t->groups_mask = groups - 1;
    t->room = 9 * groups;
    t->hashes = resized(t->hashes, t->room * 8);
    if (layout == HEAP) t->heap = resized(t->heap, t->room * sizeof(HeapKey));
    if (layout == NEAR) t->near = resized(t->near, t->room * sizeof(NearKey));
    if (layout != ENTRY) t->versions = resized(t->versions, t->room * sizeof(Version));
    if (layout == ENTRY) {
        Entry *entries;
        if (posix_memalign((void **)&entries, 64, t->room * sizeof(Entry))) exit(1);
        if (t->len) memcpy(entries, t->entries, t->len * sizeof(Entry));
        free(t->entries);
        t->entries = entries;
    }
    for (size_t i = 0; i < t->len; i++) index_at(t, (uint32_t)t->hashes[i], i);
}

// As a call of a keydir, it is given a key of its own: on the heap, where that is the layout.
INLINE void put(Table *t, int layout, const Key16 *given, Version version) {
    uint8_t *own = layout == HEAP ? taken(16) : NULL;
    if (own) memcpy(own, given->bytes, 16);
    const uint8_t *key = own ? own : given->bytes;
    uint32_t h = hash(key);
    size_t i = place_of(t, layout, h, key);
    if (i != SIZE_MAX) {
        *version_at(t, layout, i) = version;
        free(own);
        return;
    }
    if (t->len == t->room) start_groups(t, layout, 2 * (t->groups_mask + 1));
    i = t->len++;
    t->hashes[i] = h;
    index_at(t, h, i);
    if (layout == HEAP) t->heap[i] = (HeapKey){ own, 16, 16 };
    else {
        NearKey *k = layout == NEAR ? &t->near[i] : &t->entries[i].key;
        k->len = 16;
        memcpy(k->bytes, key, 16);
    }
    *version_at(t, layout, i) = version;
}

// With `waits`, each get waits for the answer of the one before.
INLINE uint64_t sum_of(const Table *t, int layout, const Key16 *wanted, size_t items, int waits) {
    uint64_t sum = 0, last = 0;
    for (size_t i = 0; i < items; i++) {
        const uint8_t *key = wanted[waits ? i | last >> 40 : i].bytes;
        size_t place = place_of(t, layout, hash(key), key);
        if (place == SIZE_MAX) continue;
        last = version_at(t, layout, place)->at;
        sum += last;
    }
    return sum;
}

INLINE void put_each(Table *t, int layout, const uint32_t *numbers, size_t items, uint64_t first) {
    for (size_t i = 0; i < items; i++) {
        Key16 key = key_of(numbers[i]);
        put(t, layout, &key, version_of(first + i, 0));
    }
}

INLINE void run(const char *name, int layout, const Orders *o, size_t items) {
    Table t = { 0 };
    Run run = { 0 };
    start_groups(&t, layout, 1);
    uint64_t start = now();
    put_each(&t, layout, o->counted, items, 1);
    run.put = now() - start;
    start = now();
    put_each(&t, layout, o->shuffled, items, 1 + items);
    run.overwrite = now() - start;
    start = now();
    run.sum = sum_of(&t, layout, o->wanted, items, 0);
    run.get = now() - start;
    start = now();
    run.sum += sum_of(&t, layout, o->wanted, items, 1);
    run.waiting = now() - start;
    run.keys = t.len;
    report(name, items, &run);
}

int main(int argc, char **argv) {
    size_t items = argc > 1 ? strtoul(argv[1], NULL, 10) : 1000;
    const char *layout = argc > 2 ? argv[2] : "heap";
    Orders o = orders_of(items);
    if (!strcmp(layout, "heap")) run("heap", HEAP, &o, items);
    else if (!strcmp(layout, "near")) run("near", NEAR, &o, items);
    else run("entry", ENTRY, &o, items);
    return 0;
}
