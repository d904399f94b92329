// What crates/bench_keydir does, over an open addressing table in plain C whose keys stand in their slots. The words are
// how many keys there are, and `hold`: then the keys are only put, and kept until standard input ends.
#include "slots.h"

// Frees a slot, and moves those behind it that are no longer found past a free one.
static void drop_at(Table *t, size_t hole) {
    for (size_t i = (hole + 1) & t->mask; t->slots[i].len != 0; i = (i + 1) & t->mask) {
        size_t home = hash_of(t->slots[i].key, t->slots[i].len) & t->mask;
        if (((i - home) & t->mask) >= ((i - hole) & t->mask)) {
            t->slots[hole] = t->slots[i];
            hole = i;
        }
    }
    t->slots[hole].len = 0;
    t->len--;
}

// Visits each slot; where one was freed, another may stand there now.
static size_t swept(Table *t) {
    size_t dropped = 0;
    for (size_t i = 0; i <= t->mask;) {
        if (t->slots[i].len != 0 && t->slots[i].version.gone) {
            drop_at(t, i);
            dropped++;
        } else i++;
    }
    return dropped;
}

static void put_each(Table *t, const uint32_t *numbers, size_t count, uint64_t first, int gone) {
    for (size_t i = 0; i < count; i++) {
        Key16 key = key_of(numbers[i]);
        put(t, &key, version_of(first + i, gone));
    }
}

// With `waits`, each get waits for the answer of the one before.
static inline uint64_t sum_of(const Table *t, const Key16 *wanted, size_t items, int waits) {
    uint64_t sum = 0, last = 0;
    for (size_t i = 0; i < items; i++) {
        const Slot *slot = slot_of(t, wanted[waits ? i | last >> 40 : i].bytes, 16);
        if (slot->len == 0) continue;
        last = slot->version.at;
        sum += last;
    }
    return sum;
}

static Run run(Table *t, const Orders *o, size_t items) {
    Run run = { 0 };
    uint64_t start = now();
    put_each(t, o->counted, items, 1, 0);
    run.put = now() - start;
    start = now();
    put_each(t, o->shuffled, items, 1 + items, 0);
    run.overwrite = now() - start;
    start = now();
    run.sum = sum_of(t, o->wanted, items, 0);
    run.get = now() - start;
    start = now();
    run.sum += sum_of(t, o->wanted, items, 1);
    run.waiting = now() - start;
    put_each(t, o->shuffled, items / 10, 1 + 2 * items, 1);
    start = now();
    run.dropped = swept(t);
    run.sweep = now() - start;
    run.keys = t->len;
    return run;
}

int main(int argc, char **argv) {
    size_t items = argc > 1 ? strtoul(argv[1], NULL, 10) : 1000;
    Table t = sized(16);
    if (argc > 2) {
        for (size_t i = 0; i < items; i++) {
            Key16 key = key_of((uint32_t)i);
            put(&t, &key, version_of(i + 1, 0));
        }
        return held(t.len);
    }
    Orders o = orders_of(items);
    Run came = run(&t, &o, items);
    report("c", items, &came);
    return 0;
}
