// An open addressing table whose keys stand in their slots.
#include "keys.h"

typedef struct {
    uint8_t len, key[23];
    Version version;
} Slot;

typedef struct {
    Slot *slots;
    size_t mask, len;
} Table;

// The slot of the key, or the free one where it goes.
static Slot *slot_of(const Table *t, const uint8_t *key, uint8_t len) {
    for (size_t i = hash_of(key, len) & t->mask;; i = (i + 1) & t->mask) {
        Slot *slot = &t->slots[i];
        if (slot->len == 0 || (slot->len == len && memcmp(slot->key, key, len) == 0)) return slot;
    }
}

static inline Table sized(size_t slots) {
    Table t = { taken(slots * sizeof(Slot)), slots - 1, 0 };
    memset(t.slots, 0, slots * sizeof(Slot));
    return t;
}

// At most three quarters of the slots are in use.
static void grow(Table *t) {
    Table larger = sized(2 * (t->mask + 1));
    for (size_t i = 0; i <= t->mask; i++)
        if (t->slots[i].len != 0) *slot_of(&larger, t->slots[i].key, t->slots[i].len) = t->slots[i];
    larger.len = t->len;
    free(t->slots);
    *t = larger;
}

static inline void put(Table *t, const Key16 *key, Version version) {
    if (4 * (t->len + 1) > 3 * (t->mask + 1)) grow(t);
    Slot *slot = slot_of(t, key->bytes, 16);
    if (slot->len == 0) {
        slot->len = 16;
        memcpy(slot->key, key->bytes, 16);
        t->len++;
    }
    slot->version = version;
}
