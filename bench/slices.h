// CRC-32 in plain C, byte by byte and by 16 slices: what the proved one is compared with.
#include <stdint.h>
#include <string.h>

static uint32_t table[16][256];

static void fill_table(void) {
    for (uint32_t byte = 0; byte < 256; byte++) {
        uint32_t c = byte;
        for (int bit = 0; bit < 8; bit++)
            c = (c >> 1) ^ ((c & 1) ? 0xEDB88320u : 0);
        table[0][byte] = c;
    }
    for (uint32_t byte = 0; byte < 256; byte++)
        for (int slice = 1; slice < 16; slice++) {
            uint32_t c = table[slice - 1][byte];
            table[slice][byte] = (c >> 8) ^ table[0][c & 0xff];
        }
}

static inline uint32_t by_bytes(uint32_t c, const unsigned char *p, size_t n) {
    while (n--)
        c = (c >> 8) ^ table[0][(c ^ *p++) & 0xff];
    return c;
}

// The usual form: four words are loaded, and each of their bytes has its slice.
static inline uint32_t by_slices(uint32_t c, const unsigned char *p, size_t n) {
    while (n >= 16) {
        uint32_t w[4];
        memcpy(w, p, 16);
        w[0] ^= c;
        c = table[15][w[0] & 0xff] ^ table[14][(w[0] >> 8) & 0xff]
          ^ table[13][(w[0] >> 16) & 0xff] ^ table[12][w[0] >> 24]
          ^ table[11][w[1] & 0xff] ^ table[10][(w[1] >> 8) & 0xff]
          ^ table[9][(w[1] >> 16) & 0xff] ^ table[8][w[1] >> 24]
          ^ table[7][w[2] & 0xff] ^ table[6][(w[2] >> 8) & 0xff]
          ^ table[5][(w[2] >> 16) & 0xff] ^ table[4][w[2] >> 24]
          ^ table[3][w[3] & 0xff] ^ table[2][(w[3] >> 8) & 0xff]
          ^ table[1][(w[3] >> 16) & 0xff] ^ table[0][w[3] >> 24];
        p += 16;
        n -= 16;
    }
    return by_bytes(c, p, n);
}
