// The CRC-32 of standard input in plain C, read in pieces of 64 KiB: what bench/crc compares with.
// The argument `slices` goes by 16 slices, `bytes` byte by byte, and `none` only reads.
#include <stdio.h>
#include <string.h>
#include <unistd.h>
#include "slices.h"

static uint32_t none(uint32_t c, const unsigned char *p, size_t n) {
    return c ^ (n ? *p : 0);
}

int main(int argc, char **argv) {
    static unsigned char piece[65536];
    uint32_t (*add)(uint32_t, const unsigned char *, size_t) = none;
    if (argc == 2 && !strcmp(argv[1], "slices"))
        add = by_slices;
    else if (argc == 2 && !strcmp(argv[1], "bytes"))
        add = by_bytes;
    else if (argc != 2 || strcmp(argv[1], "none"))
        return 2;
    fill_table();
    uint32_t c = 0xffffffffu;
    ssize_t n;
    while ((n = read(0, piece, sizeof piece)) > 0)
        c = add(c, piece, (size_t)n);
    if (n < 0)
        return 1;
    printf("%08x\n", c ^ 0xffffffffu);
    return 0;
}
