/*
 * Prints names that collide in a table which hashes them with no key.
 *
 *     names COUNT BITS
 *
 * A name is eight lowercase hexadecimal digits. Its hash is SipHash-1-3 with both keys 0 over its
 * bytes alone, folded to 32 bits as the tables of the program fold it. The first COUNT names whose
 * hash ends in BITS zero bits are printed in ascending order, one a line. With BITS 0 these are the
 * numbers from 0. Status 1: there are fewer.
 */
#include <inttypes.h>
#include <stdint.h>
#include <stdio.h>
#include <stdlib.h>

static uint64_t rotated(uint64_t word, int by) { return word << by | word >> (64 - by); }

static void sip_round(uint64_t v[4]) {
    v[0] += v[1];
    v[1] = rotated(v[1], 13) ^ v[0];
    v[0] = rotated(v[0], 32);
    v[2] += v[3];
    v[3] = rotated(v[3], 16) ^ v[2];
    v[0] += v[3];
    v[3] = rotated(v[3], 21) ^ v[0];
    v[2] += v[1];
    v[1] = rotated(v[1], 17) ^ v[2];
    v[2] = rotated(v[2], 32);
}

/* Of eight bytes, the first of them lowest. */
static uint32_t table_hash(uint64_t name) {
    uint64_t v[4] = {0x736f6d6570736575, 0x646f72616e646f6d, 0x6c7967656e657261, 0x7465646279746573};
    uint64_t words[2] = {name, (uint64_t)8 << 56};
    for (int i = 0; i < 2; i++) {
        v[3] ^= words[i];
        sip_round(v);
        v[0] ^= words[i];
    }
    v[2] ^= 0xff;
    for (int i = 0; i < 3; i++)
        sip_round(v);
    uint64_t hash = v[0] ^ v[1] ^ v[2] ^ v[3];
    return (uint32_t)(hash ^ hash >> 32);
}

/* Four digits as four bytes. */
static uint64_t digits_of(uint32_t number) {
    uint64_t digits = 0;
    for (int digit = 0; digit < 4; digit++)
        digits |= (uint64_t)"0123456789abcdef"[number >> (12 - 4 * digit) & 15] << (8 * digit);
    return digits;
}

int main(int count, char **words) {
    static uint64_t last_digits[1 << 16];
    if (count != 3)
        return 2;
    long wanted = atol(words[1]);
    uint32_t mask = ((uint32_t)1 << atoi(words[2])) - 1;
    for (uint32_t low = 0; low < 1 << 16; low++)
        last_digits[low] = digits_of(low) << 32;
    for (uint32_t high = 0; high < 1 << 16; high++) {
        uint64_t first_digits = digits_of(high);
        for (uint32_t low = 0; low < 1 << 16; low++)
            if ((table_hash(first_digits | last_digits[low]) & mask) == 0) {
                if (wanted-- == 0)
                    return 0;
                printf("%08" PRIx32 "\n", high << 16 | low);
            }
    }
    return 1;
}
