// sha256 FILE..: prints the SHA-256 of each file as sha256sum prints it (FIPS 180-4).
//
// A file that cannot be read is named on stream 2, the others are printed all the same, and the status is 1. Without a file it is 2.

#include "guest.h"

static const char own_name[] = "sha256";

// The first 32 bits of the fractional parts of the cube roots of the first 64 primes (section 4.2.2).
static const word32 round_words[64] = {
    0x428a2f98, 0x71374491, 0xb5c0fbcf, 0xe9b5dba5, 0x3956c25b, 0x59f111f1, 0x923f82a4, 0xab1c5ed5, 0xd807aa98, 0x12835b01, 0x243185be,
    0x550c7dc3, 0x72be5d74, 0x80deb1fe, 0x9bdc06a7, 0xc19bf174, 0xe49b69c1, 0xefbe4786, 0x0fc19dc6, 0x240ca1cc, 0x2de92c6f, 0x4a7484aa,
    0x5cb0a9dc, 0x76f988da, 0x983e5152, 0xa831c66d, 0xb00327c8, 0xbf597fc7, 0xc6e00bf3, 0xd5a79147, 0x06ca6351, 0x14292967, 0x27b70a85,
    0x2e1b2138, 0x4d2c6dfc, 0x53380d13, 0x650a7354, 0x766a0abb, 0x81c2c92e, 0x92722c85, 0xa2bfe8a1, 0xa81a664b, 0xc24b8b70, 0xc76c51a3,
    0xd192e819, 0xd6990624, 0xf40e3585, 0x106aa070, 0x19a4c116, 0x1e376c08, 0x2748774c, 0x34b0bcb5, 0x391c0cb3, 0x4ed8aa4a, 0x5b9cca4f,
    0x682e6ff3, 0x748f82ee, 0x78a5636f, 0x84c87814, 0x8cc70208, 0x90befffa, 0xa4506ceb, 0xbef9a3f7, 0xc67178f2};

// A digest in the making: the hash value, the bytes seen, and the bytes of the block that is not full yet.
struct digest {
    word32 hash[8];
    word64 length;
    byte block[64];
};

static void begin_digest(struct digest *digest) {
    // The square roots of the first eight primes, in the same way (section 5.3.3).
    static const word32 first[8] = {0x6a09e667, 0xbb67ae85, 0x3c6ef372, 0xa54ff53a, 0x510e527f, 0x9b05688c, 0x1f83d9ab, 0x5be0cd19};
    for (int i = 0; i < 8; i += 1)
        digest->hash[i] = first[i];
    digest->length = 0;
}

static word32 rotated(word32 value, int count) { return value >> count | value << (32 - count); }

// Takes in the full block (section 6.2.2).
static void take_block(struct digest *digest) {
    word32 words[64];
    word32 v[8];
    for (int t = 0; t < 16; t += 1) {
        const byte *at = digest->block + 4 * t;
        words[t] = (word32)at[0] << 24 | (word32)at[1] << 16 | (word32)at[2] << 8 | at[3];
    }
    for (int t = 16; t < 64; t += 1) {
        word32 near = words[t - 2];
        word32 far = words[t - 15];
        words[t] = (rotated(near, 17) ^ rotated(near, 19) ^ near >> 10) + words[t - 7] +
                   (rotated(far, 7) ^ rotated(far, 18) ^ far >> 3) + words[t - 16];
    }
    for (int i = 0; i < 8; i += 1)
        v[i] = digest->hash[i];
    for (int t = 0; t < 64; t += 1) {
        word32 one = v[7] + (rotated(v[4], 6) ^ rotated(v[4], 11) ^ rotated(v[4], 25)) + ((v[4] & v[5]) ^ (~v[4] & v[6])) +
                     round_words[t] + words[t];
        word32 two = (rotated(v[0], 2) ^ rotated(v[0], 13) ^ rotated(v[0], 22)) + ((v[0] & v[1]) ^ (v[0] & v[2]) ^ (v[1] & v[2]));
        for (int i = 7; i > 0; i -= 1)
            v[i] = v[i - 1];
        v[4] += one;
        v[0] = one + two;
    }
    for (int i = 0; i < 8; i += 1)
        digest->hash[i] += v[i];
}

static void take_byte(struct digest *digest, byte value) {
    digest->block[digest->length % 64] = value;
    digest->length += 1;
    if (digest->length % 64 == 0)
        take_block(digest);
}

// The padding (section 5.1.1): a bit of 1, zeros, and the length in bits.
static void end_digest(struct digest *digest) {
    word64 bits = digest->length * 8;
    take_byte(digest, 0x80);
    while (digest->length % 64 != 56)
        take_byte(digest, 0);
    for (int shift = 56; shift >= 0; shift -= 8)
        take_byte(digest, bits >> shift);
}

// Prints the digest of a file; 0, or the error.
static long print_digest(const char *name) {
    static const char digits[16] = "0123456789abcdef";
    static byte buffer[4096];
    struct digest digest;
    byte text[66];
    long file = open_file(name, O_RDONLY);
    long count;
    if (file < 0)
        return file;
    begin_digest(&digest);
    while ((count = read_bytes(file, buffer, sizeof buffer)) > 0) {
        for (long i = 0; i < count; i += 1)
            take_byte(&digest, buffer[i]);
    }
    close_file(file);
    if (count < 0)
        return count;
    end_digest(&digest);
    for (int i = 0; i < 64; i += 1)
        text[i] = digits[digest.hash[i / 8] >> (28 - 4 * (i % 8)) & 15];
    text[64] = ' ';
    text[65] = ' ';
    write_bytes(1, text, sizeof text);
    write_text(1, name);
    write_text(1, "\n");
    return 0;
}

static int run(long count, char **words) {
    int status = 0;
    if (count == 0) {
        write_text(2, "sha256 FILE..\n");
        return 2;
    }
    for (long i = 0; i < count; i += 1) {
        long answer = print_digest(words[i]);
        if (answer < 0) {
            say_error(words[i], answer);
            status = 1;
        }
    }
    call(EXIT_GROUP, status, 0, 0, 0);
    return status;
}
