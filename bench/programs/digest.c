/* The SHA-256 digest (FIPS 180-4) of many blocks of zeros, as a measure of shifts and sums. */
#include <stdint.h>
#include <stdio.h>

#ifndef BLOCKS
#define BLOCKS 7000
#endif

static const uint32_t constants[64] = {
    0x428a2f98, 0x71374491, 0xb5c0fbcf, 0xe9b5dba5, 0x3956c25b, 0x59f111f1, 0x923f82a4, 0xab1c5ed5,
    0xd807aa98, 0x12835b01, 0x243185be, 0x550c7dc3, 0x72be5d74, 0x80deb1fe, 0x9bdc06a7, 0xc19bf174,
    0xe49b69c1, 0xefbe4786, 0x0fc19dc6, 0x240ca1cc, 0x2de92c6f, 0x4a7484aa, 0x5cb0a9dc, 0x76f988da,
    0x983e5152, 0xa831c66d, 0xb00327c8, 0xbf597fc7, 0xc6e00bf3, 0xd5a79147, 0x06ca6351, 0x14292967,
    0x27b70a85, 0x2e1b2138, 0x4d2c6dfc, 0x53380d13, 0x650a7354, 0x766a0abb, 0x81c2c92e, 0x92722c85,
    0xa2bfe8a1, 0xa81a664b, 0xc24b8b70, 0xc76c51a3, 0xd192e819, 0xd6990624, 0xf40e3585, 0x106aa070,
    0x19a4c116, 0x1e376c08, 0x2748774c, 0x34b0bcb5, 0x391c0cb3, 0x4ed8aa4a, 0x5b9cca4f, 0x682e6ff3,
    0x748f82ee, 0x78a5636f, 0x84c87814, 0x8cc70208, 0x90befffa, 0xa4506ceb, 0xbef9a3f7, 0xc67178f2,
};

static uint32_t rotated(uint32_t word, int bits) { return word >> bits | word << (32 - bits); }

/* Goes on with a digest by one block. */
static void take_block(uint32_t digest[8], const uint32_t block[16]) {
    uint32_t words[64], s[8];
    for (int t = 0; t < 16; t++) words[t] = block[t];
    for (int t = 16; t < 64; t++) {
        uint32_t early = words[t - 15], late = words[t - 2];
        uint32_t low = rotated(early, 7) ^ rotated(early, 18) ^ early >> 3;
        uint32_t high = rotated(late, 17) ^ rotated(late, 19) ^ late >> 10;
        words[t] = words[t - 16] + low + words[t - 7] + high;
    }
    for (int k = 0; k < 8; k++) s[k] = digest[k];
    for (int t = 0; t < 64; t++) {
        uint32_t high = rotated(s[4], 6) ^ rotated(s[4], 11) ^ rotated(s[4], 25);
        uint32_t chosen = (s[4] & s[5]) ^ (~s[4] & s[6]);
        uint32_t first = s[7] + high + chosen + constants[t] + words[t];
        uint32_t low = rotated(s[0], 2) ^ rotated(s[0], 13) ^ rotated(s[0], 22);
        uint32_t most = (s[0] & s[1]) ^ (s[0] & s[2]) ^ (s[1] & s[2]);
        for (int k = 7; k > 0; k--) s[k] = s[k - 1];
        s[4] += first;
        s[0] = first + low + most;
    }
    for (int k = 0; k < 8; k++) digest[k] += s[k];
}

int main(void) {
    uint32_t digest[8] = {
        0x6a09e667, 0xbb67ae85, 0x3c6ef372, 0xa54ff53a, 0x510e527f, 0x9b05688c, 0x1f83d9ab, 0x5be0cd19,
    };
    static const uint32_t zeros[16];
    uint32_t last[16] = {0x80000000};
    uint64_t bits = (uint64_t)BLOCKS * 512;
    last[14] = bits >> 32;
    last[15] = bits;
    for (int k = 0; k < BLOCKS; k++) take_block(digest, zeros);
    take_block(digest, last);
    for (int k = 0; k < 8; k++) printf("%08lx", (unsigned long)digest[k]);
    printf("\n");
    return 0;
}
