#include "sha256.h"

#include <string.h>

enum { BLOCK = 64, WORDS = 8, ROUNDS = 64 };

/* The first 32 bits of the fractional parts of the cube roots of the first 64 primes. */
static const uint32_t constants[ROUNDS] = {
    0x428a2f98, 0x71374491, 0xb5c0fbcf, 0xe9b5dba5, 0x3956c25b, 0x59f111f1, 0x923f82a4, 0xab1c5ed5, 0xd807aa98, 0x12835b01, 0x243185be,
    0x550c7dc3, 0x72be5d74, 0x80deb1fe, 0x9bdc06a7, 0xc19bf174, 0xe49b69c1, 0xefbe4786, 0x0fc19dc6, 0x240ca1cc, 0x2de92c6f, 0x4a7484aa,
    0x5cb0a9dc, 0x76f988da, 0x983e5152, 0xa831c66d, 0xb00327c8, 0xbf597fc7, 0xc6e00bf3, 0xd5a79147, 0x06ca6351, 0x14292967, 0x27b70a85,
    0x2e1b2138, 0x4d2c6dfc, 0x53380d13, 0x650a7354, 0x766a0abb, 0x81c2c92e, 0x92722c85, 0xa2bfe8a1, 0xa81a664b, 0xc24b8b70, 0xc76c51a3,
    0xd192e819, 0xd6990624, 0xf40e3585, 0x106aa070, 0x19a4c116, 0x1e376c08, 0x2748774c, 0x34b0bcb5, 0x391c0cb3, 0x4ed8aa4a, 0x5b9cca4f,
    0x682e6ff3, 0x748f82ee, 0x78a5636f, 0x84c87814, 0x8cc70208, 0x90befffa, 0xa4506ceb, 0xbef9a3f7, 0xc67178f2};

static uint32_t turned(uint32_t word, int by) {
    return word >> by | word << (32 - by);
}

/* The 64 words of a block: its 16, and those that follow from them. */
static void spread(const uint8_t *block, uint32_t words[ROUNDS]) {
    for (size_t i = 0; i < 16; i++) {
        words[i] = (uint32_t)block[4 * i] << 24 | (uint32_t)block[4 * i + 1] << 16 | (uint32_t)block[4 * i + 2] << 8 | block[4 * i + 3];
    }
    for (size_t i = 16; i < ROUNDS; i++) {
        uint32_t early = words[i - 15], late = words[i - 2];
        words[i] = words[i - 16] + (turned(early, 7) ^ turned(early, 18) ^ early >> 3) + words[i - 7] +
                   (turned(late, 17) ^ turned(late, 19) ^ late >> 10);
    }
}

static void take_block(uint32_t state[WORDS], const uint8_t *block) {
    uint32_t words[ROUNDS], now[WORDS];
    spread(block, words);
    memcpy(now, state, sizeof now);
    for (size_t i = 0; i < ROUNDS; i++) {
        uint32_t a = now[0], e = now[4];
        uint32_t chosen = (e & now[5]) ^ (~e & now[6]), most = (a & now[1]) ^ (a & now[2]) ^ (now[1] & now[2]);
        uint32_t first = now[7] + (turned(e, 6) ^ turned(e, 11) ^ turned(e, 25)) + chosen + constants[i] + words[i];
        uint32_t second = (turned(a, 2) ^ turned(a, 13) ^ turned(a, 22)) + most;
        memmove(now + 1, now, (WORDS - 1) * sizeof now[0]);
        now[4] += first;
        now[0] = first + second;
    }
    for (size_t i = 0; i < WORDS; i++) {
        state[i] += now[i];
    }
}

/* What is left behind the whole blocks, a one bit, zeros, and the length in bits. */
static void take_end(uint32_t state[WORDS], const uint8_t *rest, size_t left, uint64_t length) {
    uint8_t end[2 * BLOCK] = {0};
    size_t blocks = left < BLOCK - 8 ? 1 : 2;
    memcpy(end, rest, left);
    end[left] = 0x80;
    for (size_t i = 0; i < 8; i++) {
        end[blocks * BLOCK - 1 - i] = (uint8_t)(8 * length >> 8 * i);
    }
    for (size_t i = 0; i < blocks; i++) {
        take_block(state, end + i * BLOCK);
    }
}

Digest digest_of(const void *bytes, size_t length) {
    uint32_t state[WORDS] = {0x6a09e667, 0xbb67ae85, 0x3c6ef372, 0xa54ff53a, 0x510e527f, 0x9b05688c, 0x1f83d9ab, 0x5be0cd19};
    const uint8_t *at = bytes;
    size_t left = length;
    Digest digest;
    for (; left >= BLOCK; left -= BLOCK, at += BLOCK) {
        take_block(state, at);
    }
    take_end(state, at, left, length);
    for (size_t i = 0; i < DIGEST_BYTES; i++) {
        digest.bytes[i] = (uint8_t)(state[i / 4] >> 8 * (3 - i % 4));
    }
    return digest;
}

void put_hexadecimal(FILE *out, const Digest *digest) {
    for (size_t i = 0; i < DIGEST_BYTES; i++) {
        fprintf(out, "%02x", (unsigned)digest->bytes[i]);
    }
}

/* Three bytes in four signs; the last two of the 32 in three, and a '=' in place of the fourth. */
void put_base64(FILE *out, const Digest *digest) {
    static const char signs[] = "ABCDEFGHIJKLMNOPQRSTUVWXYZabcdefghijklmnopqrstuvwxyz0123456789+/";
    for (size_t i = 0; i < DIGEST_BYTES; i += 3) {
        uint32_t third = i + 2 < DIGEST_BYTES ? digest->bytes[i + 2] : 0;
        uint32_t three = (uint32_t)digest->bytes[i] << 16 | (uint32_t)digest->bytes[i + 1] << 8 | third;
        for (int sign = 3; sign > 0; sign--) {
            fputc(signs[three >> 6 * sign & 63], out);
        }
        fputc(i + 2 < DIGEST_BYTES ? signs[three & 63] : '=', out);
    }
}
