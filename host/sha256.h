/* SHA-256 (FIPS 180-4), by which a page is tied to its file and its script to its policy. */
#ifndef OCTALMURE_SHA256_H
#define OCTALMURE_SHA256_H

#include <stddef.h>
#include <stdint.h>
#include <stdio.h>

enum { DIGEST_BYTES = 32 };

typedef struct {
    uint8_t bytes[DIGEST_BYTES];
} Digest;

Digest digest_of(const void *bytes, size_t length);
/* In hexadecimal, as sha256sum prints it. */
void put_hexadecimal(FILE *out, const Digest *digest);
/* In base 64, as a content security policy has it. */
void put_base64(FILE *out, const Digest *digest);

#endif
