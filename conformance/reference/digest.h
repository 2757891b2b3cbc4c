/* CRC-32 as in zlib and PNG, by which the stored lists (vectors/README.md) and appendix B of docs/RULES.md name bytes. */
#ifndef DIGEST_H
#define DIGEST_H

#include <stddef.h>
#include <stdint.h>

uint32_t digest(const uint8_t *bytes, size_t length);

#endif
