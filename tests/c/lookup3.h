/* lookup3 as the tests and the benchmark have it of their own: Bob Jenkins' hashlittle (lookup3.c, May 2006, public
 * domain), byte by byte, for little-endian machines and any alignment. */
#ifndef LOOKUP3_H
#define LOOKUP3_H

#include <stddef.h>
#include <stdint.h>

#define ROT(x, k) (((x) << (k)) | ((x) >> (32 - (k))))

static inline uint32_t lookup3_word(const uint8_t *k)
{
    return (uint32_t)k[0] + ((uint32_t)k[1] << 8) + ((uint32_t)k[2] << 16) + ((uint32_t)k[3] << 24);
}

static uint32_t lookup3_reference(const uint8_t *k, size_t length, uint32_t initval)
{
    uint32_t a = 0xdeadbeef + (uint32_t)length + initval, b = a, c = a;

    while (length > 12) {
        a += lookup3_word(k);
        b += lookup3_word(k + 4);
        c += lookup3_word(k + 8);
        a -= c; a ^= ROT(c, 4);  c += b;
        b -= a; b ^= ROT(a, 6);  a += c;
        c -= b; c ^= ROT(b, 8);  b += a;
        a -= c; a ^= ROT(c, 16); c += b;
        b -= a; b ^= ROT(a, 19); a += c;
        c -= b; c ^= ROT(b, 4);  b += a;
        length -= 12;
        k += 12;
    }
    switch (length) {
    case 12: c += (uint32_t)k[11] << 24; /* fall through */
    case 11: c += (uint32_t)k[10] << 16; /* fall through */
    case 10: c += (uint32_t)k[9] << 8;   /* fall through */
    case 9:  c += k[8];                  /* fall through */
    case 8:  b += (uint32_t)k[7] << 24;  /* fall through */
    case 7:  b += (uint32_t)k[6] << 16;  /* fall through */
    case 6:  b += (uint32_t)k[5] << 8;   /* fall through */
    case 5:  b += k[4];                  /* fall through */
    case 4:  a += (uint32_t)k[3] << 24;  /* fall through */
    case 3:  a += (uint32_t)k[2] << 16;  /* fall through */
    case 2:  a += (uint32_t)k[1] << 8;   /* fall through */
    case 1:  a += k[0]; break;
    default: return c;
    }
    c ^= b; c -= ROT(b, 14);
    a ^= c; a -= ROT(c, 11);
    b ^= a; b -= ROT(a, 25);
    c ^= b; c -= ROT(b, 16);
    a ^= c; a -= ROT(c, 4);
    b ^= a; b -= ROT(a, 14);
    c ^= b; c -= ROT(b, 24);
    return c;
}

#endif
