/* runtime_test.c: each function of runtime.S on every kind of argument: conversions against whole-number arithmetic and against libgcc's, copies and fills at
   every alignment and length with the bytes around them. */
#include "generator.h"

#include <stdio.h>

#define BASE __attribute__((pcs("aapcs")))
BASE double __aeabi_ul2d(uint64_t);
BASE double __aeabi_l2d(int64_t);
BASE double libgcc___aeabi_ul2d(uint64_t); /* libgcc's own, under other names */
BASE double libgcc___aeabi_l2d(int64_t);
void __aeabi_memcpy(void *, const void *, size_t);
void __aeabi_memcpy4(void *, const void *, size_t);
void __aeabi_memcpy8(void *, const void *, size_t);
void __aeabi_memset(void *, size_t, int);
void __aeabi_memset4(void *, size_t, int);
void __aeabi_memset8(void *, size_t, int);
void __aeabi_memclr(void *, size_t);
void __aeabi_memclr4(void *, size_t);
void __aeabi_memclr8(void *, size_t);

static long wrong, tried;

/* The nearest double, ties to even, by whole numbers alone. */
static uint64_t nearest(uint64_t x, uint64_t sign) {
    int shift = 0;
    if (x == 0) return 0;
    while (x >> 63 == 0) {
        x <<= 1;
        shift++;
    }
    const uint64_t kept = x >> 11, rest = x & 0x7ff, half = 0x400;
    const uint64_t rounded = kept + (rest > half || (rest == half && (kept & 1)));
    return sign << 63 | (((uint64_t)(1023 + 63 - shift) << 52) + (rounded - ((uint64_t)1 << 52)));
}

static void convert(uint64_t x) {
    const uint64_t size = x >> 63 ? -x : x;
    tried += 2;
    if (bits_of(__aeabi_ul2d(x)) != nearest(x, 0) || bits_of(__aeabi_ul2d(x)) != bits_of(libgcc___aeabi_ul2d(x))) {
        wrong++;
        printf("__aeabi_ul2d of %08lx%08lx\n", (unsigned long)(x >> 32), (unsigned long)x);
    }
    if (bits_of(__aeabi_l2d((int64_t)x)) != nearest(size, x >> 63) || bits_of(__aeabi_l2d((int64_t)x)) != bits_of(libgcc___aeabi_l2d((int64_t)x))) {
        wrong++;
        printf("__aeabi_l2d of %08lx%08lx\n", (unsigned long)(x >> 32), (unsigned long)x);
    }
}

static void conversions(void) {
    convert(0);
    for (int i = 0; i < 64; i++) {
        for (int j = 0; j < 64; j++) { /* sums and differences of two powers: every tie, and what lies beside it */
            const uint64_t a = (uint64_t)1 << i, b = (uint64_t)1 << j;
            for (int k = -1; k <= 1; k++) {
                convert(a + b + (uint64_t)(int64_t)k);
                convert(a - b + (uint64_t)(int64_t)k);
                convert(~(a + b) + (uint64_t)(int64_t)k);
                convert((a | b >> 1 | b >> 2) + (uint64_t)(int64_t)k);
            }
        }
    }
    for (long i = 0; i < 200000; i++) {
        const uint64_t x = next();
        convert(x >> below(64));
        convert(x & ~(uint64_t)0 << below(64));
    }
}

#define ROOM 512
static uint64_t from_words[ROOM / 8], to_words[ROOM / 8];
static uint8_t *const from = (uint8_t *)from_words, *const to = (uint8_t *)to_words;

static void begin(void) {
    for (int i = 0; i < ROOM; i++) {
        from[i] = (uint8_t)(next() >> 24);
        to[i] = (uint8_t)(next() >> 24);
    }
}

/* to[at .. at + n] is as expect has it, and all around it as before */
static void compare(const char *name, const uint8_t *before, const uint8_t *expect, size_t at, size_t n) {
    tried++;
    for (size_t i = 0; i < ROOM; i++) {
        if (to[i] != (i >= at && i < at + n ? expect[i - at] : before[i])) {
            wrong++;
            printf("%s: %u bytes at %u: byte %u\n", name, (unsigned)n, (unsigned)at, (unsigned)i);
            return;
        }
    }
}

static void copies(void) {
    static uint8_t before[ROOM];
    for (size_t at = 0; at < 8; at++) {
        for (size_t source = 0; source < 8; source++) {
            for (size_t n = 0; n < 280; n++) {
                for (int kind = 0; kind < 4; kind++) {
                    if ((kind == 2 && (at | source) % 4) || (kind == 3 && (at | source) % 8)) continue;
                    begin();
                    for (int i = 0; i < ROOM; i++) before[i] = to[i];
                    if (kind == 0 && memcpy(to + 16 + at, from + source, n) != to + 16 + at) wrong++;
                    if (kind == 1) __aeabi_memcpy(to + 16 + at, from + source, n);
                    if (kind == 2) __aeabi_memcpy4(to + 16 + at, from + source, n);
                    if (kind == 3) __aeabi_memcpy8(to + 16 + at, from + source, n);
                    compare("a copy", before, from + source, 16 + at, n);
                }
            }
        }
    }
}

static void fills(void) {
    static uint8_t before[ROOM], expect[ROOM];
    static const int bytes[] = {0, 1, 0x80, 0xff, 0x1a5, -1};
    for (size_t at = 0; at < 8; at++) {
        for (size_t n = 0; n < 280; n++) {
            for (int kind = 0; kind < 7; kind++) {
                for (int k = 0; k < 6; k++) {
                    const int byte = kind < 4 ? bytes[k] : 0;
                    const int aligned_to = kind == 2 || kind == 5 ? 4 : kind == 3 || kind == 6 ? 8 : 1;
                    if (at % (size_t)aligned_to || (kind >= 4 && k > 0)) continue;
                    begin();
                    for (int i = 0; i < ROOM; i++) {
                        before[i] = to[i];
                        expect[i] = (uint8_t)byte;
                    }
                    if (kind == 0 && memset(to + 16 + at, byte, n) != to + 16 + at) wrong++;
                    if (kind == 1) __aeabi_memset(to + 16 + at, n, byte);
                    if (kind == 2) __aeabi_memset4(to + 16 + at, n, byte);
                    if (kind == 3) __aeabi_memset8(to + 16 + at, n, byte);
                    if (kind == 4) __aeabi_memclr(to + 16 + at, n);
                    if (kind == 5) __aeabi_memclr4(to + 16 + at, n);
                    if (kind == 6) __aeabi_memclr8(to + 16 + at, n);
                    compare("a fill", before, expect, 16 + at, n);
                }
            }
        }
    }
}

int main(void) {
    conversions();
    copies();
    fills();
    printf("cortex-m7: runtime.S: %ld arguments, %ld wrong\n", tried, wrong);
    return wrong != 0;
}
