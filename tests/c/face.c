/* The C face, at every edge: sizes 0 to 9, addresses around the size, sums past 2^64-1, null with length 0. */
#include "yshankelt.h"

#include <inttypes.h>
#include <stdio.h>
#include <string.h>

static long checks, failures;

static void expect(int holds, const char *what, uint64_t a, uint64_t b, uint64_t c)
{
    checks++;
    if (!holds && failures++ < 20)
        printf("FAILED: %s at %" PRIu64 ", %" PRIu64 ", %" PRIu64 "\n", what, a, b, c);
}

typedef uint8_t load_fn(const uint8_t *, size_t, uint64_t, uint64_t, uint64_t *);

static const struct {
    const char *name;
    load_fn *load;
    unsigned bytes, sign, bits; /* bytes read; whether the sign is kept; bits of the value */
} loads[] = {
    {"i32", ysh_load_i32, 4, 0, 32},       {"i64", ysh_load_i64, 8, 0, 64},
    {"f32", ysh_load_f32, 4, 0, 32},       {"f64", ysh_load_f64, 8, 0, 64},
    {"i32_8s", ysh_load_i32_8s, 1, 1, 32}, {"i32_8u", ysh_load_i32_8u, 1, 0, 32},
    {"i32_16s", ysh_load_i32_16s, 2, 1, 32}, {"i32_16u", ysh_load_i32_16u, 2, 0, 32},
    {"i64_8s", ysh_load_i64_8s, 1, 1, 64}, {"i64_8u", ysh_load_i64_8u, 1, 0, 64},
    {"i64_16s", ysh_load_i64_16s, 2, 1, 64}, {"i64_16u", ysh_load_i64_16u, 2, 0, 64},
    {"i64_32s", ysh_load_i64_32s, 4, 1, 64}, {"i64_32u", ysh_load_i64_32u, 4, 0, 64},
};

/* What a load should give, worked out byte by byte. */
static uint64_t expected(const uint8_t *p, unsigned bytes, unsigned sign, unsigned bits)
{
    uint64_t v = 0;
    for (unsigned i = bytes; i-- > 0;)
        v = v * 256 + p[i];
    if (sign && (v >> (8 * bytes - 1)) & 1)
        v |= ~UINT64_C(0) << (8 * bytes);
    return bits == 32 ? v & UINT64_C(0xffffffff) : v;
}

static void try_load(unsigned k, const uint8_t *mem, size_t len, uint64_t ptr, uint64_t offset)
{
    uint64_t out = UINT64_C(0x5a5a5a5a5a5a5a5a);
    uint8_t number = loads[k].load(mem, len, ptr, offset, &out);
    uint64_t a = ptr + offset;
    int wraps = a < ptr;
    int inside = !wraps && a <= len && len - a >= loads[k].bytes;
    expect(number == (inside ? 0 : 9), loads[k].name, len, ptr, offset);
    if (inside)
        expect(out == expected(mem + a, loads[k].bytes, loads[k].sign, loads[k].bits), loads[k].name, len, ptr, offset);
    else
        expect(out == UINT64_C(0x5a5a5a5a5a5a5a5a), "out is left alone", len, ptr, offset);
}

static uint8_t store(unsigned k, uint8_t *mem, size_t len, uint64_t ptr, uint64_t offset, uint64_t bits)
{
    switch (k) {
    case 0: return ysh_store_i32(mem, len, ptr, offset, (uint32_t)bits);
    case 1: return ysh_store_i64(mem, len, ptr, offset, bits);
    case 2: return ysh_store_f32(mem, len, ptr, offset, (uint32_t)bits);
    case 3: return ysh_store_f64(mem, len, ptr, offset, bits);
    case 4: return ysh_store_i32_8(mem, len, ptr, offset, (uint32_t)bits);
    case 5: return ysh_store_i32_16(mem, len, ptr, offset, (uint32_t)bits);
    case 6: return ysh_store_i64_8(mem, len, ptr, offset, bits);
    case 7: return ysh_store_i64_16(mem, len, ptr, offset, bits);
    default: return ysh_store_i64_32(mem, len, ptr, offset, bits);
    }
}

static void try_store(unsigned k, size_t len, uint64_t ptr, uint64_t offset, uint64_t bits)
{
    static const unsigned widths[] = {4, 8, 4, 8, 1, 2, 1, 2, 4};
    uint8_t mem[24], want[24];
    memset(mem, 0xa5, sizeof mem);
    memset(want, 0xa5, sizeof want);
    uint64_t a = ptr + offset;
    int inside = a >= ptr && a <= len && len - a >= widths[k];
    if (inside)
        for (unsigned i = 0; i < widths[k]; i++)
            want[a + i] = (uint8_t)(bits >> (8 * i));
    uint8_t number = store(k, mem, len, ptr, offset, bits);
    expect(number == (inside ? 0 : 9), "store's number", k, ptr, offset);
    expect(memcmp(mem, want, sizeof mem) == 0, "store's bytes", k, ptr, offset);
}

int main(void)
{
    static const uint64_t far[] = {0, 1, UINT64_C(0xffffffff), UINT64_C(0x100000000), UINT64_C(0x7fffffffffffffff),
                                   UINT64_C(0xfffffffffffffff7), UINT64_C(0xfffffffffffffffe), UINT64_MAX};
    const unsigned nfar = sizeof far / sizeof *far, nloads = sizeof loads / sizeof *loads;
    uint8_t mem[24];
    for (unsigned pattern = 0; pattern < 5; pattern++) {
        for (unsigned i = 0; i < sizeof mem; i++)
            mem[i] = pattern == 0 ? 0xff : pattern == 1 ? 0x80 : pattern == 2 ? 0x7f : (uint8_t)(i * 37 + pattern * 101);
        for (unsigned k = 0; k < nloads; k++)
            for (size_t len = 0; len <= 17; len++) {
                for (uint64_t ptr = 0; ptr <= len + 2; ptr++)
                    for (uint64_t offset = 0; offset <= len + 2; offset++)
                        try_load(k, mem, len, ptr, offset);
                for (unsigned i = 0; i < nfar; i++)
                    for (unsigned j = 0; j < nfar; j++)
                        try_load(k, mem, len, far[i], far[j]);
            }
    }
    /* a float's bits stay, a NaN's payload too */
    static const uint32_t patterns[] = {0, 0x80000000, 0x3f800000, 0x7f800000, 0x7f800001, 0x7fc00000, 0xffc12345, 0x7fbfffff};
    for (unsigned i = 0; i < sizeof patterns / sizeof *patterns; i++) {
        uint64_t out = 1;
        expect(ysh_store_f32(mem, 8, 1, 2, patterns[i]) == 0, "f32 store", i, 0, 0);
        expect(ysh_load_f32(mem, 8, 2, 1, &out) == 0 && out == patterns[i], "f32 round trip", i, out, patterns[i]);
        uint64_t wide = (uint64_t)patterns[i] << 32 | 0x12345;
        expect(ysh_store_f64(mem, 8, 0, 0, wide) == 0, "f64 store", i, 0, 0);
        expect(ysh_load_f64(mem, 8, 0, 0, &out) == 0 && out == wide, "f64 round trip", i, out, wide);
    }
    for (unsigned k = 0; k < 9; k++)
        for (size_t len = 0; len <= 17; len++) {
            for (uint64_t ptr = 0; ptr <= len + 2; ptr++)
                try_store(k, len, ptr, 0, UINT64_C(0xfedcba9876543210));
            for (unsigned i = 0; i < nfar; i++)
                for (unsigned j = 0; j < nfar; j++)
                    try_store(k, len, far[i], far[j], UINT64_C(0x0123456789abcdef));
        }
    /* null with length 0 */
    for (unsigned k = 0; k < nloads; k++)
        try_load(k, NULL, 0, 0, 0);
    for (unsigned k = 0; k < 9; k++)
        expect(store(k, NULL, 0, 0, 0, 7) == 9, "null store", k, 0, 0);
    /* prices */
    expect(ysh_price(63, 64) == 0 && ysh_price(64, 64) == 1, "P1", 0, 0, 0);
    expect(ysh_price_values(7, 8, 64) == 0 && ysh_price_values(8, 8, 64) == 1, "P2", 0, 0, 0);
    expect(ysh_price(0, 0) == UINT64_MAX && ysh_price_values(0, 4, 0) == UINT64_MAX, "P3", 0, 0, 0);
    expect(ysh_price(UINT64_MAX, 1) == UINT64_MAX, "price of all", 0, 0, 0);
    expect(ysh_price_values(UINT64_MAX, 16, 1) == UINT64_MAX, "capped before it is divided", 0, 0, 0);
    expect(ysh_price_values(UINT64_C(1) << 60, 16, 2) == UINT64_C(0x7fffffffffffffff), "capped at 2^64-1", 0, 0, 0);
    expect(ysh_price_values(5, 0, 3) == 0, "values of no bytes", 0, 0, 0);
    for (uint64_t len = 0; len < 2000; len++)
        for (uint32_t b = 1; b < 70; b++)
            expect(ysh_price(len, b) == len / b && ysh_price_values(len, 4, b) == len * 4 / b, "price", len, b, 0);
    printf("C face: %ld checks, %ld failures\n", checks, failures);
    return failures != 0;
}
