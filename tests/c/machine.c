/* A whole machine through C: the scope's listing on the host's own buffers, and odd input; a refusal leaves what it should. */
#include "yshankelt.h"

#include <inttypes.h>
#include <stdio.h>
#include <string.h>

static long checks, failures;

static void expect(int holds, const char *what, uint64_t a, uint64_t b, uint64_t c)
{
    checks++;
    if (!holds && failures++ < 20)
        printf("FAILED: %s at %" PRIu64 ", %" PRIu64 ", %" PRIu64 "\n", what, a, b, c);
}

/* One word more than a machine takes, and one cell more than a buffer is said to have: none may be written. */
enum { W = YSH_MACHINE_WORDS, BYTES = 512, CELLS = 64, ITEMS = 8, MAX = 8 };
struct host {
    uint64_t words[W + 1];
    uint8_t bytes[BYTES + 1];
    uint64_t cells[CELLS + 1], items[ITEMS + 1];
    uint64_t value, fuel;
};

#define MARK UINT64_C(0x5a5a5a5a5a5a5a5a)

static void dirty(struct host *h)
{
    memset(h, 0x5a, sizeof *h);
}

static uint8_t operate(struct host *h, uint8_t code, size_t count, const uint64_t *fields)
{
    return ysh_operate(h->words, W + 1, h->bytes, BYTES, h->cells, CELLS, h->items, ITEMS, code, fields, count, &h->value, &h->fuel);
}

/* The sizes, over the buffers that `operate` is given. */
static uint8_t pages_of(const struct host *h, size_t len, uint64_t memory, uint64_t *value)
{
    return ysh_memory_pages(h->words, len, BYTES, CELLS, ITEMS, memory, value);
}

static uint8_t cells_of(const struct host *h, size_t len, uint64_t table, uint64_t *value)
{
    return ysh_table_cells(h->words, len, BYTES, CELLS, ITEMS, table, value);
}

static int edges_kept(const struct host *h)
{
    return h->words[W] == MARK && h->bytes[BYTES] == 0x5a && h->cells[CELLS] == MARK && h->items[ITEMS] == MARK;
}

/* Everything but the out parameters. */
static int same(const struct host *a, const struct host *b)
{
    return memcmp(a->words, b->words, sizeof a->words) == 0 && memcmp(a->bytes, b->bytes, sizeof a->bytes) == 0 &&
           memcmp(a->cells, b->cells, sizeof a->cells) == 0 && memcmp(a->items, b->items, sizeof a->items) == 0;
}

struct step {
    uint8_t code;
    size_t count;
    uint64_t fields[MAX];
    uint8_t number;
    uint64_t value, fuel;
};

static void run(struct host *h, const char *what, const struct step *steps, size_t count)
{
    for (size_t i = 0; i < count; i++) {
        const struct step *s = &steps[i];
        h->value = h->fuel = MARK;
        uint8_t number = operate(h, s->code, s->count, s->fields);
        expect(number == s->number, what, i, number, s->number);
        expect(h->value == s->value, what, i, h->value, s->value);
        expect(h->fuel == s->fuel, what, i, h->fuel, s->fuel);
        expect(edges_kept(h), "nothing past the ends", i, 0, 0);
    }
}

/* The scope's listing: metering on, 64 bytes a unit. */
static void listing(void)
{
    static const struct step steps[] = {
        {0x01, 1, {10}, 0, 0, 10},
        {0x10, 6, {128, 0, 1, 1, 128, 0}, 0, 0, 10},
        {0x11, 2, {0, 63}, 0, 1, 10},
        {0x11, 2, {0, 64}, 0, 64, 9},
        {0x11, 2, {0, 1}, 6, 0, 9},
        {0x13, 4, {0, 0, 124, 1}, 9, 0, 9},
    };
    struct host h;
    dirty(&h);
    expect(ysh_machine_new(h.words, W + 1, true, 64) == 0 && edges_kept(&h), "new", 0, 0, 0);
    run(&h, "listing", steps, sizeof steps / sizeof *steps);
    for (unsigned i = 0; i < 128; i++)
        expect(h.bytes[i] == 0, "fresh zeros", i, h.bytes[i], 0);
    for (unsigned i = 128; i < BYTES; i++)
        expect(h.bytes[i] == 0x5a, "bytes past the room", i, h.bytes[i], 0);
    uint64_t v = MARK;
    expect(pages_of(&h, W + 1, 0, &v) == 0 && v == 128, "pages", v, 0, 0);
    /* the words that the header names */
    static const uint64_t memory[8] = {0, 0, 1, 1, 128, 0, 128, 128};
    expect(memcmp(h.words, memory, sizeof memory) == 0, "the memory's words", 0, 0, 0);
    expect(h.words[160] == 1 && h.words[161] == 0 && h.words[162] == 0, "the counts", 0, 0, 0);
    static const uint64_t fuel[5] = {9, 1, 64, 7, 2};
    expect(memcmp(h.words + 163, fuel, sizeof fuel) == 0, "the fuel's words", 0, 0, 0);
}

/* Each kind of buffer and of refusal, the limiter, and a copy of the row that goes on by itself. */
static void every_kind(void)
{
    static const struct step steps[] = {
        {0x00, 2, {1, 64}, 18, 0, 0},                                  /* 00 only on a session's first line */
        {0x01, 1, {2}, 0, 0, 2},
        {0x02, 0, {0}, 0, 2, 2},
        {0x04, 2, {2, UINT64_C(0x0100000000000000)}, 0, 0, 2},         /* the limiter: yes, no */
        {0x20, 8, {32, 0, 0, 1, 4, 32, 0, 7}, 0, 0, 2},                /* a table of 4, asked: yes */
        {0x21, 4, {0, 4, 0, 9}, 6, 0, 2},                              /* a growth, asked: no */
        {0x21, 4, {0, 16, 0, 9}, 0, 4, 1},                             /* 16 cells of 4 bytes: 1 unit */
        {0x22, 1, {0}, 0, 20, 1},
        {0x23, 2, {0, 3}, 0, 7, 1},
        {0x23, 2, {0, 19}, 0, 9, 1},
        {0x23, 2, {0, 20}, 9, 0, 1},
        {0x29, 5, {0, 3, 11, 12, 13}, 0, 0, 1},                        /* a segment of 3 */
        {0x27, 5, {0, 0, 2, 1, 2}, 0, 0, 1},
        {0x23, 2, {0, 3}, 0, 13, 1},
        {0x25, 5, {0, 0, 0, 5, 32}, 11, 0, 1},                         /* past the size */
        {0x28, 1, {0}, 0, 0, 1},
        {0x28, 1, {1}, 16, 0, 1},
        {0x03, 1, {5}, 7, 5, 1},                                       /* 7 tells the price */
        {0x10, 6, {16, 0, 0, 8, 0, 0}, 0, 0, 1},
        {0x14, 5, {0, 1, 0, 0, UINT64_C(0xfedcba9876543210)}, 0, 0, 1},
        {0x13, 4, {0, 1, 0, 0}, 0, UINT64_C(0xfedcba9876543210), 1},
        {0x13, 4, {0, 4, 7, 0}, 0, UINT64_C(0xfffffffe), 1},           /* a byte with its sign, 32 bits */
        {0x12, 1, {0}, 0, 8, 1},
        {0x12, 1, {1}, 16, 0, 1},
        {0x30, 6, {0, 0, 0, 8, 0, 0}, 0, 1, 1},                        /* a type that fits, and one that does not */
        {0x30, 6, {0, 0, 0, 9, 0, 0}, 0, 0, 1},
        {0x10, 6, {1000, 0, 0, 0, 0, 0}, 17, 0, 1},                    /* no room for it */
        {0xff, 0, {0}, 18, 0, 1},
    };
    struct host h;
    dirty(&h);
    expect(ysh_machine_new(h.words, W + 1, true, 64) == 0, "new", 0, 0, 0);
    run(&h, "every kind", steps, sizeof steps / sizeof *steps);
    uint64_t v = MARK;
    expect(cells_of(&h, W, 0, &v) == 0 && v == 20, "cells", v, 0, 0);
    expect(h.cells[0] == 7 && h.cells[2] == 12 && h.cells[3] == 13 && h.cells[19] == 9 && h.items[2] == 13, "the buffers", 0, 0, 0);
    struct host copy = h;
    static const struct step more[] = {{0x11, 2, {0, 8}, 0, 8, 1}, {0x12, 1, {0}, 0, 16, 1}};
    run(&copy, "a copy", more, 2);
    static const struct step still[] = {{0x12, 1, {0}, 0, 8, 1}};
    run(&h, "what was copied", still, 1);
    /* a machine whose rooms lie outside the buffers is 19: nothing changes, the out parameters neither */
    copy = h;
    h.value = h.fuel = MARK;
    uint64_t zero = 0;
    expect(ysh_operate(h.words, W, h.bytes, 8, h.cells, CELLS, h.items, ITEMS, 0x12, &zero, 1, &h.value, &h.fuel) == 19, "short bytes", 0, 0, 0);
    expect(h.value == MARK && h.fuel == MARK && same(&h, &copy), "short bytes change nothing", h.value, h.fuel, 0);
    expect(ysh_operate(h.words, W, NULL, 0, NULL, 0, NULL, 0, 0x02, NULL, 0, &h.value, &h.fuel) == 19, "no buffers", 0, 0, 0);
    expect(h.value == MARK && h.fuel == MARK && same(&h, &copy), "no buffers change nothing", h.value, h.fuel, 0);
    /* what is no operation is 18 before that, with the row's fuel */
    expect(ysh_operate(h.words, W, NULL, 0, NULL, 0, NULL, 0, 0x02, &zero, 1, &h.value, &h.fuel) == 18, "18 before 19", 0, 0, 0);
    expect(h.value == 0 && h.fuel == 1 && same(&h, &copy), "18 tells the fuel", h.value, h.fuel, 0);
}

static void metering_off(void)
{
    static const struct step steps[] = {
        {0x01, 1, {10}, 15, 0, 0},
        {0x02, 0, {0}, 15, 0, 0},
        {0x03, 1, {10}, 15, 0, 0},
        {0x10, 6, {300, 0, 0, 0, 0, 0}, 0, 0, 0},
        {0x11, 2, {0, 256}, 0, 0, 0},
    };
    struct host h;
    dirty(&h);
    expect(ysh_machine_new(h.words, W + 1, false, 1) == 0, "new", 0, 0, 0);
    run(&h, "metering off", steps, sizeof steps / sizeof *steps);
}

/* Every code with every number of fields: zeros are fields of each, so that only their number can be malformed. */
static void every_code(void)
{
    static const uint64_t zeros[12];
    static const signed char wants[256] = {
        [0x00] = -2, [0x01] = 1, [0x02] = 0, [0x03] = 1, [0x04] = 2, [0x10] = 6, [0x11] = 2, [0x12] = 1, [0x13] = 4, [0x14] = 5,
        [0x20] = 8, [0x21] = 4, [0x22] = 1, [0x23] = 2, [0x24] = 4, [0x25] = 5, [0x26] = 5, [0x27] = 5, [0x28] = 1, [0x29] = 2, [0x30] = 6,
    };
    for (unsigned code = 0; code < 256; code++)
        for (size_t count = 0; count <= 12; count++) {
            struct host h, before;
            dirty(&h);
            expect(ysh_machine_new(h.words, W + 1, true, 64) == 0, "new", 0, 0, 0);
            before = h;
            uint8_t number = operate(&h, (uint8_t)code, count, zeros);
            int known = wants[code] > 0 || code == 0x02;
            if (known && count == (size_t)wants[code]) {
                expect(number != 18, "a whole line", code, count, number);
            } else {
                expect(number == 18 && h.value == 0 && h.fuel == 0, "18", code, count, number);
                expect(same(&h, &before), "18 changes nothing", code, count, 0);
            }
            expect(edges_kept(&h), "nothing past the ends", code, count, 0);
        }
}

/* The fuel column of a row, by the words that the header names. */
static uint64_t fuel_shown(const struct host *h, size_t len)
{
    return len >= W && h->words[164] == 1 ? h->words[163] : 0;
}

/* A call that answers this number and changes nothing; 19 leaves the out parameters too, 18 tells the row's fuel. */
static void stays(struct host *h, size_t len, uint8_t code, size_t count, uint8_t wanted, const char *what, uint64_t at)
{
    static const uint64_t zeros[MAX];
    struct host before = *h;
    h->value = h->fuel = MARK;
    uint8_t number = ysh_operate(h->words, len, h->bytes, BYTES, h->cells, CELLS, h->items, ITEMS, code, zeros, count, &h->value, &h->fuel);
    expect(number == wanted && same(h, &before), what, at, code, number);
    expect(h->value == (wanted == 19 ? MARK : 0), what, at, code, h->value);
    expect(h->fuel == (wanted == 19 ? MARK : fuel_shown(h, len)), what, at, code, h->fuel);
}

/* Every kind of operation is 19 on such a row; what is no operation is 18 before that: an unknown code, the making of a machine, a field
 * too many. */
static void not_in_form(struct host *h, size_t len, const char *what, uint64_t at)
{
    stays(h, len, 0x02, 0, 19, what, at);
    stays(h, len, 0x12, 1, 19, what, at);
    stays(h, len, 0x22, 1, 19, what, at);
    stays(h, len, 0x28, 1, 19, what, at);
    stays(h, len, 0x10, 6, 19, what, at);
    stays(h, len, 0xff, 0, 18, what, at);
    stays(h, len, 0x00, 2, 18, what, at);
    stays(h, len, 0x12, 2, 18, what, at);
}

/* The sizes of the memory and the table at 0, of 8 pages and 2 cells. */
static void sizes(const struct host *h, size_t len, uint8_t pages, uint8_t cells, const char *what, uint64_t at)
{
    uint64_t v = MARK;
    expect(pages_of(h, len, 0, &v) == pages && v == (pages == 0 ? 8 : MARK), what, at, pages, v);
    v = MARK;
    expect(cells_of(h, len, 0, &v) == cells && v == (cells == 0 ? 2 : MARK), what, at, cells, v);
}

/* The largest word that a place of a row may hold; 2^64-1 where any will do. */
static uint64_t largest(unsigned i)
{
    unsigned part = i < 128 ? i % 8 : i % 4;
    int flag = i < 128 ? part == 0 || part == 1 || part == 3 : i < 160 ? part == 0 : i == 164;
    return flag ? 1 : i >= 165 && i <= 167 ? UINT64_C(0xffffffff) : i >= 170 ? 2 : UINT64_MAX;
}

static void odd_rows(void)
{
    struct host h, made;
    dirty(&h);
    for (size_t len = 0; len < W; len++) {
        expect(ysh_machine_new(h.words, len, true, 64) == 19, "a short row", len, 0, 0);
        for (size_t i = 0; i <= W; i++)
            expect(h.words[i] == MARK, "a short row stays", len, i, 0);
    }
    expect(ysh_machine_new(NULL, 0, true, 64) == 19, "no row", 0, 0, 0);
    not_in_form(&h, W, "a row of anything", 0);
    sizes(&h, W, 19, 19, "a row of anything", 0);
    static const struct step steps[] = {
        {0x01, 1, {5}, 0, 0, 5}, {0x10, 6, {16, 0, 0, 8, 0, 0}, 0, 0, 5}, {0x20, 8, {8, 0, 0, 0, 2, 0, 0, 0}, 0, 0, 5}};
    expect(ysh_machine_new(h.words, W, true, 64) == 0 && edges_kept(&h), "new", 0, 0, 0);
    run(&h, "a row to spoil", steps, 3);
    made = h;
    for (size_t len = 0; len < W; len++) {
        not_in_form(&h, len, "a row cut short", len);
        sizes(&h, len, 19, 19, "a row cut short", len);
    }
    /* words that a machine cannot have, in any record, used or not: a flag above 1, a cost from 2^32 on, an answer above 2. A size
     * tests one record's flags, and no other word for its form */
    for (unsigned i = 0; i < W; i++) {
        if (largest(i) == UINT64_MAX)
            continue;
        uint64_t spoiled[] = {largest(i) + 1, largest(i) + 2, UINT64_C(1) << 32, UINT64_MAX};
        for (unsigned k = 0; k < sizeof spoiled / sizeof *spoiled; k++) {
            h = made;
            h.words[i] = spoiled[k];
            not_in_form(&h, W, "a spoiled word", i);
            sizes(&h, W, i < 8 ? 19 : 0, i >= 64 && i < 72 ? 19 : 0, "a size beside a spoiled word", i);
        }
        /* the largest word is in form: what is no operation is 18, and sizes are told, but where it makes a record unsound: 8 bytes are
         * no whole page of 64 KiB, and a maximum of 0 is below the minimum */
        h = made;
        h.words[i] = largest(i);
        uint8_t number = i == 1 || i == 3 || i == 67 ? 19 : 0;
        sizes(&h, W, number, number, "a size beside the largest word", i);
        stays(&h, W, 0xff, 0, 18, "the largest word", i);
    }
    /* any other word makes some machine, sound or not: the row is left as it was, and 19 leaves the out parameters */
    for (unsigned i = 0; i < W; i++) {
        if (made.words[i] == largest(i))
            continue;
        h = made;
        h.words[i] = made.words[i] + 1;
        struct host before = h;
        uint64_t zero = 0;
        h.value = h.fuel = MARK;
        uint8_t number = operate(&h, 0x12, 1, &zero);
        expect(same(&h, &before) && edges_kept(&h), "a size changes nothing", i, number, 0);
        expect(number == 0 || number == 19, "a size", i, number, 0);
        expect((h.value == MARK) == (number == 19) && (h.fuel == MARK) == (number == 19), "19 tells nothing else", i, number, h.value);
        if (i >= 170)
            expect(number == 0, "an answer of at most 2", i, number, 0);
        /* on a row in form the sizes are what 12 and 22 answer, refusals too */
        uint64_t v = MARK;
        uint8_t size = pages_of(&h, W, 0, &v);
        expect(size == number && v == h.value, "a size as 12 tells it", i, number, size);
        h.value = v = MARK;
        number = operate(&h, 0x22, 1, &zero);
        size = cells_of(&h, W, 0, &v);
        expect(size == number && v == h.value, "a size as 22 tells it", i, number, size);
    }
    /* records that are not sound: 19 in an operation and in both sizes */
    static const struct {
        unsigned at;
        uint64_t word;
    } unsound[] = {{5, 1}, {6, 1000}, {7, 17}, {7, 7}, {5, UINT64_MAX}, {6, 7}, {69, 1}, {70, 1000}, {71, 9}, {71, 1}, {69, UINT64_C(0x100000000)},
        {160, 9}, {161, 9}, {162, 9}, {160, UINT64_MAX}, {161, UINT64_MAX}};
    for (unsigned i = 0; i < sizeof unsound / sizeof *unsound; i++) {
        h = made;
        h.words[unsound[i].at] = unsound[i].word;
        stays(&h, W, 0x02, 0, 19, "unsound records", unsound[i].at);
        stays(&h, W, 0xff, 0, 18, "unsound records", unsound[i].at);
        sizes(&h, W, 19, 19, "sizes of unsound records", unsound[i].at);
    }
    /* buffers that do not hold the machine, of one kind or another, and more cells than a reference can say */
    static const struct {
        size_t bytes, cells, items;
        uint8_t number;
    } buffers[] = {{16, 8, 0, 0}, {15, 8, 0, 19}, {16, 7, 0, 19}, {16, (size_t)UINT64_C(0x100000000), 0, 0},
        {16, (size_t)UINT64_C(0x100000001), 0, 19}, {16, 8, (size_t)UINT64_C(0x100000001), 19}, {SIZE_MAX, 8, 0, 0}};
    for (unsigned i = 0; i < sizeof buffers / sizeof *buffers; i++) {
        uint64_t v = MARK;
        uint8_t number = ysh_memory_pages(made.words, W, buffers[i].bytes, buffers[i].cells, buffers[i].items, 0, &v);
        expect(number == buffers[i].number && v == (number == 0 ? 8 : MARK), "pages over such buffers", i, number, v);
        v = MARK;
        number = ysh_table_cells(made.words, W, buffers[i].bytes, buffers[i].cells, buffers[i].items, 0, &v);
        expect(number == buffers[i].number && v == (number == 0 ? 2 : MARK), "cells over such buffers", i, number, v);
    }
    /* sizes of unknown numbers */
    h = made;
    uint64_t v = MARK;
    static const uint64_t unknown[] = {1, 2, 7, 8, 9, UINT64_C(0x100000000), UINT64_MAX};
    for (unsigned i = 0; i < sizeof unknown / sizeof *unknown; i++) {
        expect(pages_of(&h, W, unknown[i], &v) == 16 && v == MARK, "unknown memory", unknown[i], v, 0);
        expect(cells_of(&h, W, unknown[i], &v) == 16 && v == MARK, "unknown table", unknown[i], v, 0);
    }
    expect(pages_of(&h, W, 0, &v) == 0 && v == 8, "pages", v, 0, 0);
    expect(cells_of(&h, W + 1, 0, &v) == 0 && v == 2, "cells", v, 0, 0);
    /* a number is unknown before its record is looked at */
    h = made;
    v = MARK;
    h.words[8] = h.words[72] = 2;
    expect(pages_of(&h, W, 1, &v) == 16 && v == MARK, "unknown before its record", v, 0, 0);
    expect(cells_of(&h, W, 1, &v) == 16 && v == MARK, "unknown before its record", v, 0, 0);
}

int main(void)
{
    expect(ysh_machine_words() == YSH_MACHINE_WORDS, "words", ysh_machine_words(), 0, 0);
    listing();
    every_kind();
    metering_off();
    every_code();
    odd_rows();
    printf("C machine: %ld checks, %ld failures\n", checks, failures);
    return failures != 0;
}
