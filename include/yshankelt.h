/* Yshankelt: loads and stores of a WebAssembly memory's bytes, the price of copying, and whole machines, for hosts in C.
 *
 * Every function takes every number. The result of a load or a store is document 01's number: 0 accepted, 9 outside
 * (pointer plus offset passes 2^64-1, or some byte lies past the end). A refusal leaves `out` and every byte alone.
 * What C must see to itself, since no function can test it: each pointer points to as many elements as the length beside it says (it may
 * be null where that is 0); an out parameter is not null; and what is written (an out parameter, a buffer without `const`) lies apart from
 * everything else that the call is given.
 * Link with the archive that `rt lib` writes in crates/yshankelt, out/libyshankelt.a there.
 */
#ifndef YSHANKELT_H
#define YSHANKELT_H

#include <stdbool.h>
#include <stddef.h>
#include <stdint.h>

#ifdef __cplusplus
extern "C" {
#endif

/* Loads. `out` gets the value's bits: 32 of them below zeros for i32 and f32, two's complement for a negative number. */

/* i32 load of the four bytes.
 * 0 and the bits in *out, or 9 and *out as it was. */
uint8_t ysh_load_i32(const uint8_t *bytes, size_t len, uint64_t ptr, uint64_t offset, uint64_t *out);

/* i64 load of the eight bytes.
 * 0 and the bits in *out, or 9 and *out as it was. */
uint8_t ysh_load_i64(const uint8_t *bytes, size_t len, uint64_t ptr, uint64_t offset, uint64_t *out);

/* f32 load of the four bytes: a float's bits stay as they are.
 * 0 and the bits in *out, or 9 and *out as it was. */
uint8_t ysh_load_f32(const uint8_t *bytes, size_t len, uint64_t ptr, uint64_t offset, uint64_t *out);

/* f64 load of the eight bytes: a float's bits stay as they are.
 * 0 and the bits in *out, or 9 and *out as it was. */
uint8_t ysh_load_f64(const uint8_t *bytes, size_t len, uint64_t ptr, uint64_t offset, uint64_t *out);

/* i32 load of a byte with its sign, as 32 bits.
 * 0 and the bits in *out, or 9 and *out as it was. */
uint8_t ysh_load_i32_8s(const uint8_t *bytes, size_t len, uint64_t ptr, uint64_t offset, uint64_t *out);

/* i32 load of a byte.
 * 0 and the bits in *out, or 9 and *out as it was. */
uint8_t ysh_load_i32_8u(const uint8_t *bytes, size_t len, uint64_t ptr, uint64_t offset, uint64_t *out);

/* i32 load of two bytes with their sign, as 32 bits.
 * 0 and the bits in *out, or 9 and *out as it was. */
uint8_t ysh_load_i32_16s(const uint8_t *bytes, size_t len, uint64_t ptr, uint64_t offset, uint64_t *out);

/* i32 load of two bytes.
 * 0 and the bits in *out, or 9 and *out as it was. */
uint8_t ysh_load_i32_16u(const uint8_t *bytes, size_t len, uint64_t ptr, uint64_t offset, uint64_t *out);

/* i64 load of a byte with its sign, as 64 bits.
 * 0 and the bits in *out, or 9 and *out as it was. */
uint8_t ysh_load_i64_8s(const uint8_t *bytes, size_t len, uint64_t ptr, uint64_t offset, uint64_t *out);

/* i64 load of a byte.
 * 0 and the bits in *out, or 9 and *out as it was. */
uint8_t ysh_load_i64_8u(const uint8_t *bytes, size_t len, uint64_t ptr, uint64_t offset, uint64_t *out);

/* i64 load of two bytes with their sign, as 64 bits.
 * 0 and the bits in *out, or 9 and *out as it was. */
uint8_t ysh_load_i64_16s(const uint8_t *bytes, size_t len, uint64_t ptr, uint64_t offset, uint64_t *out);

/* i64 load of two bytes.
 * 0 and the bits in *out, or 9 and *out as it was. */
uint8_t ysh_load_i64_16u(const uint8_t *bytes, size_t len, uint64_t ptr, uint64_t offset, uint64_t *out);

/* i64 load of four bytes with their sign, as 64 bits.
 * 0 and the bits in *out, or 9 and *out as it was. */
uint8_t ysh_load_i64_32s(const uint8_t *bytes, size_t len, uint64_t ptr, uint64_t offset, uint64_t *out);

/* i64 load of four bytes.
 * 0 and the bits in *out, or 9 and *out as it was. */
uint8_t ysh_load_i64_32u(const uint8_t *bytes, size_t len, uint64_t ptr, uint64_t offset, uint64_t *out);

/* Stores. `bits` is the value's bits; a narrowing store keeps the low ones. */

/* i32 store of four bytes.
 * 0 and the bytes written, or 9 and every byte as it was. */
uint8_t ysh_store_i32(uint8_t *bytes, size_t len, uint64_t ptr, uint64_t offset, uint32_t bits);

/* i64 store of eight bytes.
 * 0 and the bytes written, or 9 and every byte as it was. */
uint8_t ysh_store_i64(uint8_t *bytes, size_t len, uint64_t ptr, uint64_t offset, uint64_t bits);

/* f32 store of the four bytes of a float's bits.
 * 0 and the bytes written, or 9 and every byte as it was. */
uint8_t ysh_store_f32(uint8_t *bytes, size_t len, uint64_t ptr, uint64_t offset, uint32_t bits);

/* f64 store of the eight bytes of a float's bits.
 * 0 and the bytes written, or 9 and every byte as it was. */
uint8_t ysh_store_f64(uint8_t *bytes, size_t len, uint64_t ptr, uint64_t offset, uint64_t bits);

/* i32 store of the lowest byte.
 * 0 and the bytes written, or 9 and every byte as it was. */
uint8_t ysh_store_i32_8(uint8_t *bytes, size_t len, uint64_t ptr, uint64_t offset, uint32_t bits);

/* i32 store of the two lowest bytes.
 * 0 and the bytes written, or 9 and every byte as it was. */
uint8_t ysh_store_i32_16(uint8_t *bytes, size_t len, uint64_t ptr, uint64_t offset, uint32_t bits);

/* i64 store of the lowest byte.
 * 0 and the bytes written, or 9 and every byte as it was. */
uint8_t ysh_store_i64_8(uint8_t *bytes, size_t len, uint64_t ptr, uint64_t offset, uint64_t bits);

/* i64 store of the two lowest bytes.
 * 0 and the bytes written, or 9 and every byte as it was. */
uint8_t ysh_store_i64_16(uint8_t *bytes, size_t len, uint64_t ptr, uint64_t offset, uint64_t bits);

/* i64 store of the four lowest bytes.
 * 0 and the bytes written, or 9 and every byte as it was. */
uint8_t ysh_store_i64_32(uint8_t *bytes, size_t len, uint64_t ptr, uint64_t offset, uint64_t bits);

/* The price in fuel of copying `len` bytes at `per_unit` bytes for a unit, rounded down.
 * With `per_unit` 0 it is 2^64-1 at every length, 0 too. */
uint64_t ysh_price(uint64_t len, uint32_t per_unit);

/* The price in fuel of copying `len` values of `size` bytes: the byte length is capped at 2^64-1 and then priced.
 * A table's reference counts 4 bytes. */
uint64_t ysh_price_values(uint64_t len, uint64_t size, uint32_t per_unit);

/* Machines: up to 8 memories, 8 tables and 8 element segments with fuel and a limiter, in a row of words that the host owns.
 * Words past the first YSH_MACHINE_WORDS are left alone. A refusal changes no buffer and no size; fuel that a growth paid stays paid, and
 * an answer that the limiter gave stays heard. What is no operation is 18 before the row is looked at. A row is 19 that has fewer words, or
 * a word past what is said below, in a record that is not in use too, or a machine that its buffers do not hold: nothing changes then,
 * `value` and `fuel` neither. `words`, `bytes`, `cells`, `items`, `fields`, `value` and `fuel` are places of their own; a pointer may be
 * null where its length is 0, but `value` and `fuel` must not be null.
 * In order, with 1 for yes, 64-bit, 64 KiB pages or external, else 0, and no other word there:
 *   0    8 memories: 64-bit, 64 KiB pages, minimum, bounded, maximum, start, room and size in bytes
 *   64   8 tables: external, 64-bit, minimum, bounded, maximum, start, room and size in cells
 *   128  8 segments: external, start, places, size
 *   160  how many memories, tables and segments there are
 *   163  fuel left, metering, bytes copied a unit (below 2^32), units a byte translated, units a byte validated (likewise)
 *   168  limiter: answers in the script, answers heard, and the script's 16 places (each at most 2) */
#define YSH_MACHINE_WORDS 186

/* How many words a machine takes.
 * Always YSH_MACHINE_WORDS. */
size_t ysh_machine_words(void);

/* A fresh machine: fuel 0, no limiter, no instances; `copied` bytes copied cost one unit of fuel.
 * 0 and the machine's words, or 19 and every word as it was where there are fewer than YSH_MACHINE_WORDS. */
uint8_t ysh_machine_new(uint64_t *words, size_t words_len, bool metering, uint32_t copied);

/* One operation, answered as a session answers a line with this code and these fields that is not its first line.
 * The number; *value is the value's bits, or a refusal's amount (0 but for 7), and *fuel the fuel left, 0 with metering off or where the
 * row is too short. 19 leaves *value and *fuel as they were.
 * `bytes`, `cells` and `items` hold the memories, tables and segments: the same ones, as the last operation left them, at each call. */
uint8_t ysh_operate(uint64_t *words, size_t words_len, uint8_t *bytes, size_t bytes_len, uint64_t *cells, size_t cells_len,
                    uint64_t *items, size_t items_len, uint8_t code, const uint64_t *fields, size_t fields_len,
                    uint64_t *value, uint64_t *fuel);

/* A memory's size in pages; the lengths are those of the buffers that ysh_operate is given, whose content is not needed.
 * On a row in form it is what 12 answers: 0 and the size in *value, or *value as it was and 19 for a row of fewer words or a machine that
 * its buffers do not hold, 16 for an unknown number. Of the form that record's flags alone are tested, 19 where one is above 1; a word past
 * what is said above elsewhere is 19 to 12 and not here. */
uint8_t ysh_memory_pages(const uint64_t *words, size_t words_len, size_t bytes_len, size_t cells_len, size_t items_len, uint64_t memory,
                         uint64_t *value);

/* A table's size in cells, likewise: what 22 answers. */
uint8_t ysh_table_cells(const uint64_t *words, size_t words_len, size_t bytes_len, size_t cells_len, size_t items_len, uint64_t table,
                        uint64_t *value);

#ifdef __cplusplus
}
#endif

#endif
