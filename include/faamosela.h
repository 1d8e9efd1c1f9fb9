/* Navigation in outlines that are stored as rows of parentheses, one bit per parenthesis.
 *
 * How to use the functions:
 *
 *   1. Fill a row, or convert a text to a row with bp_read_text or bpw_read_text.
 *   2. Allocate a node buffer ("SIZE OF THE NODE BUFFER") and fill it with bp_build or bpw_build.
 *      A build accepts memory with any content.
 *   3. Call the other functions with the same row, `bits`, node buffer and `block`.
 *
 * A slice is a pointer and a length. Every function exists twice, for two kinds of slices:
 *
 *   name       slices                     rows              prefer it
 *   bp_NAME    bytes                      to 4,096 bits     if the host has bytes only and the rows are small
 *   bpw_NAME   64-bit words and entries   to 2^32 bits      otherwise: it copies nothing and takes large rows
 *
 * Each call of a bp_ function decodes its whole row and its whole node buffer, up to 64 words and 3,069 entries.
 *
 *
 * EXAMPLE
 *
 * This program converts a text, builds the node buffer and prints 3, the handle of the parent of the outline node 4:
 *
 *   #include "faamosela.h"
 *   #include <stdio.h>
 *   #include <string.h>
 *
 *   int main(void) {
 *       const char *text = "(()(()))";
 *       uint64_t words[1];    // room for 64 bits
 *       int64_t nodes[6];     // "SIZE OF THE NODE BUFFER": 3 * (1 + 1) entries
 *       int64_t bits = bpw_read_text((const uint8_t *)text, strlen(text), words, 1);
 *       if (bits < 0 || bpw_build(words, 1, (uint64_t)bits, nodes, 6, 512) != 0)
 *           return 1;
 *       int64_t parent = bpw_parent(words, 1, (uint64_t)bits, nodes, 6, 512, 4);
 *       printf("%lld\n", (long long)parent);
 *       return 0;
 *   }
 *
 *
 * HOW TO READ THE COMMENTS
 *
 *   - Some comments have a line `Exactly`. This line is the definition and holds for every row.
 *     The sentence before it explains a row that is one tree ("TERMS").
 *   - The comments write close(i) for the value that bp_close or bpw_close returns for the position i, and likewise for the
 *     other functions.
 *   - If such an inner function returns -1 or a refusal, the outer function returns the same value. Only the functions that
 *     list children can write this value to `out` instead. Their comments say when.
 *
 *
 * WARNING: WRONG ANSWERS FROM A NODE BUFFER THAT IS NOT AS BUILT
 *
 * A node buffer is "as built" if it begins with exactly the entries that a build writes for this row, `bits` and `block`.
 * With such a buffer every function returns what its comment says, and never refusal 8.
 * With any other buffer a function can return a WRONG ANSWER instead of refusal 8. A wrong position is still below `bits`.
 * Build again after each change of the row, `bits` or `block`.
 * Test every node buffer that you did not build yourself with bp_as_built or bpw_as_built before you use it.
 *
 *
 * THE LIBRARIES
 *
 * The functions live in two static libraries for Linux on x86-64:
 *
 *   library                      functions
 *   crates/capi/out/libcapi.a    bp_build, bp_close, bp_enclose and bp_is_ancestor
 *   crates/probe/out/libprobe.a  all other functions of this header
 *
 * Run `rt lib` in crates/capi and in crates/probe. `rt` is the tool of the Rattle kit. It proves the code and writes the
 * libraries. No function is in both libraries, so a program can link both.
 * They need only the C library. This command, in the root folder of the repository, links the program example.c:
 *
 *   cc -Iinclude example.c -Lcrates/capi/out -Lcrates/probe/out -lcapi -lprobe -o example
 *
 *
 * TERMS
 *
 *   row           An array of 64-bit words and a bit count `bits`. Bit i of the row is bit (i mod 64) of word (i div 64),
 *                 where bit 0 of a word is its least significant bit. Only the first bits / 64 words, rounded up, are used.
 *                 Bits of the last used word from position `bits` on are ignored.
 *                 The argument `row` of a bp_ function is the array only, without `bits`. So is `words` of a bpw_ function.
 *   open bit      A 1 bit. It stands for `(`.
 *   close bit     A 0 bit. It stands for `)`.
 *   position      The index of a bit in the row, from 0.
 *   E(k)          The excess: the number of open bits minus the number of close bits among the first k bits. E(0) is 0.
 *   outline       The tree that a row encodes. Each pair of matching parentheses is one outline node.
 *   one tree      A row is one tree if its first bit is an open bit and the matching close bit is its last bit.
 *   root          The outline node of the first and the last bit, in a row that is one tree. Its handle is 0.
 *   handle        A position below `bits` whose bit is an open bit. If this open bit has a matching close bit, the handle
 *                 names the outline node of this pair. The functions accept every open bit as a handle.
 *   level         The number of outline nodes around an outline node. The root has level 0.
 *   block         The row is cut into blocks. The argument `block` is the number of bits per block: a multiple of 8 from 8
 *                 to 65,536. The last block may be shorter. Use 512 if you have no reason for another value: the benchmark
 *                 (docs/SPEED.md) uses it too.
 *   node buffer   An index over the row that makes searches fast. It stores a binary tree over the blocks, the min-max tree.
 *                 Each node of that tree covers some consecutive bits. It has three signed 64-bit entries, in this order:
 *                 total, the excess after its last bit; least and greatest, the least and the greatest excess after any of
 *                 its bits. All three are relative to the excess before its first bit.
 *                 The entries of a node that covers no bit are 0.
 *                 bp_build and bpw_build write the node buffer. The other functions only read it.
 *
 * The row `(()(()))` has 8 bits and the single word 0x1b. Its handles are 0, 1, 3 and 4.
 * The outline node 0 has the children 1 and 3. The outline node 3 has the child 4.
 *
 *
 * SIZE OF THE NODE BUFFER
 *
 *   L = bits / block, rounded up
 *   P = the least power of two that is at least L
 *   I = P - 1, but at least 1
 *   number of entries = 3 * (L + I), or 0 if `bits` is 0
 *
 * For 4,096 bits, `block` = 8 needs the most entries: 3,069. An entry has eight bytes.
 *
 *
 * ARGUMENTS
 *
 *   - The order is: the array of the row, its length, `bits`; `nodes`, `nodes_len`, `block`; the function's own arguments.
 *     The array is the argument `row` of a bp_ function and the argument `words` of a bpw_ function.
 *   - The text readers are bp_read_text and bpw_read_text. They take `text`, `text_len`, the array of the row and its
 *     length. They have no argument `bits`.
 *   - Apart from the text readers, the functions without node buffer are root, first_child, is_leaf and one_tree, each with
 *     both prefixes. They do not have the arguments `nodes`, `nodes_len` and `block`.
 *   - Each slice is a pointer followed by a length. The length counts elements of the pointer's type.
 *
 * The caller has these duties:
 *
 *   - A pointer must not be null. If the length is 0, any aligned non-null pointer is allowed.
 *   - A pointer must be aligned for its type.
 *   - A pointer must point to as many readable elements as the length says. They must also be writable if the function
 *     writes to the slice.
 *   - A slice that the function writes must not overlap any other slice of the same call.
 *   - The thread must have enough free stack. "MEMORY AND THREADS" says what the bp_ functions need.
 *
 * Nothing else is required of a caller. Every function accepts any content of its slices and any value of its numbers.
 * It never crashes and always returns. It never accesses memory of the caller outside its slices.
 *
 *
 * RETURN VALUES
 *
 * Every function returns one int64_t:
 *
 *   0 or more   A position, a count, 1 for yes, 0 for no, or 0 for a successful build.
 *   -1          Nothing: there is no such position. This is a normal answer and not an error.
 *               A function with an argument `at` also returns -1 if `at` is not below `bits`.
 *               A function with an argument `level` or `levels` also returns -1 if this argument is above `bits`.
 *               In both cases the refusals 1 to 5 are tested first.
 *   -2 to -9    Refusal k has the value -(k + 1), which is -1 - k. The function cannot answer. The table has the reasons:
 *
 *   refusal   value   reason
 *      1       -2     `block` is 0, above 65,536 or not a multiple of 8.
 *      2       -3     There are too many bits: more than 4,096 in a bp_ function, more than 2^32 in a bpw_ function.
 *      3       -4     The row has too few words. It needs bits / 64 words, rounded up.
 *      4       -5     The node buffer has too few entries. "SIZE OF THE NODE BUFFER" gives the number.
 *      5       -6     `node`, `ancestor` or `descendant` is not a handle: it is not below `bits`, or its bit is a close bit.
 *      6       -7     The text contains a byte other than `(` and `)`.
 *      7       -8     The row is not one tree. No function of this header returns this refusal; the program `levels` does.
 *      8       -9     The node buffer does not fit the row. A search met an entry outside -2^32 to 2^32, or the entries
 *                     announced a position that the search then did not find.
 *
 * The refusals are tested in the order 1, 2, 3, 4, 5, 8. bp_read_text and bpw_read_text test them in the order 2, 6, 3.
 * The first refusal that applies is returned. The comment of each function lists the refusals that it can return.
 * When a function returns a refusal, all slices are unchanged.
 *
 *
 * MEMORY AND THREADS
 *
 *   - No function keeps a pointer after it returns, allocates memory or uses global state.
 *     So calls may run in parallel on the same slices, as long as none of them writes to these slices.
 *   - A bp_ function decodes the row and the node buffer into local arrays. These arrays need about 25 KB of stack.
 *     bp_children and bp_rev_children also have an array for `out`. Their arrays need about 58 KB of stack together.
 *   - A bpw_ function works on the slices without a copy.
 *   - On a little-endian machine, such as x86-64, a node buffer from bp_build has the same bytes as the int64_t array from
 *     bpw_build for the same row, `bits` and `block`. */
#ifndef FAAMOSELA_H
#define FAAMOSELA_H

#include <stddef.h>
#include <stdint.h>

#ifdef __cplusplus
extern "C" {
#endif

/* ==== Functions over byte slices, for rows of up to 4,096 bits ====
 *
 * These items have eight bytes each: a word of the row, an entry of the node buffer, and a value that bp_children or
 * bp_rev_children writes. The least significant byte comes first. Negative values are in two's complement.
 * Lengths are in bytes. If the length of a row, a node buffer or `out` is not a multiple of 8, the one to seven bytes at its
 * end are ignored and keep their value.
 * A text has one byte per parenthesis. Its length need not be a multiple of 8. More than 4,096 bytes are refusal 2. */

/* ---- libcapi.a ---- */

/* Writes the node buffer of the row. Returns 0 on success. The memory of `nodes` may have any content before the call.
 * Only the entries that the row needs are written. All later bytes keep their value.
 * Refusals: 1, 2, 3, 4. */
int64_t bp_build(const uint8_t *row, size_t row_len, uint64_t bits,
                 uint8_t *nodes, size_t nodes_len, uint64_t block);

/* Returns the position of the close bit that matches the open bit at `at`, or -1 if there is none.
 * Exactly, for any bit at `at`: fwd_search(at, -1).
 * Refusals: 1, 2, 3, 4, 8. */
int64_t bp_close(const uint8_t *row, size_t row_len, uint64_t bits,
                 const uint8_t *nodes, size_t nodes_len, uint64_t block, uint64_t at);

/* If the bit at `at` belongs to a pair of parentheses, returns the handle of the nearest pair around that pair.
 * Returns -1 if there is none.
 * Exactly: bwd_search(at, -1) if the bit at `at` is an open bit, and bwd_search(at, -2) if it is a close bit.
 * Refusals: 1, 2, 3, 4, 8. */
int64_t bp_enclose(const uint8_t *row, size_t row_len, uint64_t bits,
                   const uint8_t *nodes, size_t nodes_len, uint64_t block, uint64_t at);

/* Returns -1 if `ancestor` has no matching close bit; else 1 if the outline node `ancestor` contains the outline node
 * `descendant` or both are the same; else 0.
 * Exactly: -1 if `ancestor` has no matching close bit; else 1 if ancestor <= descendant and descendant < close(ancestor);
 * else 0.
 * Both handles are tested for refusal 5.
 * Refusals: 1, 2, 3, 4, 5, 8. */
int64_t bp_is_ancestor(const uint8_t *row, size_t row_len, uint64_t bits,
                       const uint8_t *nodes, size_t nodes_len, uint64_t block,
                       uint64_t ancestor, uint64_t descendant);

/* ---- libprobe.a ---- */

/* Searches forward from the position `at`. Returns the least j with at < j < bits and E(j + 1) = E(at + 1) + r.
 * Returns -1 if there is none.
 * Refusals: 1, 2, 3, 4, 8. */
int64_t bp_fwd_search(const uint8_t *row, size_t row_len, uint64_t bits,
                      const uint8_t *nodes, size_t nodes_len, uint64_t block, uint64_t at, int64_t r);

/* Searches backward from the position `at`. Returns the greatest j with j < at and E(j) = E(at) + r.
 * Returns -1 if there is none.
 * Refusals: 1, 2, 3, 4, 8. */
int64_t bp_bwd_search(const uint8_t *row, size_t row_len, uint64_t bits,
                      const uint8_t *nodes, size_t nodes_len, uint64_t block, uint64_t at, int64_t r);

/* Returns the position of the open bit that matches the close bit at `at`, or -1 if there is none.
 * Exactly, for any bit at `at`: bwd_search(at, -1).
 * Refusals: 1, 2, 3, 4, 8. */
int64_t bp_open(const uint8_t *row, size_t row_len, uint64_t bits,
                const uint8_t *nodes, size_t nodes_len, uint64_t block, uint64_t at);

/* Returns 0, the handle of the root, or -1 if `bits` is 0.
 * Returns 0 if the row has a bit, even if bit 0 is a close bit.
 * Refusals: 2, 3. */
int64_t bp_root(const uint8_t *row, size_t row_len, uint64_t bits);

/* Returns the handle of the first child of the outline node `node`, or -1 if it has no child.
 * Exactly: node + 1 if that is below `bits` and its bit is an open bit, otherwise -1.
 * Refusals: 2, 3, 5. */
int64_t bp_first_child(const uint8_t *row, size_t row_len, uint64_t bits, uint64_t node);

/* Tests whether the bit after `node` is a close bit. If it is, the outline node `node` has no child.
 * Returns 1 if that bit is a close bit. Returns 0 if that bit is an open bit or if `node` is the last position.
 * Refusals: 2, 3, 5. */
int64_t bp_is_leaf(const uint8_t *row, size_t row_len, uint64_t bits, uint64_t node);

/* Returns the handle of the outline node directly around `node`, or -1 if there is none.
 * Exactly: enclose(node).
 * Refusals: 1, 2, 3, 4, 5, 8. */
int64_t bp_parent(const uint8_t *row, size_t row_len, uint64_t bits,
                  const uint8_t *nodes, size_t nodes_len, uint64_t block, uint64_t node);

/* Returns the handle of the last child of the outline node `node`, or -1 if it has no child.
 * Exactly: -1 if first_child(node) is -1, otherwise open(close(node) - 1).
 * Refusals: 1, 2, 3, 4, 5, 8. */
int64_t bp_last_child(const uint8_t *row, size_t row_len, uint64_t bits,
                      const uint8_t *nodes, size_t nodes_len, uint64_t block, uint64_t node);

/* Returns the handle of the next child of the same parent, or -1 if `node` is the last child.
 * Exactly: close(node) + 1 if that is below `bits` and its bit is an open bit, otherwise -1.
 * Refusals: 1, 2, 3, 4, 5, 8. */
int64_t bp_next_sibling(const uint8_t *row, size_t row_len, uint64_t bits,
                        const uint8_t *nodes, size_t nodes_len, uint64_t block, uint64_t node);

/* Returns the handle of the previous child of the same parent, or -1 if `node` is the first child.
 * Exactly: open(node - 1) if `node` is above 0 and the bit at node - 1 is a close bit, otherwise -1.
 * Refusals: 1, 2, 3, 4, 5, 8. */
int64_t bp_previous_sibling(const uint8_t *row, size_t row_len, uint64_t bits,
                            const uint8_t *nodes, size_t nodes_len, uint64_t block, uint64_t node);

/* Returns the handle of the ancestor that is `levels` levels above the outline node `node`, or -1 if there is none.
 * Here `levels` is a distance: 0 gives `node` itself, 1 gives its parent.
 * Exactly: `node` itself if `levels` is 0, otherwise bwd_search(node, -levels).
 * Refusals: 1, 2, 3, 4, 5, 8. */
int64_t bp_level_ancestor(const uint8_t *row, size_t row_len, uint64_t bits,
                          const uint8_t *nodes, size_t nodes_len, uint64_t block,
                          uint64_t node, uint64_t levels);

/* Returns the handle of the next outline node on the level of `node`, or -1 if there is none.
 * Exactly: fwd_search(close(node), 1).
 * Refusals: 1, 2, 3, 4, 5, 8. */
int64_t bp_level_next(const uint8_t *row, size_t row_len, uint64_t bits,
                      const uint8_t *nodes, size_t nodes_len, uint64_t block, uint64_t node);

/* Returns the handle of the previous outline node on the level of `node`, or -1 if there is none.
 * Exactly: open(bwd_search(node, 1)).
 * Refusals: 1, 2, 3, 4, 5, 8. */
int64_t bp_level_prev(const uint8_t *row, size_t row_len, uint64_t bits,
                      const uint8_t *nodes, size_t nodes_len, uint64_t block, uint64_t node);

/* Returns the handle of the first outline node on the level `level`, or -1 if there is none.
 * Exactly: 0 if `level` is 0 and `bits` is not 0, otherwise fwd_search(0, level).
 * Refusals: 1, 2, 3, 4, 8. */
int64_t bp_level_leftmost(const uint8_t *row, size_t row_len, uint64_t bits,
                          const uint8_t *nodes, size_t nodes_len, uint64_t block, uint64_t level);

/* For a row that is one tree, returns the handle of the last outline node on the level `level`, or -1 if there is none.
 * Exception: if the root has no child, it returns -1 for level 0, although the root is on level 0.
 * Exactly: -1 if `ones` is 0, otherwise open(bwd_search(2 * ones - 1, level)). `ones` is the number of open bits.
 * For any other row only `Exactly` holds. For example, it gives 0 for the row `()()` and level 0.
 * Refusals: 1, 2, 3, 4, 8. */
int64_t bp_level_rightmost(const uint8_t *row, size_t row_len, uint64_t bits,
                           const uint8_t *nodes, size_t nodes_len, uint64_t block, uint64_t level);

/* Returns 1 if the row is one tree ("TERMS"), otherwise 0.
 * Refusals: 2, 3. */
int64_t bp_one_tree(const uint8_t *row, size_t row_len, uint64_t bits);

/* Returns 1 if the node buffer begins with exactly the entries that bp_build writes for this row, `bits` and `block`.
 * Otherwise returns 0.
 * Refusals: 1, 2, 3, 4. */
int64_t bp_as_built(const uint8_t *row, size_t row_len, uint64_t bits,
                    const uint8_t *nodes, size_t nodes_len, uint64_t block);

/* Converts a text of parentheses to a row: each `(` becomes an open bit, each `)` a close bit.
 * Returns the number of bits, which is text_len. The row needs room for text_len / 64 words, rounded up.
 * Only the words that the bits need are written. All later bytes keep their value.
 * Unused bits of the last written word are 0.
 * Refusals: 2, 6, 3, tested in this order. */
int64_t bp_read_text(const uint8_t *text, size_t text_len, uint8_t *row, size_t row_len);

/* Writes the handles of the children of the outline node `node` to `out`, from the first to the last, and then -1.
 * Exactly: writes first_child(node), then next_sibling(v) after each position v that it writes, up to and with the first -1.
 * If the row is not one tree, bp_children and bp_rev_children can list different handles. For the row `(()` and `node` = 0,
 * bp_children writes 1 and -1, and bp_rev_children writes only -1.
 *
 * Returns the number of values that it writes. This count includes the final -1 and a written refusal.
 * Stops when `out` is full. Bytes after the written values keep their value.
 * `out` was too small if the last written value is not -1, or if the count is 0.
 * Size of `out`: 8 * (bits + 2) bytes always suffice. With a node buffer as built, one value per child and the final -1
 * are enough.
 *
 * Returned refusals, with no value written: 1, 2, 3, 4, 5, for wrong arguments. Refusal 8 is never returned, because the
 * first child needs no search.
 * Written refusal, followed by the final -1: 8, as the value -9, if the search for the next child refuses. This happens
 * only if the node buffer is not as built. */
int64_t bp_children(const uint8_t *row, size_t row_len, uint64_t bits,
                    const uint8_t *nodes, size_t nodes_len, uint64_t block,
                    uint64_t node, uint8_t *out, size_t out_len);

/* Writes the handles of the children of the outline node `node` to `out`, from the last to the first, and then -1.
 * Exactly: writes last_child(node), then previous_sibling(v) after each position v that it writes, up to and with the
 * first -1.
 * The returned count, the end of the writing and the size of `out` are as for bp_children.
 *
 * Returned refusals, with no value written: 1, 2, 3, 4, 5, for wrong arguments, and 8 if the search for the last child
 * refuses.
 * Written refusals, followed by the final -1:
 *   8, as the value -9, if the search for the previous child refuses;
 *   5, as the value -6, if the value written before it is the position of a close bit.
 * Refusal 8 and the written refusal 5 occur only if the node buffer is not as built. */
int64_t bp_rev_children(const uint8_t *row, size_t row_len, uint64_t bits,
                        const uint8_t *nodes, size_t nodes_len, uint64_t block,
                        uint64_t node, uint8_t *out, size_t out_len);

/* ==== Functions over words and entries, for rows of up to 2^32 bits. All are in libprobe.a ====
 *
 * bpw_NAME returns what bp_NAME returns, except that refusal 2 starts above 2^32 bits. The line `Exactly` of bp_NAME holds
 * for both. Lengths are in words and entries. The functions work on the slices directly, without a copy. */

/* Writes the node buffer of the row. Returns 0 on success. The memory of `nodes` may have any content before the call.
 * Only the entries that the row needs are written. All later elements keep their value.
 * Refusals: 1, 2, 3, 4. */
int64_t bpw_build(const uint64_t *words, size_t words_len, uint64_t bits,
                  int64_t *nodes, size_t nodes_len, uint64_t block);

/* Returns the position of the close bit that matches the open bit at `at`, or -1 if there is none.
 * Refusals: 1, 2, 3, 4, 8. */
int64_t bpw_close(const uint64_t *words, size_t words_len, uint64_t bits,
                  const int64_t *nodes, size_t nodes_len, uint64_t block, uint64_t at);

/* If the bit at `at` belongs to a pair of parentheses, returns the handle of the nearest pair around that pair.
 * Returns -1 if there is none.
 * Refusals: 1, 2, 3, 4, 8. */
int64_t bpw_enclose(const uint64_t *words, size_t words_len, uint64_t bits,
                    const int64_t *nodes, size_t nodes_len, uint64_t block, uint64_t at);

/* Returns -1 if `ancestor` has no matching close bit; else 1 if the outline node `ancestor` contains the outline node
 * `descendant` or both are the same; else 0.
 * Both handles are tested for refusal 5.
 * Refusals: 1, 2, 3, 4, 5, 8. */
int64_t bpw_is_ancestor(const uint64_t *words, size_t words_len, uint64_t bits,
                        const int64_t *nodes, size_t nodes_len, uint64_t block,
                        uint64_t ancestor, uint64_t descendant);

/* Searches forward from the position `at`. Returns the least j with at < j < bits and E(j + 1) = E(at + 1) + r.
 * Returns -1 if there is none.
 * Refusals: 1, 2, 3, 4, 8. */
int64_t bpw_fwd_search(const uint64_t *words, size_t words_len, uint64_t bits,
                       const int64_t *nodes, size_t nodes_len, uint64_t block, uint64_t at, int64_t r);

/* Searches backward from the position `at`. Returns the greatest j with j < at and E(j) = E(at) + r.
 * Returns -1 if there is none.
 * Refusals: 1, 2, 3, 4, 8. */
int64_t bpw_bwd_search(const uint64_t *words, size_t words_len, uint64_t bits,
                       const int64_t *nodes, size_t nodes_len, uint64_t block, uint64_t at, int64_t r);

/* Returns the position of the open bit that matches the close bit at `at`, or -1 if there is none.
 * Refusals: 1, 2, 3, 4, 8. */
int64_t bpw_open(const uint64_t *words, size_t words_len, uint64_t bits,
                 const int64_t *nodes, size_t nodes_len, uint64_t block, uint64_t at);

/* Returns 0, the handle of the root, or -1 if `bits` is 0.
 * Returns 0 if the row has a bit, even if bit 0 is a close bit.
 * Refusals: 2, 3. */
int64_t bpw_root(const uint64_t *words, size_t words_len, uint64_t bits);

/* Returns the handle of the first child of the outline node `node`, or -1 if it has no child.
 * Refusals: 2, 3, 5. */
int64_t bpw_first_child(const uint64_t *words, size_t words_len, uint64_t bits, uint64_t node);

/* Tests whether the bit after `node` is a close bit. If it is, the outline node `node` has no child.
 * Returns 1 if that bit is a close bit. Returns 0 if that bit is an open bit or if `node` is the last position.
 * Refusals: 2, 3, 5. */
int64_t bpw_is_leaf(const uint64_t *words, size_t words_len, uint64_t bits, uint64_t node);

/* Returns the handle of the outline node directly around `node`, or -1 if there is none.
 * Refusals: 1, 2, 3, 4, 5, 8. */
int64_t bpw_parent(const uint64_t *words, size_t words_len, uint64_t bits,
                   const int64_t *nodes, size_t nodes_len, uint64_t block, uint64_t node);

/* Returns the handle of the last child of the outline node `node`, or -1 if it has no child.
 * Refusals: 1, 2, 3, 4, 5, 8. */
int64_t bpw_last_child(const uint64_t *words, size_t words_len, uint64_t bits,
                       const int64_t *nodes, size_t nodes_len, uint64_t block, uint64_t node);

/* Returns the handle of the next child of the same parent, or -1 if `node` is the last child.
 * Refusals: 1, 2, 3, 4, 5, 8. */
int64_t bpw_next_sibling(const uint64_t *words, size_t words_len, uint64_t bits,
                         const int64_t *nodes, size_t nodes_len, uint64_t block, uint64_t node);

/* Returns the handle of the previous child of the same parent, or -1 if `node` is the first child.
 * Refusals: 1, 2, 3, 4, 5, 8. */
int64_t bpw_previous_sibling(const uint64_t *words, size_t words_len, uint64_t bits,
                             const int64_t *nodes, size_t nodes_len, uint64_t block, uint64_t node);

/* Returns the handle of the ancestor that is `levels` levels above the outline node `node`, or -1 if there is none.
 * Here `levels` is a distance: 0 gives `node` itself, 1 gives its parent.
 * Refusals: 1, 2, 3, 4, 5, 8. */
int64_t bpw_level_ancestor(const uint64_t *words, size_t words_len, uint64_t bits,
                           const int64_t *nodes, size_t nodes_len, uint64_t block,
                           uint64_t node, uint64_t levels);

/* Returns the handle of the next outline node on the level of `node`, or -1 if there is none.
 * Refusals: 1, 2, 3, 4, 5, 8. */
int64_t bpw_level_next(const uint64_t *words, size_t words_len, uint64_t bits,
                       const int64_t *nodes, size_t nodes_len, uint64_t block, uint64_t node);

/* Returns the handle of the previous outline node on the level of `node`, or -1 if there is none.
 * Refusals: 1, 2, 3, 4, 5, 8. */
int64_t bpw_level_prev(const uint64_t *words, size_t words_len, uint64_t bits,
                       const int64_t *nodes, size_t nodes_len, uint64_t block, uint64_t node);

/* Returns the handle of the first outline node on the level `level`, or -1 if there is none.
 * Refusals: 1, 2, 3, 4, 8. */
int64_t bpw_level_leftmost(const uint64_t *words, size_t words_len, uint64_t bits,
                           const int64_t *nodes, size_t nodes_len, uint64_t block, uint64_t level);

/* For a row that is one tree, returns the handle of the last outline node on the level `level`, or -1 if there is none.
 * Exception: if the root has no child, it returns -1 for level 0, although the root is on level 0.
 * For any other row only the line `Exactly` of bp_level_rightmost holds.
 * Refusals: 1, 2, 3, 4, 8. */
int64_t bpw_level_rightmost(const uint64_t *words, size_t words_len, uint64_t bits,
                            const int64_t *nodes, size_t nodes_len, uint64_t block, uint64_t level);

/* Returns 1 if the row is one tree ("TERMS"), otherwise 0.
 * Refusals: 2, 3. */
int64_t bpw_one_tree(const uint64_t *words, size_t words_len, uint64_t bits);

/* Returns 1 if the node buffer begins with exactly the entries that bpw_build writes for this row, `bits` and `block`.
 * Otherwise returns 0.
 * Refusals: 1, 2, 3, 4. */
int64_t bpw_as_built(const uint64_t *words, size_t words_len, uint64_t bits,
                     const int64_t *nodes, size_t nodes_len, uint64_t block);

/* Converts a text of parentheses to a row: each `(` becomes an open bit, each `)` a close bit.
 * Returns the number of bits, which is text_len. The row needs room for text_len / 64 words, rounded up.
 * Only the words that the bits need are written. All later words keep their value.
 * Unused bits of the last written word are 0.
 * Refusals: 2, 6, 3, tested in this order. */
int64_t bpw_read_text(const uint8_t *text, size_t text_len, uint64_t *words, size_t words_len);

/* Writes the handles of the children of the outline node `node` to `out`, from the first to the last, and then -1.
 * Returns the number of values that it writes. This count includes the final -1 and a written refusal.
 * Stops when `out` is full. Elements after the written values keep their value.
 * `out` was too small if the last written value is not -1, or if the count is 0.
 * Size of `out`: bits + 2 elements always suffice. With a node buffer as built, one element per child and one for the
 * final -1 are enough.
 * Returned refusals: 1, 2, 3, 4, 5. Written refusal: 8. The cases are those of bp_children. */
int64_t bpw_children(const uint64_t *words, size_t words_len, uint64_t bits,
                     const int64_t *nodes, size_t nodes_len, uint64_t block,
                     uint64_t node, int64_t *out, size_t out_len);

/* Writes the handles of the children of the outline node `node` to `out`, from the last to the first, and then -1.
 * The returned count, the end of the writing and the size of `out` are as for bpw_children.
 * Returned refusals: 1, 2, 3, 4, 5, 8. Written refusals: 5, 8. The cases are those of bp_rev_children. */
int64_t bpw_rev_children(const uint64_t *words, size_t words_len, uint64_t bits,
                         const int64_t *nodes, size_t nodes_len, uint64_t block,
                         uint64_t node, int64_t *out, size_t out_len);

#ifdef __cplusplus
}
#endif

#endif
