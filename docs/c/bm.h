/* The static library libbm.a (`bin/libbm`): rule files loaded and keys of names, for C.
   Each call answers with its code (0 done, else the number of the refusal); `tail` takes its other numbers. Where `tail` has
   fewer elements than a call needs, the answer is 255 and nothing is written. A refused call leaves `out` as it was. Any
   bytes and any numbers may be given: no call has to be checked first. A pointer must not be null, and `out` and `tail`
   must not overlap anything else that is lent. */
#ifndef BEIDER_MORSE_H
#define BEIDER_MORSE_H

#include <stddef.h>
#include <stdint.h>

/* The pack of a bundle of rule files. name_type: 0 Ashkenazi, 1 Generic, 2 Sephardic. tail[0]: bytes written, or the refusal's line
   (for 9 the length needed); tail[1]: the number of the file in the bundle. Refusals: 4, 9 to 20 (README.md has their table; 20: a
   context is an empty box, which nothing fits). It takes about 240 KB of stack. */
uint32_t bm_load(uint32_t name_type, const uint8_t *bundle, size_t bundle_length, uint8_t *out, size_t out_length, uint64_t *tail,
                 size_t tail_length);

/* Is this a pack? 0, or 5: what bm_load refuses in a rule is no rule of a pack. tail[0]: the first byte of the section at fault. */
uint32_t bm_check(const uint8_t *pack, size_t pack_length, uint64_t *tail, size_t tail_length);

/* A name's key, its languages guessed. name_type: 0 Ashkenazi, 1 Generic, 2 Sephardic; rule_type: 0 approx, 1 exact;
   concat: 0 or 1; limit: at most 256. tail[0]: bytes written, or the refusal's place; tail[1]: the flag. Refusals: 1 to 9. This and the
   two calls below take about 500 KB of stack. */
uint32_t bm_spell(uint32_t name_type, uint32_t rule_type, uint32_t concat, uint32_t limit, const uint8_t *pack, size_t pack_length,
                  const uint8_t *name, size_t name_length, uint8_t *out, size_t out_length, uint64_t *tail, size_t tail_length);

/* The same with given languages. kind: 0 Any, 1 None, 2 Some, whose languages are the bits. */
uint32_t bm_spell_given(uint32_t name_type, uint32_t rule_type, uint32_t concat, uint32_t limit, uint32_t kind, uint32_t bits,
                        const uint8_t *pack, size_t pack_length, const uint8_t *name, size_t name_length, uint8_t *out,
                        size_t out_length, uint64_t *tail, size_t tail_length);

/* The lines that the program keys prints for a block of names, each ended by LF: as many as fit into `out`. given: 0 guesses,
   else kind and bits count. 0: tail[0] bytes of the block were read (more than none where it holds a whole line), and tail[1] bytes
   written. 9: not even the first line fits; with tail[0] bytes in `out` it does (4294967295: it never will), and tail[1] is 0. */
uint32_t bm_spell_lines(uint32_t name_type, uint32_t rule_type, uint32_t concat, uint32_t limit, uint32_t given, uint32_t kind,
                        uint32_t bits, const uint8_t *pack, size_t pack_length, const uint8_t *block, size_t block_length,
                        uint8_t *out, size_t out_length, uint64_t *tail, size_t tail_length);

#endif
