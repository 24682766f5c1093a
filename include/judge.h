/*
 * The judge for protocol drawings: seven questions about a bench sheet.
 *
 * Link crates/exports/out/libexports.a, which `rt lib` makes in crates/exports (x86-64).
 *
 * Slices: each is a pointer and a length in bytes. Where the length is 0 the pointer may be null. Any bytes may be given as a
 * sheet. What a function may write to (`images`, `space`) must not overlap anything else that the same call is given.
 *
 * Numbers: terms, skeletons, strands and positions count from 0.
 *
 * Answers: one word, tag + 256 x + 65536 y + 2^32 z.
 *   tag 0   refused: x the number, y the skeleton (the faulty one for 10 to 14, else 0), z the place; nothing is written
 *   others  said at each function
 *
 * Refusals, and their place:
 *    1  the bytes end inside a record or before EN    where that record, or the missing next one, begins
 *    2  mark unknown or not allowed next              where the record begins (so for 3 to 7)
 *    3  edition not 1
 *    4  one record too many, or height outside 1 to 16
 *    5  term kind, argument or unused byte wrong
 *    6  term already on the sheet
 *    7  direction, term, node or OR direction wrong; NO or UO not an atom
 *    8  bytes after EN                                the first such byte
 *    9  key without inverse                           the lowest such term
 *   10  precedence has a cycle                        0
 *   11  non-originating atom carried                  the atom
 *   12  unique atom without exactly one originating strand     the atom
 *   13  a reception carries it, not after its origin  the atom
 *   14  variable of a non-originating atom in no event         the atom
 *   15  no such skeleton, term, or reception asked for         0
 *   16  lent space too short                          0
 * A question gives the sheet's refusal first (1 to 14), then 15, then 16.
 */
#ifndef JUDGE_H
#define JUDGE_H

#include <stddef.h>
#include <stdint.h>

#ifdef __cplusplus
extern "C" {
#endif

/* Is the sheet good? 1: z terms, x skeletons. */
uint64_t judge_sheet(const uint8_t *sheet, size_t sheet_len);

/* Is term t carried only within the terms of `set` in term `inside`? 1 yes, 2 no. */
uint64_t judge_within(const uint8_t *sheet, size_t sheet_len, uint8_t t, uint8_t inside, const uint8_t *set, size_t set_len);

/* Is the term derivable before the reception at (strand, position)? 1 yes, 2 no. */
uint64_t judge_derivable(const uint8_t *sheet, size_t sheet_len, uint8_t skeleton, uint8_t strand, uint8_t position,
                         uint8_t term);

/* How many of the sheet's terms are derivable before the reception at (strand, position)? 1: z of them. */
uint64_t judge_reach(const uint8_t *sheet, size_t sheet_len, uint8_t skeleton, uint8_t strand, uint8_t position);

/* Is the skeleton realized? 1 yes; 2: the first open reception is at strand x, position y. */
uint64_t judge_realized(const uint8_t *sheet, size_t sheet_len, uint8_t skeleton);

/*
 * Is `strands`, one byte for each source strand, a map from the source to the target? 1 yes; 2 no: x is the first broken rule.
 * Yes writes one byte for each of the sheet's terms to `images`: the image of a source variable, 255 elsewhere. Bytes beyond
 * stay. It takes 16 when `images` is shorter than that, before the rules are judged.
 * Rules: 1 one byte for each source strand, each a target strand; 2 heights and directions; 3 messages; 4 precedence; 5 NO atoms;
 * 6 UO atoms and their origins.
 */
uint64_t judge_map(const uint8_t *sheet, size_t sheet_len, uint8_t source, uint8_t target, const uint8_t *strands,
                   size_t strands_len, uint8_t *images, size_t images_len);

/*
 * Which maps are there from the source to the target? 1: z of them, written to `space` end to end in dictionary order, one byte
 * for each source strand. Bytes beyond stay. It takes 16 exactly when they do not fit; 279,936 bytes are always enough.
 */
uint64_t judge_list(const uint8_t *sheet, size_t sheet_len, uint8_t source, uint8_t target, uint8_t *space, size_t space_len);

/* The parts of an answer. */
static inline uint8_t judge_tag(uint64_t word) { return (uint8_t)(word & 0xff); }
static inline uint8_t judge_x(uint64_t word) { return (uint8_t)(word >> 8 & 0xff); }
static inline uint16_t judge_y(uint64_t word) { return (uint16_t)(word >> 16 & 0xffff); }
static inline uint32_t judge_z(uint64_t word) { return (uint32_t)(word >> 32); }

#ifdef __cplusplus
}
#endif

#endif
