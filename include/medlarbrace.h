/*
 * Medlarbrace: fronts, tallies and reliability of a network whose stations and pipes are of two
 * classes and fail in given orders. docs/USING.md walks through a study and explains the terms.
 *
 * Every call returns 0, or the number of a refusal: the first that applies, in the order in which the
 * call lists its numbers (what they mean is below).
 * A refused call has written nothing. A call that succeeds writes what its comment says: bytes and
 * words of a slice past that stay as they were.
 *
 * What the caller must ensure. A slice is a pointer and a count of elements (bytes, or 32-bit
 * words), and the pointer is valid, and aligned as its C type asks, for that count. A pointer may
 * be null only where its count is 0; a pointer without a count (written, start, sum ..) is never
 * null. What a call writes, slice or single value, overlaps nothing else that is lent to it; what
 * it only reads may overlap, so both records of a join may be the same. Nobody changes what is lent
 * while the call runs. Nothing is asked of the contents or of the numbers: any are judged.
 *
 * No call keeps a pointer, allocates, or has any state: calls from several threads may run at once.
 * Bytes of stack a call takes, compiled for x86-64 (bench/stack): search 18,960, convert 768,
 * reliability 696, write 432, tally_remove 360, open 344, round 344, series 280, parallel 264,
 * tally_add 232, weights 56, tally_new 48, ageing 8, tally_score 8; memset and memcpy come to that.
 */
#ifndef MEDLARBRACE_H
#define MEDLARBRACE_H

#include <stddef.h>
#include <stdint.h>

#ifdef __cplusplus
extern "C" {
#endif

/* The version of this interface: the major grows where a call's parameters, its numbers, the study
 * file or the tally's words change. CHANGELOG.md says what a caller edits. */
#define MEDLARBRACE_VERSION_MAJOR 4
#define MEDLARBRACE_VERSION_MINOR 0
#define MEDLARBRACE_VERSION "4.0"

/* Why a call refuses. 7 was given up to version 1.0 and is not used again. */
enum {
    MEDLARBRACE_FILE_LENGTH = 1,    /* file length outside 32 to 16,777,216 */
    MEDLARBRACE_COUNTS = 2,         /* nodes not 2 to 160, arcs above 1,024, rounds above 100,000; writer: arc bytes no multiple of 3 */
    MEDLARBRACE_ENDS = 3,           /* source or target is no node, or both are the same */
    MEDLARBRACE_SECTIONS = 4,       /* sections out of order, or too short */
    MEDLARBRACE_NODE_CLASS = 5,     /* a node's class above 2 */
    MEDLARBRACE_CLASS_SIZE = 6,     /* more than 64 members, nodes and arcs, of class 1 or of class 2 */
    MEDLARBRACE_ARC = 8,            /* an arc's end is no node, or both ends are the same */
    MEDLARBRACE_ROUNDS_LENGTH = 9,  /* too few round bytes; writer: another number of them than rounds x (n1 + n2) */
    MEDLARBRACE_ROUND_NUMBER = 10,  /* no such round */
    MEDLARBRACE_ORDER = 11,         /* an order that is not each member of its class once */
    MEDLARBRACE_NOT_RECORD = 12,    /* not a front record */
    MEDLARBRACE_SIZES_DIFFER = 13,  /* two records of differing class sizes */
    MEDLARBRACE_CHANCE = 14,        /* a chance above 1,000,000, or an age above 30 */
    MEDLARBRACE_OUTPUT_SHORT = 15,  /* an output slice too short */
    MEDLARBRACE_TALLY_SHORT = 21,   /* a tally slice too short */
    MEDLARBRACE_TALLY_UNSOUND = 22, /* a tally that is not sound: no calls can have left it; also where the score is not the cells' sum */
    MEDLARBRACE_TALLY_SIZES = 23,   /* a tally of other class sizes than the record */
    MEDLARBRACE_TALLY_FULL = 24,    /* a tally of 100,000 rounds already */
    MEDLARBRACE_NO_ROUNDS = 25,     /* a tally of no rounds where reliability is wanted */
    MEDLARBRACE_NOT_REMOVABLE = 31, /* a front that cannot be taken out of the tally */
    MEDLARBRACE_KIND = 32           /* an arc's kind above 5 */
};

/* Slices that suffice for any study. */
#define MEDLARBRACE_HEADER_WORDS 7     /* of medlarbrace_open */
#define MEDLARBRACE_RECORD_BYTES 133   /* 3 + 2 x 65 */
#define MEDLARBRACE_TALLY_WORDS 4229   /* 4 + 65 x 65 */
#define MEDLARBRACE_WEIGHTS_WORDS 65

/* ---- study files. An arc is three bytes: from, to, kind. Kinds 0, 1, 2 lead one way, kinds 3, 4, 5
 * both ways; kinds 0 and 3 never fail, 1 and 4 are of class 1, 2 and 5 of class 2, and a both-way arc
 * fails once for both ways. The members of a class are its nodes by number, then its arcs by place in
 * the section; n1 and n2 count both. An order names a member by its place in the class, from 0. */

/* Tests a study file, all but its orders. header, 7 words: nodes N, arcs A, rounds M, source s,
 * target t, class sizes n1 and n2.
 * Refusals: 1, 2, 3, 4, 5, 8, 32, 6, 9; 15 where header_len is under 7. */
uint32_t medlarbrace_open(const uint8_t *file, size_t file_len, uint32_t *header, size_t header_len);

/* Where a round's bytes stand: `*count` bytes from `file + *start` on, class 1's order and then
 * class 2's. They are within the file. Rounds are numbered from 0; orders are not tested.
 * Refusals: 1, 2, 3, 4, 5, 8, 32, 6, 9, 10. */
uint32_t medlarbrace_round(const uint8_t *file, size_t file_len, uint64_t round, uint64_t *start, uint64_t *count);

/* Searches a round: the record of its front into `record`, its length through `written`.
 * A record is n1, n2, k and then k pairs of bytes, 3 + 2k bytes: 133 suffice.
 * Refusals: 1, 2, 3, 4, 5, 8, 32, 6, 9, 10, 11, 15. */
uint32_t medlarbrace_search(const uint8_t *file, size_t file_len, uint64_t round, uint8_t *record, size_t record_len, uint64_t *written);

/* Writes a study file: node bytes (a class each; source and target may be of any), arc bytes (from,
 * to and kind of each), round bytes (round_count rounds, one after another), and the trailer; all
 * orders are tested. The length through `written`: nodes_len + arcs_len + rounds_len + 32.
 * Refusals: 2, 3, 5, 8, 32, 6, 9, 11, 15. */
uint32_t medlarbrace_write(const uint8_t *nodes, size_t nodes_len, const uint8_t *arcs, size_t arcs_len, const uint8_t *rounds, size_t rounds_len,
                           uint64_t source, uint64_t target, uint64_t round_count, uint8_t *file, size_t file_len, uint64_t *written);

/* Converts a study file of versions up to 2.1, with two bytes an arc, from and to, and orders by node
 * numbers: kind 0 throughout, orders by places, laid out as medlarbrace_write does; every round keeps
 * its front. Nothing in a file tells its form: every file is read as an old one here, and as a new
 * one by all other calls. All orders are tested. The length through `written`: N + 3A + M(n1 + n2) + 32,
 * n1 and n2 the old ones; old_len + 1,024 bytes suffice.
 * Refusals: 1, 2, 3, 4, 5, 6, 8, 9, 11, 15. */
uint32_t medlarbrace_convert(const uint8_t *old_file, size_t old_len, uint8_t *file, size_t file_len, uint64_t *written);

/* ---- front records: left and right are whole records, with the lengths that were written */

/* The record of two blocks in a row: it holds where both do. Length through `written`; 133 bytes
 * suffice.
 * Refusals: 12, 13, 15. */
uint32_t medlarbrace_series(const uint8_t *left, size_t left_len, const uint8_t *right, size_t right_len, uint8_t *record, size_t record_len, uint64_t *written);

/* The record of two blocks side by side: it holds where at least one does. As above.
 * Refusals: 12, 13, 15. */
uint32_t medlarbrace_parallel(const uint8_t *left, size_t left_len, const uint8_t *right, size_t right_len, uint8_t *record, size_t record_len, uint64_t *written);

/* ---- tallies: n1, n2, M, the score, and then (n1 + 1)(n2 + 1) cells, by l1 and within it by l2: in
 * how many of the M fronts the network holds while l1 members of class 1 and l2 of class 2 work. The
 * score is the sum of all cells. The cell of (l1, l2) is tally[4 + l1 * (n2 + 1) + l2]; 4,229 words
 * suffice for any sizes. */

/* A tally of no rounds; the slice may have held anything.
 * Refusals: 6, 21. */
uint32_t medlarbrace_tally_new(uint32_t n1, uint32_t n2, uint32_t *tally, size_t tally_len);

/* Adds a front: M grows by 1, each cell where the front holds by 1, and the score by the number of
 * these cells.
 * Refusals: 12, 21 to 24. */
uint32_t medlarbrace_tally_add(const uint8_t *record, size_t record_len, uint32_t *tally, size_t tally_len);

/* Takes a front out again: M falls by 1, each cell where the front holds by 1, and the score by the
 * number of these cells. A front that was added and not yet taken out can always be taken out,
 * whatever was added or taken out since; the tally is then that of the fronts that remain. Adding it
 * back restores every word. A tally has no names: a front that was never added is taken out too where
 * what is left is sound.
 * Refusals: 12, 21 to 23, and 31 where M or a cell to be lowered is 0, or what would be left is not
 * sound. */
uint32_t medlarbrace_tally_remove(const uint8_t *record, size_t record_len, uint32_t *tally, size_t tally_len);

/* The score, through `score`: the sum of all cells, one number to watch while rounds come in. It is
 * the fourth word as it stands: no cell is read and soundness is not tested, so a slice that is no
 * tally gives whatever that word is. After tally_new, whatever is then added and taken out, refused
 * calls too, it is the sum, as long as nothing else changes the tally.
 * Refusals: 21 where tally_len is under 4. */
uint32_t medlarbrace_tally_score(const uint32_t *tally, size_t tally_len, uint32_t *score);

/* ---- chances, in millionths: that one member of the class works */

/* The house's chance for an age of y years, 0 to 30, through `chance`: 1,000,000 - 1,000 x y x y.
 * Refusals: 14. */
uint32_t medlarbrace_ageing(uint64_t age, uint32_t *chance);

/* The weights, in ten-millionths, of 0 to n working members among n of one chance: n + 1 words, which
 * add up to 10,000,000.
 * Refusals: 6, 14, 15. */
uint32_t medlarbrace_weights(uint32_t n, uint32_t chance, uint32_t *weights, size_t weights_len);

/* The reliability of a tally, with the chances of class 1 and class 2: through `reliability` R in
 * ten-millionths, through `sum` S, the sum over cells of cell x weight x weight, and through
 * `rounds` M. R is S / (M x 10,000,000), rounded down: never above the exact figure of the survival
 * signature formula on these cells, and below it by less than n1 + n2 + 1 ten-millionths.
 * Refusals: 14, 21, 22, 25. */
uint32_t medlarbrace_reliability(const uint32_t *tally, size_t tally_len, uint32_t chance1, uint32_t chance2, uint64_t *sum, uint64_t *rounds, uint64_t *reliability);

#ifdef __cplusplus
}
#endif

#endif
