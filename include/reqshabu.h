/* Reqshabu: query plans as sheets of bytes, checked and optimized. FORMAT.md describes the sheet and lists the refusals (docs/FORMAT.md in the source tree,
 * share/doc/reqshabu/FORMAT.md where it is installed).
 *
 * Link libreqshabu.a: `make install PREFIX=...` installs it with a pkg-config file (`cc use.c $(pkg-config --cflags --libs reqshabu)`); in the source tree
 * `make` writes it to target/install. */
#ifndef REQSHABU_H
#define REQSHABU_H

#include <stddef.h>
#include <stdint.h>

#ifdef __cplusplus
extern "C" {
#endif

/* The version, said here and taken from here for the archive, the command, its manual page and the pkg-config file. The first number rises when a caller has
 * to change, the second when something is added. (Before 1.0.0, see "What will change" below.) */
#define REQSHABU_VERSION "0.4.0"

/* Rises by one whenever the prototypes or the answer below change, and with nothing else: `#if REQSHABU_INTERFACE >= 2`. An operation that is added beside the
 * others doesn't raise it, the version says that: plan_convert is there from 0.3.0 on, plan_compact from 0.4.0 on. */
#define REQSHABU_INTERFACE 1

/* The version of the archive that is linked, to be compared with the header's. Archives made by `make` have it; the bare one of `rt lib` hasn't. */
extern const char reqshabu_version[];

/* The bytes of the largest sheet: an output of so many is always enough. */
#define REQSHABU_LARGEST_SHEET 45332

/* A sheet is of edition 1 or 2 (FORMAT.md, Editions), and the sheet that a pass writes is of the same. The editions differ in bytes 2 and 3 of each cell:
 * zeros in edition 1, in edition 2 the cell's origin, any number of 16 bits. A cell that is written has the origin of the cell of the sheet handed in that it came
 * from (FORMAT.md, Origins); nothing else in an answer or a sheet depends on origins. plan_convert carries a sheet from one edition to the other. */

/* What an operation returns. number is 0, or the number of a refusal (FORMAT.md, Refusals); place is where (0 on success). On a refusal length, cells
 * and columns are 0. */
typedef struct reqshabu_answer {
    uint64_t number;
    uint64_t place;
    uint64_t length;  /* of the sheet written, in bytes; 0 for plan_check */
    uint64_t cells;   /* of the sheet checked or written */
    uint64_t columns; /* of its plan */
} reqshabu_answer;

/* Checks a sheet of `length` bytes. Any bytes of any length may be handed in; sheet may be NULL if length is 0. */
reqshabu_answer plan_check(const uint8_t *sheet, size_t length);

/* One pass of the optimizer on a sheet of `length` bytes: 1 ConstantFolding, 2 FilterPushdown, 3 IndexLookup, 4 HashJoin, 5 ShortCircuit; any other number is
 * refusal 1. The sheet that the pass gives is written to the first bytes of `output`, which has `capacity` bytes; those after it stay. On a refusal no byte
 * of the output changes; refusal 15 says in `place` how many bytes are needed. A sheet has at most 45,332 bytes. The two may not overlap; either may be
 * NULL if its length is 0. */
reqshabu_answer plan_pass(const uint8_t *sheet, size_t length, size_t pass, uint8_t *output, size_t capacity);

/* All five passes in turn, likewise. */
reqshabu_answer plan_optimize(const uint8_t *sheet, size_t length, uint8_t *output, size_t capacity);

/* The same sheet in the other edition, written likewise; it is as long as it was. To edition 2 the origin of each cell becomes its number, to edition 1 it becomes 0.
 * An edition that is neither 1 nor 2, or that is the sheet's own, is refusal 21. To 2 and back to 1 gives the same bytes; to 1 and back to 2 does so if and only if
 * each origin was its cell's number. */
reqshabu_answer plan_convert(const uint8_t *sheet, size_t length, size_t edition, uint8_t *output, size_t capacity);

/* The sheet without the text that nobody refers to, written likewise: its text is each different string that a record or cell refers to, once, in order of first
 * reference (table names, column names, then cells, in a cell a before b), and references lead to the same bytes as before, those to an empty string to offset 0.
 * Everything else stays, the edition and the origins too. Strings that overlapped don't any more, so it may be longer than the sheet handed in, and it is refusal
 * 14, place 0, before any 15, if the text kept has over 8,192 bytes. Compacted again, it stays as it is. */
reqshabu_answer plan_compact(const uint8_t *sheet, size_t length, uint8_t *output, size_t capacity);

/* The five keep no state and allocate nothing, so they may be called from several threads at once. 1 MiB of stack is enough for every sheet. */

/* What will change
 *
 * Requests to come add a mode, a mark and a summary to these operations, and operations beside them. What they will look like is settled now, so that a caller
 * changes once, from interface 1 to interface 2. Version 1.0.0 is the first with interface 2; until then the versions 0.x keep interface 1, and add to it at
 * most. Between the two there is no third: a tree in which only some of these requests have landed isn't released. A caller may write both calls today, the
 * second behind `#if REQSHABU_INTERFACE >= 2`.
 *
 * Interface 2:
 *
 *   typedef struct reqshabu_answer { uint64_t number, place, length, cells, columns, mark; } reqshabu_answer;
 *
 *   reqshabu_answer plan_check   (const uint8_t *sheet, size_t length,                                                             uint64_t *summary, size_t entries);
 *   reqshabu_answer plan_pass    (const uint8_t *sheet, size_t length, size_t mode, size_t pass, uint8_t *output, size_t capacity, uint64_t *summary, size_t entries);
 *   reqshabu_answer plan_optimize(const uint8_t *sheet, size_t length, size_t mode,              uint8_t *output, size_t capacity, uint64_t *summary, size_t entries);
 *   reqshabu_answer plan_profile (const uint8_t *sheet, size_t length);
 *   reqshabu_answer plan_convert (const uint8_t *sheet, size_t length, size_t edition,           uint8_t *output, size_t capacity);
 *   reqshabu_answer plan_compact (const uint8_t *sheet, size_t length,                           uint8_t *output, size_t capacity);
 *   reqshabu_answer plan_condition(const uint8_t *text, size_t length,                           uint8_t *output, size_t capacity);
 *   reqshabu_answer plan_read    (const uint8_t *sheet, size_t length, const uint8_t *tables, size_t tables_length, uint8_t *output, size_t capacity);
 *
 * - Order of arguments: what is read, then the numbers that choose, in the order in which they are judged (a mode that isn't there is refused before a pass
 *   that isn't there), then what is written, the sheet before the summary. Each pointer is followed by its length: bytes, or entries of the summary.
 * - mode (W-204): 0 plain, as toyDB does and as interface 1 does; 1 house. With mode 0 and a summary of 256 entries the answers and the sheets are those of
 *   interface 1, but for the mark.
 * - mark and summary (W-213): the mark is 0 on a refusal and from operations that have none. summary gets an entry for each column record; it needs as many
 *   entries as there are column records, at most 256, and may be NULL where there are none.
 * - plan_profile (W-202) answers as plan_check. plan_convert (W-209) and plan_compact (W-212) are above already, and stay as they are but for the mark.
 *   plan_condition (W-211) writes as plan_pass does.
 * - plan_read (W-206) is in an archive of its own, libreqshabu_read.a, with a header of its own, reqshabu_read.h: a gateway that only optimizes doesn't link it.
 * - The answer is the same struct everywhere. New refusal numbers may be added in any version: treat a number that you don't know as a refusal.
 */

#ifdef __cplusplus
}
#endif
#endif
