/* The fact filter, proved in Rattle, as C functions: wimplejade_filter, which filters a file, wimplejade_why, which says why
 * each fact came along, wimplejade_sweep, which filters by a second engine, and wimplejade_order, which checks what must come
 * before what.
 *
 * The archive is libwimplejade.a: bin/archive proves the crate and writes it to target/staticlib, `make install`
 * puts it beside this header. It is for x86-64 Linux and needs no other library. docs/FORMAT.md of the repository describes
 * the file; wimplejade_helper.h has what most callers need around a call.
 */
#ifndef WIMPLEJADE_H
#define WIMPLEJADE_H

#include <stddef.h>
#include <stdint.h>

#ifdef __cplusplus
extern "C" {
#endif

/* The version; the archive has to be of the same one. While the first number is 0, a change of the second may change the
 * functions, the answer or the file. */
#define WIMPLEJADE_VERSION "0.7.0"
#define WIMPLEJADE_VERSION_MAJOR 0
#define WIMPLEJADE_VERSION_MINOR 7
#define WIMPLEJADE_VERSION_PATCH 0

/* The words that each working slice must have at least. */
#define WIMPLEJADE_WORKING_WORDS 16384

/* The ask and also lines that a file may have, together: so many lists an answer can have. Ask lines are spelled `ask` or, in
 * a file whose facts have groups, `ask2`. */
#define WIMPLEJADE_MOST_ASKS 16

/* The record lines that a file may have: so many lines one list can have. */
#define WIMPLEJADE_MOST_RECORDS 1024

/* The most lines that an accepted file can keep, in all lists. It is proved that a call over a result slice of so many words,
 * or more, is never refused with WIMPLEJADE_ROOM. */
#define WIMPLEJADE_MOST_KEPT (WIMPLEJADE_MOST_ASKS * WIMPLEJADE_MOST_RECORDS)

/* The rows that the table of wimplejade_why must have at least. No file has more. */
#define WIMPLEJADE_MOST_ROWS 2048

/* The most rows of wimplejade_order: with a table of so many, or more, it is never refused with WIMPLEJADE_ROOM. */
#define WIMPLEJADE_MOST_LATE_ROWS 6144

/* The bytes that a file may have. */
#define WIMPLEJADE_MOST_BYTES 65535

/* The stack, in bytes, that is enough for every call: 2 MB. A call takes 112 bytes for each level of the deepest term, of which
 * there can be 4,096: `make stack` measures each function, 460,488 bytes at most, by wimplejade_filter. */
#define WIMPLEJADE_STACK_BYTES (2u << 20)

/* Why a call is refused; the comment says what `place` is then. A line is counted from 1. A line that passes several
 * limits is refused with the lowest of 6, 10, 11 and 12. */
enum wimplejade_refusal {
    WIMPLEJADE_ACCEPTED = 0,       /* not refused; 0 */
    WIMPLEJADE_FORM = 1,           /* not a line of the file's form, an ask line of the other form too; the line */
    WIMPLEJADE_NAME = 2,           /* a field is no name; the line */
    WIMPLEJADE_NUMBER = 3,         /* a field is no number, or outside its range; the line */
    WIMPLEJADE_TERM = 4,           /* a term number that is not there yet; the line */
    WIMPLEJADE_REPEATED = 5,       /* the name of an earlier assume, fun or def; the line */
    WIMPLEJADE_FULL_NAMES = 6,     /* more than 2,048 names; the line */
    WIMPLEJADE_WORKING = 7,        /* a working slice, or the table of wimplejade_why, is too short; 0 */
    WIMPLEJADE_ROOM = 8,           /* the result slice is shorter than all lists end to end; how many lines they have; or the
                                      table of wimplejade_order is too short; how many rows there are */
    WIMPLEJADE_SIZE = 9,           /* the file has more than WIMPLEJADE_MOST_BYTES; 0 */
    WIMPLEJADE_FULL_TERMS = 10,    /* more than 4,096 term lines or 16,384 references in them; the line */
    WIMPLEJADE_FULL_RECORDS = 11,  /* more than 1,024 record lines; the line */
    WIMPLEJADE_FULL_TRIGGERS = 12, /* more than 2,048 trigger entries or 6,144 name uses; the line */
    WIMPLEJADE_FULL_ASKS = 13,     /* more than WIMPLEJADE_MOST_ASKS ask and also lines; the line */
    WIMPLEJADE_POSITION = 15       /* the position named has no ask or also line; 0; of wimplejade_why alone */
};

/* The answer of a call: the counts of each ask and also line, those of line 1 at index 0. Past the last of these lines, and
 * after a refusal, they are 0; the rounds of a line are 1 at least. The visits and the rounds of an also line are those of its
 * own stretch: what the line adds to the one before. */
struct wimplejade_answer {
    uint32_t refusal; /* one of enum wimplejade_refusal */
    uint32_t place;
    uint32_t kept[WIMPLEJADE_MOST_ASKS];   /* how many lines are kept */
    uint32_t visits[WIMPLEJADE_MOST_ASKS]; /* the trigger entries whose name was met */
    uint32_t rounds[WIMPLEJADE_MOST_ASKS]; /* the rounds of the run */
};

/* Of every function here:
 *
 * A slice is passed as a pointer and the number of its elements: bytes of the file, 32-bit words of `working0` to `working5`,
 * the six working slices, and of a result slice, rows of a table.
 *
 * A call always returns, whatever the file holds and however short a slice is. It writes nothing but the slices as said with
 * it, allocates nothing, keeps nothing between calls, and reads and writes no file. After a refusal with 7 every slice is as
 * before. After every other call the first WIMPLEJADE_WORKING_WORDS words of each working slice are 0 and the rest is as
 * before. The result slice or the table is as before after every refusal.
 *
 * That much is proved, for callers that keep these conditions, which nothing checks:
 *
 * - No pointer is null, not even that of an empty slice, and those to words and rows are aligned for uint32_t.
 * - Each points to as many elements as its count says, in one object, at most PTRDIFF_MAX bytes long. The file may lie
 *   in memory that cannot be written, the other seven may not.
 * - The words and rows may hold anything, but have been written once: memory straight from malloc has not, from calloc it has.
 * - No two of the eight slices overlap, and none overlaps the answer.
 * - While the call runs, nobody else writes any of the slices, and nobody else reads the seven that it may write: no
 *   other thread, no signal handler, and, for a mapped file, no other process. Calls on slices of their own may run at
 *   the same time.
 * - The thread has WIMPLEJADE_STACK_BYTES of stack left, and a guard page below. Without them a file of deep terms can
 *   end the process.
 */

/* Filters a file, for all its ask and also lines.
 *
 * `result` takes the kept line numbers: the list of each ask and also line, in its order, directly after that of the line
 * before. A fact of a group that an ask line does not admit is read, takes its name and counts for every limit, but is not
 * there for that line and the also lines after it.
 *
 * Accepted, `result` holds line numbers from its start, as many as the sum of `kept`, and past them what it held before.
 *
 * A file that looks like an export, with one ask line, takes 10 to 350 microseconds, the worst file known 0.2 to 0.5 seconds, as
 * measured with the older toolchain; no bound is proved (docs/PERFORMANCE.md).
 */
struct wimplejade_answer wimplejade_filter(const uint8_t *file, size_t file_bytes,
                                           uint32_t *working0, size_t working0_words,
                                           uint32_t *working1, size_t working1_words,
                                           uint32_t *working2, size_t working2_words,
                                           uint32_t *working3, size_t working3_words,
                                           uint32_t *working4, size_t working4_words,
                                           uint32_t *working5, size_t working5_words,
                                           uint32_t *result, size_t result_words);

/* A row of a table. `number` is that of a name of the file: names are numbered from 0 in the order in which the file spells
 * them first, line by line and from the left; a token that rule 4 of docs/FORMAT.md shortens, if it was not spelled before,
 * comes after the name of its fact. */
struct wimplejade_row {
    uint32_t line;   /* the line of a reached fact; of wimplejade_order that of a definition */
    uint32_t number; /* the number of a name that the fact waits for; of wimplejade_order that of a free name of the body */
    uint32_t cause;  /* the line of the item that supplied the name: a root, an ambient root or a fact; of wimplejade_order the
                        sort, one of enum wimplejade_sort */
};

/* The answer of wimplejade_why. After a refusal `met` and `rows` are 0. */
struct wimplejade_reasons {
    uint32_t refusal; /* one of enum wimplejade_refusal */
    uint32_t place;
    size_t met;  /* how many of the numbered names were met in the end */
    size_t rows; /* how many rows are filled */
};

/* Says why each fact came along that the ask or also line at a position reaches; `position` is counted from 1.
 *
 * There is a row for each reached fact and each of the names it waits for, in any of its disjuncts, that was met by the end of
 * the round which first triggered it. The supplier is the scanned item that has the name, or has a macro which opens to it: of
 * those the one of the lowest round, where roots and ambient roots are of round 0, then of the lowest line. So a supplier's
 * round is lower than its fact's, and going from supplier to supplier ends at a root or an ambient root. Rows stand by the
 * fact's name, then by the name waited for, both in byte order. On an also line they are those of a run over all roots of its
 * chain so far.
 *
 * A table below WIMPLEJADE_MOST_ROWS is refused with 7, before all else. 15 comes after every line has been read. Accepted,
 * `rows` holds rows from its start, as many as the answer says, and past them what it held before.
 */
struct wimplejade_reasons wimplejade_why(const uint8_t *file, size_t file_bytes, size_t position,
                                         uint32_t *working0, size_t working0_words,
                                         uint32_t *working1, size_t working1_words,
                                         uint32_t *working2, size_t working2_words,
                                         uint32_t *working3, size_t working3_words,
                                         uint32_t *working4, size_t working4_words,
                                         uint32_t *working5, size_t working5_words,
                                         struct wimplejade_row *rows, size_t row_count);

/* The answer of wimplejade_sweep: the counts of each ask and also line, those of line 1 at index 0. Past the last of these
 * lines, and after a refusal, they are 0; the passes of a line are 1 at least. */
struct wimplejade_swept {
    uint32_t refusal; /* one of enum wimplejade_refusal */
    uint32_t place;
    uint32_t kept[WIMPLEJADE_MOST_ASKS];   /* how many lines are kept */
    uint32_t passes[WIMPLEJADE_MOST_ASKS]; /* the passes, the last one counted */
};

/* Filters a file by a second engine, for all its ask and also lines. Refusals and lists are those of wimplejade_filter, and
 * `result` is written as there; it is proved that both reach the same facts and meet the same names.
 *
 * The engine passes over all admitted facts by line, adds each one that fires on the names met so far and may be reached, and
 * meets its names at once; it repeats this until a pass adds none. The passes are at most the facts with triggers plus one. On
 * an also line they are those of a run over all roots of its chain so far. There are no visits and no rounds.
 *
 * It is there to be followed by hand and compared with; for the lists alone wimplejade_filter takes less time.
 */
struct wimplejade_swept wimplejade_sweep(const uint8_t *file, size_t file_bytes,
                                         uint32_t *working0, size_t working0_words,
                                         uint32_t *working1, size_t working1_words,
                                         uint32_t *working2, size_t working2_words,
                                         uint32_t *working3, size_t working3_words,
                                         uint32_t *working4, size_t working4_words,
                                         uint32_t *working5, size_t working5_words,
                                         uint32_t *result, size_t result_words);

/* Why wimplejade_order lists a name. */
enum wimplejade_sort {
    WIMPLEJADE_LATER = 1,  /* its def or fun stands on the line of the definition, or on a later one */
    WIMPLEJADE_NEITHER = 2 /* the file has neither a def nor a fun of it */
};

/* The answer of wimplejade_order. After a refusal `rows` is 0. */
struct wimplejade_late {
    uint32_t refusal; /* one of enum wimplejade_refusal */
    uint32_t place;
    size_t rows; /* how many rows are listed */
};

/* Checks over all def lines what must come before what. There is a row for each free name of the body of a definition that the
 * solver cannot know there, by the definition's line and then by name in byte order. Neither the nine names nor hidden ones are
 * free; ask and also lines, options and groups do not matter.
 *
 * It is proved: if an accepted call lists no row of sort WIMPLEJADE_LATER, no definition depends on itself through the free
 * names of bodies.
 *
 * Accepted, `rows` holds rows from its start, as many as the answer says, and past them what it held before.
 */
struct wimplejade_late wimplejade_order(const uint8_t *file, size_t file_bytes,
                                        uint32_t *working0, size_t working0_words,
                                        uint32_t *working1, size_t working1_words,
                                        uint32_t *working2, size_t working2_words,
                                        uint32_t *working3, size_t working3_words,
                                        uint32_t *working4, size_t working4_words,
                                        uint32_t *working5, size_t working5_words,
                                        struct wimplejade_row *rows, size_t row_count);

#ifdef __cplusplus
}
#endif

#endif
