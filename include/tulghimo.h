/* Tulghimo's C interface. Link target/staticlib/libtulghimo.a, which tools/library makes.
 *
 * A call answers 0, a length or a record number, or it is refused: the answer is minus the number of the question that got a "no",
 * and nothing is written. Of several the first in the order that the call lists is answered. A pointer may be NULL where its length
 * is 0. A buffer does not overlap an input, nor does a station's state overlap either. Numbers in bytes are little-endian.
 *
 * Summaries are merged as neighbours, the left one first, each stretch of the log exactly once; which neighbours are merged first
 * makes no difference. A summary does not know its place in the log: two inner stretches exchanged, one given twice or one left out
 * can give another figure, with no refusal. So send the number of a stretch with its summary, and look at the numbers before merging,
 * as examples/two_stations.c does. Neither a log nor a summary has a check sum: what carries the bytes must carry a check of its
 * own. */
#ifndef TULGHIMO_H
#define TULGHIMO_H

#include <stddef.h>
#include <stdint.h>

#ifdef __cplusplus
extern "C" {
#endif

/* The figure that is asked for. "Nothing held" counts as 0 in net and stamp; in heaviest and eaten it is no number, and is stored as
 * -2^63. The number 3 was eaten's while floor and ceiling bound every record, and is out of use. */
enum tulghimo_mode {
    TULGHIMO_NET = 1,      /* a record's value and the held figures, added */
    TULGHIMO_HEAVIEST = 2, /* a record's value and the greatest held figure */
    TULGHIMO_STAMP = 4,    /* a record's value and 31 times the held stamps, modulo 2^32 */
    TULGHIMO_EATEN = 5     /* as net, but a record that holds others is raised to its floor and lowered to its ceiling; one that
                              holds nothing counts as it is */
};

/* Why a call is refused: it answers minus one of these. */
enum tulghimo_refusal {
    TULGHIMO_REFUSED_MODE = 1,              /* the mode is not 1, 2, 4 or 5 */
    TULGHIMO_REFUSED_TOO_LONG = 2,          /* the chunk is longer than 65,536 bytes, or the table than 38,220 */
    TULGHIMO_REFUSED_UNREADABLE = 3,        /* a record, or a line of a table, is not readable: no readable full open
                                               record could hold it, or the table's length is no multiple of 14 */
    TULGHIMO_REFUSED_PIECE_COUNT = 4,       /* there are not 2 to 64 pieces */
    TULGHIMO_REFUSED_NOT_A_SUMMARY = 5,     /* a given piece is not exactly one summary of a mode in use */
    TULGHIMO_REFUSED_MIXED_MODES = 6,       /* the pieces are not all of one mode */
    TULGHIMO_REFUSED_LEVEL_GAP = 7,         /* neighbouring records do not meet at one level */
    TULGHIMO_REFUSED_LEVEL_ZERO = 8,        /* a level between records is 0 */
    TULGHIMO_REFUSED_TOO_MANY_OPENED = 9,   /* more than 100,000 records are opened */
    TULGHIMO_REFUSED_NO_RECORD = 10,        /* there is no record, or no line */
    TULGHIMO_REFUSED_NOT_WHOLE = 11,        /* the log does not begin and end at level 0 */
    TULGHIMO_REFUSED_BUFFER_TOO_SHORT = 12, /* the result does not fit the lent buffer */
    TULGHIMO_REFUSED_NOT_NESTED = 13,       /* a table's depths are not those of a log: the first is not 0, a later one is 0, or one
                                               is more than one above the line before it */
    TULGHIMO_REFUSED_OPENED_COUNT = 14,     /* the number of opened records asked for is not 1 to 8 */
    TULGHIMO_REFUSED_NOT_A_RUN = 15,        /* the bytes are not exactly one run of a mode in use, or a number in it does not fit */
    TULGHIMO_REFUSED_NO_WAY_BACK = 16,      /* the run is of mode 2 or 5, where there is no way back */
    TULGHIMO_REFUSED_OUTER_FIGURE = 17,     /* the outer figure is out of the range of the run's mode: -10^14 to 10^14 in mode 1, 0
                                               to 2^32 - 1 in mode 4 */
    TULGHIMO_REFUSED_NO_SUCH_PAGE = 18,     /* the page starts past the last record */
    TULGHIMO_REFUSED_NO_SUCH_RECORD = 19,   /* a record number is not below the number of opened records */
    TULGHIMO_REFUSED_NO_SUCH_FARM = 20,     /* the farm's number is above 7 */
    TULGHIMO_REFUSED_COMMON_STOCK = 21      /* the farms would draw more than the 20,000 opened records that they have in common */
};

/* Lengths in bytes. A buffer of the longest is never too short; the longest chunk and the longest table taken are lengths of
 * inputs. */
enum tulghimo_length {
    TULGHIMO_LONGEST_CHUNK = 65536,
    TULGHIMO_LONGEST_SUMMARY = 1788,
    TULGHIMO_LINE = 12, /* length 12, kind 19, chunks i and j, lowest and highest depth: 16 bits each */
    TULGHIMO_LONGEST_PLAN = 125 * TULGHIMO_LINE,
    TULGHIMO_RUN = 30, /* length 30, kind 20, mode: 16 bits each; three signed 64-bit numbers */
    TULGHIMO_EATEN_RUN = 38, /* in mode 5: length 38, and four numbers */
    TULGHIMO_LONGEST_RUNS = 125 * TULGHIMO_EATEN_RUN,
    TULGHIMO_TABLE_LINE = 14, /* depth: 16 bits; value, floor and ceiling: signed, 32 bits each */
    TULGHIMO_LONGEST_TABLE_TAKEN = 2730 * TULGHIMO_TABLE_LINE, /* by tulghimo_write_log */
    TULGHIMO_LONGEST_LOG_WRITTEN = 2730 * (18 + 6),            /* an open and a close for each line */
    TULGHIMO_LONGEST_TABLE_READ = 4096 * TULGHIMO_TABLE_LINE,  /* of a log of 65,536 bytes: 4,096 short opens and their closes */
    TULGHIMO_LONGEST_SMALL_DAYS = 429 * 8 * (10 + 6),          /* 429 logs of 8 short opens and their closes */
    TULGHIMO_LONGEST_HEAVIEST_LINE = 64 * 4,                   /* a number of 32 bits for each depth from 0 to 63 */
    TULGHIMO_SHEET_LINE = 27, /* text: number in 6 columns, depth in 2, figure in 16, a blank after each of the first two, a newline */
    TULGHIMO_LONGEST_PAGE = 60 * TULGHIMO_SHEET_LINE,
    TULGHIMO_FARMS_STATE = 8 * TULGHIMO_LONGEST_SUMMARY /* the state of a valley station, just as long: a slot for each farm */
};

/* The first record of a chunk: 0 and kind (1 open, 2 close), length, depth, value, floor, ceiling and batch (the last four 0 for a
 * close), or -3 with the fields as they were. Later bytes are not judged.
 *
 * An open has length 18; or 10, without a floor and a ceiling, which are then 0 and 1,000,000,000; or 22: the 18 bytes, then the
 * batch, the unsigned 32-bit number that the mill prints on the bag. A close has length 6. The batch is answered as 0 to
 * 4,294,967,295, never negative, and as 0 where the record has none. All other calls drop it: to them a record of length 22 is the
 * one of length 18 with the same fields, but for its four bytes more, which count in the length of the chunk.
 *
 * The old floor of length 10 was -1,000,000,000. Who counts on it sends length 18 with that floor. Each such record has 8 bytes more,
 * so a chunk of short ones may have to be cut in two: 4,096 of them and their closes, 65,536 bytes, are 98,304 in full. Floors and
 * ceilings count in eaten alone, and only for a record that holds others: of a short one that holds nothing the value counts as it is,
 * below 0 too.
 *
 * The function was tulghimo_read while it had six fields. A buffer that changes its size changes the function's name, so that a
 * program compiled with the old header does not link, instead of being written past its buffer. */
int64_t tulghimo_read_record(const uint8_t *chunk, size_t n, int64_t fields[7]);

/* The summary of a chunk, in a mode: its length, or -1, -2, -3 or -12. It carries the floor and the ceiling of each record that the
 * chunk opens and does not close. A summary that was made while short records had the old floor, -1,000,000,000, carries that floor
 * for them, and what it closed is in its figures: it keeps its meaning, and is merged with new ones as it is. */
int64_t tulghimo_summarise(const uint8_t *chunk, size_t n, uint32_t mode, uint8_t *out, size_t cap);

/* Two summaries of neighbours merged, the left first: the length of theirs, or -5, -6 or -12. */
int64_t tulghimo_merge(const uint8_t *left, size_t ln, const uint8_t *right, size_t rn, uint8_t *out, size_t cap);

/* A row of 2 to 64 summaries, end to end in log order, merged: the length of theirs, or -4, -5, -6 or -12. */
int64_t tulghimo_merge_row(const uint8_t *row, size_t n, uint8_t *out, size_t cap);

/* The figure of one summary: 0 and the figure, or -5 or -7 to -11. In heaviest and eaten it is -2^63 where bytes that no chunk makes
 * hold nothing. */
int64_t tulghimo_finish(const uint8_t *summary, size_t n, int64_t figure[1]);

/* The join plan of a row of 2 to 64 summaries, end to end in log order: the length of its lines, or -4 to -12. */
int64_t tulghimo_plan(const uint8_t *row, size_t n, uint8_t *out, size_t cap);

/* The runs of that plan, one for each line, in its order: their length, or -4 to -12. A run gives the figure of the join's
 * lowest-depth record by x, the combined figures that its highest-depth record holds and that lie wholly in neither of the two
 * chunks. Net: (a, 0, 0), x + a. Heaviest: (z, A, B), z for nothing, else the greater of A, which may be nothing, and x + B. Eaten:
 * (z, a, l, h), z for nothing, else x + a held between l and h; z may lie outside these. Stamp: (m, q, 0), m * x + q modulo 2^32. */
int64_t tulghimo_runs(const uint8_t *row, size_t n, uint8_t *out, size_t cap);

/* The work along the plan of a row: 0 and the figure (as of tulghimo_finish), the joins used and the number of levels folded, or -4
 * to -11. */
int64_t tulghimo_work(const uint8_t *row, size_t n, int64_t totals[3]);

/* The figures of a whole log, of the length of a chunk: 0 and net, heaviest, eaten (mode 5) and stamp, in this order, or -2, -3, -7,
 * -8, -10 or -11. (No log of this length has enough records for -9.) */
int64_t tulghimo_day(const uint8_t *log, size_t n, int64_t figures[4]);

/* The log of a day table, which has at most 2,730 lines of 14 bytes, in log order: a full open record (length 18) for each line, and
 * its close where it belongs. Its length, or -2, -3, -13, -10 or -12. */
int64_t tulghimo_write_log(const uint8_t *table, size_t n, uint8_t *out, size_t cap);

/* The day table of a whole log, of the length of a chunk: a line for each opened record, a short one with the floor 0 and the ceiling
 * 1,000,000,000, one with a batch without it. Its length, or -2, -3, -7, -8, -10, -11 or -12. (No log of this length has enough
 * records for -9.) */
int64_t tulghimo_read_table(const uint8_t *log, size_t n, uint8_t *out, size_t cap);

/* All well-formed logs with n opened records, n from 1 to 8, one after another: short open records (length 10), each value 1. Two are
 * compared record by record, an open before a close, and the one that comes first stands first. There are 1, 1, 2, 5, 14, 42, 132 and
 * 429 of them, each of 16 * n bytes and there just once. Their length in all, or -14 or -12. */
int64_t tulghimo_small_days(uint32_t n, uint8_t *out, size_t cap);

/* Backwards through one run, as tulghimo_runs writes it: 0 and the one inner figure x that leads to the outer figure y, among whole
 * numbers in net and among 0 to 2^32 - 1 in stamp; or -15, -16 or -17 with x as it was.
 *
 * x and y are those of tulghimo_runs: y is the figure of the record that the run ends with, which need not be the whole day's. One
 * run is given at a time, of TULGHIMO_RUN bytes (eaten: TULGHIMO_EATEN_RUN). In net x may be beyond y's range, as far as 2 * 10^14
 * either way.
 *
 * -15: the bytes are no run. The length, kind or mode does not fit; a number of stamp is outside 0 to 2^32 - 1, or m is even; a
 * number that the mode does not use is not 0; a number of net, heaviest or eaten is outside -10^14 to 10^14, but for the -2^63 that A
 * may be in heaviest; or l is above h. All runs that tulghimo_runs writes pass. -16: the run is of heaviest or eaten, where several x
 * may lead to y, or none. -17: y is outside -10^14 to 10^14 in net, or outside 0 to 2^32 - 1 in stamp. */
int64_t tulghimo_backwards(const uint8_t *run, size_t n, int64_t y, int64_t x[1]);

/* The records behind the heaviest figure of a whole log, of the length of a chunk: their numbers, 32 bits each, from the record that
 * the log begins with down to one that holds nothing. A number counts the opened records before it, in log order: the first is 0, and
 * record k is line k of tulghimo_read_table. Each directly holds the next, and their values add to the heaviest figure of
 * tulghimo_day. At each step the one taken has the greatest figure of those held; of several the earliest. Their length in all, 4 to
 * 256, or -2, -3, -7, -8, -10, -11 or -12. (No log of this length has enough records for -9.) */
int64_t tulghimo_heaviest_line(const uint8_t *log, size_t n, uint8_t *out, size_t cap);

/* A page of the sheet of a whole log, of the length of a chunk, in a mode: a line for every opened record, 60 to the page in log
 * order, fewer only on the last. Pages are counted from 0. A line is text of 27 bytes: the record's number in 6 columns, a blank, its
 * depth in 2, a blank, its figure in 16, all right-aligned and filled with blanks, then a newline; no byte 0 ends the text. Numbers
 * are those of tulghimo_heaviest_line. A figure is that of the record's own subtree: what tulghimo_day would answer in this mode if
 * that alone, its depths counted from the record, were the log. The length of the page, or, in this order, -1, -2, -3, -7, -8, -10,
 * -11, -18 or -12. (No log of this length has enough records for -9.) -18 where the page starts past the last record, for any 32-bit
 * number: a log has at most 69 pages. */
int64_t tulghimo_sheet(const uint8_t *log, size_t n, uint32_t mode, uint32_t page, uint8_t *out, size_t cap);

/* What the records a and b of a whole log, of the length of a chunk, have in common: the deepest record that is each of them or
 * holds it, directly or through others. Numbers are those of tulghimo_heaviest_line. The answer is the same either way round. A
 * number given twice names itself; where one of the two holds the other, the holder is the answer. No buffer is lent: the answer is
 * the record's number, 0 to 4,095, where 0 is the record that the log begins with; or, in this order, -2, -3, -7, -8, -10, -11 or
 * -19. (No log of this length has enough records for -9.) -19 where a or b is not below the number of opened records; any 32-bit
 * numbers may be given. */
int64_t tulghimo_common(const uint8_t *log, size_t n, uint32_t a, uint32_t b);

/* A valley station serves eight farms, 0 to 7, in one mode. Its state is TULGHIMO_FARMS_STATE bytes that the caller keeps; they may be
 * moved in memory, or stored, between calls. tulghimo_farms_fresh comes first, and then the two calls below alone change them. Each farm
 * has a running summary, blank at first. Up to 10,000 opened records a farm are its own; above that it draws on 20,000 that all farms
 * have in common. Whatever the other farms do, a farm is told the same, up to a send of its own that gets -21 because of them.
 *
 * The state made fresh in a mode: 0, or -1 with the state as it was. Every byte of it is written: for each farm a slot of
 * TULGHIMO_LONGEST_SUMMARY bytes, which begins with the farm's summary, here the blank, and is filled up with zeros.
 *
 * A summary that is sent and a buffer that is lent stand outside of the state.
 *
 * Of bytes that these calls did not write: a slot holds as many as the 16-bit number at its start says, 1,788 at most, and the farm counts
 * the 32-bit number at 12 of these, where they are 16 or more. Where they are no summary, the farm's two calls get -5. */
int64_t tulghimo_farms_fresh(uint32_t mode, uint8_t state[TULGHIMO_FARMS_STATE]);

/* A summary sent for a farm is merged at the right end of its running summary: 0, which tells only that it was taken; or, in this order,
 * -20, -5, -6 or -21 with the state as it was. -5 where what is sent is no summary, -6 where its mode is not that of what the farm has. -21 exactly
 * where the farms' opened records above 10,000, those of all eight added, would then be more than 20,000: so, of a state that was made
 * fresh and that these calls alone changed, never where the farm would be left within its own 10,000. A spoilt summary counts the opened
 * records that it says. */
int64_t tulghimo_farms_send(uint8_t state[TULGHIMO_FARMS_STATE], uint32_t farm, const uint8_t *summary, size_t n);

/* The end of a farm's day: its summary is handed out, all that was taken for it since its last end of day that was taken, merged in the
 * order it came; the farm is blank then, and what it drew is free again. The length of the summary, 6 where it has no record; or -20,
 * -5 (only of bytes that these calls did not write) or -12, with the state and `out` as they were. */
int64_t tulghimo_farms_end_of_day(uint8_t state[TULGHIMO_FARMS_STATE], uint32_t farm, uint8_t *out, size_t cap);

#ifdef __cplusplus
}
#endif

#endif
