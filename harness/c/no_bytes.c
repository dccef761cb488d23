/* Every C function with NULL where a length is 0: the header promises that it is taken. What each must answer is document 01's or
 * 02's, question by question; a lent buffer and a state keep their bytes where the call is refused. Prints each difference, and 1 is
 * the status then. */
#include "tulghimo.h"

#include <inttypes.h>
#include <stdio.h>
#include <string.h>

static int differences;

static void is(const char *call, int64_t answer, int64_t due) {
    if (answer == due)
        return;
    printf("%s: %" PRId64 ", and %" PRId64 " is due\n", call, answer, due);
    differences++;
}

/* A refused call leaves its numbers as they were: all -7. */
static void untouched(const char *call, const int64_t *numbers, size_t n) {
    for (size_t i = 0; i < n; i++)
        is(call, numbers[i], -7);
}

/* open 0 value 10; close 0 */
static const uint8_t whole_log[] = {10, 0, 1, 0, 0, 0, 10, 0, 0, 0, /**/ 6, 0, 2, 0, 0, 0};
/* depth 0 value 10 floor 0 ceiling 100 */
static const uint8_t one_line[] = {0, 0, 10, 0, 0, 0, 0, 0, 0, 0, 100, 0, 0, 0};
/* Two blanks in mode 1; a blank and the hill of that log; the hills of its two records. */
static const uint8_t blanks[] = {6, 0, 16, 0, 1, 0, /**/ 6, 0, 16, 0, 1, 0};
static const uint8_t closed[] = {6, 0, 16, 0, 1, 0, /**/ 24, 0, 18, 0, 1, 0, 0, 0, 0, 0, 0, 0, 1, 0, 0, 0, 10, 0, 0, 0, 0, 0, 0, 0};
static const uint8_t joined[] = {
    44, 0, 18, 0, 1, 0, 0, 0, 0, 0, 1, 0, 1, 0, 0, 0, 0, 0, 0, 0, 0, 0, 0, 0, /**/
    10, 0, 0, 0, 0, 0, 0, 0, 0, 202, 154, 59, 0, 0, 0, 0, 0, 0, 0, 0, /**/
    32, 0, 18, 0, 1, 0, 1, 0, 0, 0, 0, 0, 0, 0, 0, 0, 0, 0, 0, 0, 0, 0, 0, 0, 0, 0, 0, 0, 0, 0, 0, 0,
};

/* No input. */
static void nothing_in(void) {
    int64_t numbers[7] = {-7, -7, -7, -7, -7, -7, -7};
    uint8_t out[6] = {0};
    is("read_record", tulghimo_read_record(NULL, 0, numbers), -3);
    is("summarise, mode 0", tulghimo_summarise(NULL, 0, 0, NULL, 0), -1);
    is("summarise, mode 3", tulghimo_summarise(NULL, 0, 3, NULL, 0), -1);
    is("summarise", tulghimo_summarise(NULL, 0, 1, out, sizeof out), 6);
    is("summarise: a blank", memcmp(out, blanks, sizeof out), 0);
    is("merge", tulghimo_merge(NULL, 0, NULL, 0, NULL, 0), -5);
    is("merge, a blank on the left", tulghimo_merge(blanks, 6, NULL, 0, NULL, 0), -5);
    is("merge, a blank on the right", tulghimo_merge(NULL, 0, blanks, 6, NULL, 0), -5);
    is("merge_row", tulghimo_merge_row(NULL, 0, NULL, 0), -4);
    is("finish", tulghimo_finish(NULL, 0, numbers), -5);
    is("plan", tulghimo_plan(NULL, 0, NULL, 0), -4);
    is("runs", tulghimo_runs(NULL, 0, NULL, 0), -4);
    is("work", tulghimo_work(NULL, 0, numbers), -4);
    is("day", tulghimo_day(NULL, 0, numbers), -10);
    is("write_log", tulghimo_write_log(NULL, 0, NULL, 0), -10);
    is("write_log, a buffer", tulghimo_write_log(NULL, 0, out, sizeof out), -10);
    is("read_table", tulghimo_read_table(NULL, 0, NULL, 0), -10);
    is("read_table, a buffer", tulghimo_read_table(NULL, 0, out, sizeof out), -10);
    is("small_days, n = 0", tulghimo_small_days(0, NULL, 0), -14);
    is("small_days, n = 0, a buffer", tulghimo_small_days(0, out, sizeof out), -14);
    is("backwards", tulghimo_backwards(NULL, 0, 0, numbers), -15);
    is("backwards, y beyond", tulghimo_backwards(NULL, 0, INT64_MIN, numbers), -15);
    is("heaviest_line", tulghimo_heaviest_line(NULL, 0, NULL, 0), -10);
    is("heaviest_line, a buffer", tulghimo_heaviest_line(NULL, 0, out, sizeof out), -10);
    is("sheet", tulghimo_sheet(NULL, 0, 1, 0, NULL, 0), -10);
    is("sheet, a buffer", tulghimo_sheet(NULL, 0, 5, 0, out, sizeof out), -10);
    is("sheet, mode 3", tulghimo_sheet(NULL, 0, 3, 0, NULL, 0), -1);
    is("sheet, any page", tulghimo_sheet(NULL, 0, 1, UINT32_MAX, NULL, 0), -10);
    is("common", tulghimo_common(NULL, 0, 0, 0), -10);
    is("common, no such record", tulghimo_common(NULL, 0, 1, UINT32_MAX), -10);
    untouched("numbers", numbers, 7);
    is("the blank in the buffer", memcmp(out, blanks, sizeof out), 0);
}

/* No buffer: 12 where there is something to write, and a plan without a line fits. */
static void nowhere_out(void) {
    is("summarise no bytes", tulghimo_summarise(NULL, 0, 1, NULL, 0), -12);
    is("summarise a log", tulghimo_summarise(whole_log, sizeof whole_log, 1, NULL, 0), -12);
    is("merge blanks", tulghimo_merge(blanks, 6, blanks + 6, 6, NULL, 0), -12);
    is("merge_row of blanks", tulghimo_merge_row(blanks, sizeof blanks, NULL, 0), -12);
    is("plan of a join", tulghimo_plan(joined, sizeof joined, NULL, 0), -12);
    is("runs of a join", tulghimo_runs(joined, sizeof joined, NULL, 0), -12);
    is("plan without a line", tulghimo_plan(closed, sizeof closed, NULL, 0), 0);
    is("runs without a line", tulghimo_runs(closed, sizeof closed, NULL, 0), 0);
    is("write_log of a line", tulghimo_write_log(one_line, sizeof one_line, NULL, 0), -12);
    is("read_table of a log", tulghimo_read_table(whole_log, sizeof whole_log, NULL, 0), -12);
    is("small_days, n = 1", tulghimo_small_days(1, NULL, 0), -12);
    is("small_days, n = 8", tulghimo_small_days(8, NULL, 0), -12);
    is("small_days, n = 9", tulghimo_small_days(9, NULL, 0), -14);
    is("heaviest_line of a log", tulghimo_heaviest_line(whole_log, sizeof whole_log, NULL, 0), -12);
    is("sheet of a log", tulghimo_sheet(whole_log, sizeof whole_log, 1, 0, NULL, 0), -12);
    is("sheet of a log, the next page", tulghimo_sheet(whole_log, sizeof whole_log, 1, 1, NULL, 0), -18);
    is("sheet of a log, mode 3", tulghimo_sheet(whole_log, sizeof whole_log, 3, 0, NULL, 0), -1);
    is("common of a log", tulghimo_common(whole_log, sizeof whole_log, 0, 0), 0);
    is("common of a log, no such record", tulghimo_common(whole_log, sizeof whole_log, 0, UINT32_MAX), -19);
}

/* The state of a valley station has its length, and is never NULL: nothing sent, and nowhere to hand out. */
static void farms(void) {
    uint8_t state[TULGHIMO_FARMS_STATE], before[TULGHIMO_FARMS_STATE], out[6] = {0};
    memset(state, 7, sizeof state);
    memset(before, 7, sizeof before);
    is("farms_fresh, mode 0", tulghimo_farms_fresh(0, state), -1);
    is("farms_fresh, mode 3", tulghimo_farms_fresh(3, state), -1);
    is("farms_send, no summary in the slot", tulghimo_farms_send(state, 0, NULL, 0), -5);
    is("farms_send, no such farm", tulghimo_farms_send(state, 8, NULL, 0), -20);
    is("farms_end_of_day, no summary in the slot", tulghimo_farms_end_of_day(state, 0, NULL, 0), -5);
    is("farms_end_of_day, no such farm", tulghimo_farms_end_of_day(state, 8, NULL, 0), -20);
    is("a state that no call wrote", memcmp(state, before, sizeof state), 0);

    is("farms_fresh", tulghimo_farms_fresh(1, state), 0);
    memset(before, 0, sizeof before);
    for (size_t farm = 0; farm < 8; farm++)
        memcpy(before + farm * TULGHIMO_LONGEST_SUMMARY, blanks, 6);
    for (uint32_t farm = 0; farm < 8; farm++) {
        is("farms_send", tulghimo_farms_send(state, farm, NULL, 0), -5);
        is("farms_end_of_day", tulghimo_farms_end_of_day(state, farm, NULL, 0), -12);
    }
    is("farms_send, farm 8", tulghimo_farms_send(state, 8, NULL, 0), -20);
    is("farms_send, farm 2^32 - 1", tulghimo_farms_send(state, UINT32_MAX, NULL, 0), -20);
    is("farms_end_of_day, farm 8", tulghimo_farms_end_of_day(state, 8, NULL, 0), -20);
    is("farms_end_of_day, farm 2^32 - 1", tulghimo_farms_end_of_day(state, UINT32_MAX, NULL, 0), -20);
    is("a fresh state", memcmp(state, before, sizeof state), 0);

    is("farms_send, a blank", tulghimo_farms_send(state, 7, blanks, 6), 0);
    is("farms_end_of_day, a blank", tulghimo_farms_end_of_day(state, 7, out, sizeof out), 6);
    is("the blank handed out", memcmp(out, blanks, sizeof out), 0);
    is("a state with blanks", memcmp(state, before, sizeof state), 0);
}

int main(void) {
    nothing_in();
    nowhere_out();
    farms();
    return differences != 0;
}
