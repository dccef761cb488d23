/* Two stations and an office, on log D of document 01 cut after its second and its fourth record. Station A hears the first and the
 * last stretch, station B the one between. Each sends a summary of every stretch that it heard; the office merges and finishes.
 *
 * A summary does not know its place in the log. Two that meet at one level are merged, whether or not a stretch between them is
 * missing. So each carries the numbers of its stretches, and the office merges neighbours only: see merge().
 *
 *     tools/library
 *     cc -Iinclude examples/two_stations.c target/staticlib/libtulghimo.a -o two_stations
 */
#include "tulghimo.h"

#include <inttypes.h>
#include <stdio.h>
#include <stdlib.h>
#include <string.h>

/* open 0 value 10 floor 0 ceiling 100; open 1 value 5 floor 0 ceiling 4 */
static const uint8_t first_stretch[] = {
    18, 0, 1, 0, 0, 0, 10, 0, 0, 0, 0, 0, 0, 0, 100, 0, 0, 0, /**/
    18, 0, 1, 0, 1, 0, 5,  0, 0, 0, 0, 0, 0, 0, 4,   0, 0, 0,
};

/* close 1; open 1 value -3 floor 0 ceiling 100 */
static const uint8_t second_stretch[] = {
    6,  0, 2, 0, 1, 0, /**/
    18, 0, 1, 0, 1, 0, 0xfd, 0xff, 0xff, 0xff, 0, 0, 0, 0, 100, 0, 0, 0,
};

/* close 1; close 0 */
static const uint8_t third_stretch[] = {6, 0, 2, 0, 1, 0, /**/ 6, 0, 2, 0, 0, 0};

/* A summary as it is sent: with the numbers of the first and the last stretch that it stands for. */
struct summary {
    unsigned first, last;
    size_t length;
    uint8_t bytes[TULGHIMO_LONGEST_SUMMARY];
};

/* The length that a call answered. A negative one is a refusal, and none is due here. */
static size_t length_or_stop(int64_t answer) {
    if (answer < 0) {
        fprintf(stderr, "refused %" PRId64 "\n", -answer);
        exit(1);
    }
    return (size_t)answer;
}

static struct summary summarise(unsigned number, const uint8_t *stretch, size_t n, uint32_t mode) {
    struct summary sent = {.first = number, .last = number};
    sent.length = length_or_stop(tulghimo_summarise(stretch, n, mode, sent.bytes, sizeof sent.bytes));
    return sent;
}

/* Merges two neighbours, the left one first. Answers 0 where they are none: one between them is missing, they are the wrong way
 * round, or a stretch is in both. */
static int merge(const struct summary *left, const struct summary *right, struct summary *merged) {
    if (left->last + 1 != right->first)
        return 0;
    merged->first = left->first;
    merged->last = right->last;
    merged->length = length_or_stop(
        tulghimo_merge(left->bytes, left->length, right->bytes, right->length, merged->bytes, sizeof merged->bytes));
    return 1;
}

/* Prints the figure of a summary, or its refusal. */
static void finish(const struct summary *summary) {
    int64_t figure[1];
    int64_t answer = tulghimo_finish(summary->bytes, summary->length, figure);
    if (answer < 0)
        printf("refused %" PRId64 "\n", -answer);
    else
        printf("%" PRId64 "\n", figure[0]);
}

/* Merges two and prints the figure, if they are neighbours. */
static void finish_both(const struct summary *left, const struct summary *right) {
    struct summary both;
    if (merge(left, right, &both))
        finish(&both);
    else
        printf("not merged, they are no neighbours\n");
}

/* The 16-bit number at a place. */
static unsigned number_at(const uint8_t *bytes, size_t place) {
    return bytes[place] + 256u * bytes[place + 1];
}

/* Prints the join plan of a row of three: the chunks i and j, counted from 0, and the lowest and highest depth that they share. */
static void plan(const struct summary sent[3]) {
    uint8_t row[3 * TULGHIMO_LONGEST_SUMMARY];
    uint8_t lines[TULGHIMO_LONGEST_PLAN];
    size_t n = 0;
    for (int i = 0; i < 3; i++) {
        memcpy(row + n, sent[i].bytes, sent[i].length);
        n += sent[i].length;
    }
    size_t length = length_or_stop(tulghimo_plan(row, n, lines, sizeof lines));
    for (size_t at = 0; at < length; at += TULGHIMO_LINE)
        printf("plan: %u %u %u %u\n", number_at(lines, at + 4), number_at(lines, at + 6), number_at(lines, at + 8),
               number_at(lines, at + 10));
}

/* What the stations send for a figure. */
static void summarise_all(uint32_t mode, struct summary sent[3]) {
    sent[0] = summarise(1, first_stretch, sizeof first_stretch, mode);
    sent[1] = summarise(2, second_stretch, sizeof second_stretch, mode);
    sent[2] = summarise(3, third_stretch, sizeof third_stretch, mode);
}

int main(void) {
    static const uint32_t modes[] = {TULGHIMO_NET, TULGHIMO_HEAVIEST, TULGHIMO_EATEN, TULGHIMO_STAMP};
    struct summary sent[3], rest;
    for (int i = 0; i < 4; i++) {
        uint32_t mode = modes[i];
        summarise_all(mode, sent);
        printf("mode %" PRIu32 ": %zu, %zu and %zu bytes are sent; the figure is ", mode, sent[0].length, sent[1].length,
               sent[2].length);
        /* 2 and 3 first; 1 and 2 first would do as well. */
        if (merge(&sent[1], &sent[2], &rest))
            finish_both(&sent[0], &rest);
    }
    summarise_all(TULGHIMO_NET, sent);
    plan(sent);
    printf("1 alone: ");
    finish(&sent[0]);
    printf("1 and 3, where 2 is lost: ");
    finish_both(&sent[0], &sent[2]);
    printf("1 and 3, where 3 is sent with the number 2: ");
    sent[2].first = 2;
    finish_both(&sent[0], &sent[2]);
    return 0;
}
