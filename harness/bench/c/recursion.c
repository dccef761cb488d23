/* The plain recursion on one uncut log, a function for each of the modes 1, 2, 5 and 4 and one for all four: what the library is timed
   beside. Each record is held to document 01 ("Records"): length and kind, all bytes there, depth, ranges, floor and ceiling; and the log
   to questions 7 to 11: levels meet, level 0 is at both ends and nowhere else, at most 100,000 opened. A log that is found wrong has no
   figure, and is read no further. A batch (document 02, length 22) is skipped, and a short record (length 10) has the floor 0 (document
   02, L8). */
#include <stdbool.h>
#include <stddef.h>
#include <stdint.h>

#define GRAMS 1000000000
#define DEEPEST 63
#define MOST_OPENED 100000

struct reader {
    const uint8_t *at;
    const uint8_t *end;
    uint32_t opened;
    bool failed;
};

struct record {
    bool opens;
    unsigned depth;
    int32_t value;
    int32_t floor;
    int32_t ceiling;
};

static unsigned u16_at(const uint8_t *p)
{
    return p[0] | (unsigned)p[1] << 8;
}

static int32_t i32_at(const uint8_t *p)
{
    return (int32_t)(u16_at(p) | (uint32_t)u16_at(p + 2) << 16);
}

static bool in_range(int32_t grams)
{
    return -GRAMS <= grams && grams <= GRAMS;
}

/* Nothing is read after this. */
static bool fail(struct reader *in)
{
    in->failed = true;
    in->at = in->end;
    return false;
}

/* The next record, if it is readable. */
static bool next(struct reader *in, struct record *r)
{
    const uint8_t *p = in->at;
    size_t left = (size_t)(in->end - p);
    if (left < 6)
        return fail(in);
    unsigned length = u16_at(p);
    unsigned kind = u16_at(p + 2);
    r->depth = u16_at(p + 4);
    r->opens = kind == 1;
    if (length > left || r->depth > DEEPEST)
        return fail(in);
    in->at = p + length;
    if (kind == 2 && length == 6)
        return true;
    if (kind != 1 || (length != 10 && length != 18 && length != 22))
        return fail(in);
    r->value = i32_at(p + 6);
    r->floor = length == 10 ? 0 : i32_at(p + 10);
    r->ceiling = length == 10 ? GRAMS : i32_at(p + 14);
    if (!in_range(r->value) || !in_range(r->floor) || !in_range(r->ceiling) || r->floor > r->ceiling)
        return fail(in);
    return true;
}

/* True where the next record opens one that the record at this depth holds; false where it closes that record, or the log is wrong. */
static bool next_held(struct reader *in, unsigned depth, struct record *held)
{
    if (!next(in, held))
        return false;
    if (!held->opens)
        return held->depth == depth ? false : fail(in);
    if (held->depth != depth + 1 || ++in->opened > MOST_OPENED)
        return fail(in);
    return true;
}

static int64_t clamp(int64_t x, int64_t low, int64_t high)
{
    return x < low ? low : x > high ? high : x;
}

static int64_t net(struct reader *in, unsigned depth, int64_t value)
{
    int64_t sum = 0;
    struct record held;
    while (next_held(in, depth, &held))
        sum += net(in, held.depth, held.value);
    return value + sum;
}

/* A flag tells whether anything is held: taking the first held record before the loop costs a seventh more instructions. */
static int64_t heaviest(struct reader *in, unsigned depth, int64_t value)
{
    int64_t most = INT64_MIN;
    bool holds = false;
    struct record held;
    while (next_held(in, depth, &held)) {
        int64_t figure = heaviest(in, held.depth, held.value);
        most = figure > most ? figure : most;
        holds = true;
    }
    return holds ? value + most : value;
}

/* Floor and ceiling bind only a record that holds others. */
static int64_t eaten(struct reader *in, unsigned depth, int64_t value, int32_t floor, int32_t ceiling)
{
    int64_t sum = 0;
    bool holds = false;
    struct record held;
    while (next_held(in, depth, &held)) {
        sum += eaten(in, held.depth, held.value, held.floor, held.ceiling);
        holds = true;
    }
    return holds ? clamp(value + sum, floor, ceiling) : value;
}

static uint32_t stamp(struct reader *in, unsigned depth, int32_t value)
{
    uint32_t sum = 0;
    struct record held;
    while (next_held(in, depth, &held))
        sum += stamp(in, held.depth, held.value);
    return (uint32_t)value + 31 * sum;
}

struct figures {
    int64_t net;
    int64_t heaviest;
    int64_t eaten;
    uint32_t stamp;
};

static struct figures all(struct reader *in, const struct record *r)
{
    struct figures sum = {0, INT64_MIN, 0, 0};
    bool holds = false;
    struct record held;
    while (next_held(in, r->depth, &held)) {
        struct figures f = all(in, &held);
        sum.net += f.net;
        sum.heaviest = f.heaviest > sum.heaviest ? f.heaviest : sum.heaviest;
        sum.eaten += f.eaten;
        sum.stamp += f.stamp;
        holds = true;
    }
    sum.net += r->value;
    sum.heaviest = holds ? sum.heaviest + r->value : r->value;
    sum.eaten = holds ? clamp(sum.eaten + r->value, r->floor, r->ceiling) : r->value;
    sum.stamp = (uint32_t)r->value + 31 * sum.stamp;
    return sum;
}

/* The record that the log begins with. */
static bool begin(struct reader *in, const uint8_t *log, size_t length, struct record *first)
{
    *in = (struct reader){log, log + length, 1, false};
    return next(in, first) && first->opens && first->depth == 0;
}

static bool ended(const struct reader *in)
{
    return !in->failed && in->at == in->end;
}

bool plain_net(const uint8_t *log, size_t length, int64_t *figure)
{
    struct reader in;
    struct record r;
    if (!begin(&in, log, length, &r))
        return false;
    *figure = net(&in, r.depth, r.value);
    return ended(&in);
}

bool plain_heaviest(const uint8_t *log, size_t length, int64_t *figure)
{
    struct reader in;
    struct record r;
    if (!begin(&in, log, length, &r))
        return false;
    *figure = heaviest(&in, r.depth, r.value);
    return ended(&in);
}

bool plain_eaten(const uint8_t *log, size_t length, int64_t *figure)
{
    struct reader in;
    struct record r;
    if (!begin(&in, log, length, &r))
        return false;
    *figure = eaten(&in, r.depth, r.value, r.floor, r.ceiling);
    return ended(&in);
}

bool plain_stamp(const uint8_t *log, size_t length, int64_t *figure)
{
    struct reader in;
    struct record r;
    if (!begin(&in, log, length, &r))
        return false;
    *figure = stamp(&in, r.depth, r.value);
    return ended(&in);
}

bool plain_all(const uint8_t *log, size_t length, int64_t figures[4])
{
    struct reader in;
    struct record r;
    if (!begin(&in, log, length, &r))
        return false;
    struct figures f = all(&in, &r);
    figures[0] = f.net;
    figures[1] = f.heaviest;
    figures[2] = f.eaten;
    figures[3] = f.stamp;
    return ended(&in);
}
