/* Calls the routes and the forks of the library with many small sets of cards, sound and unsound, and compares what it is told with an
 * implementation of the same rules that shares no code: rounds of relaxation over all cards, and each split in turn. Has a ticket
 * answered too, beside the answer that it must get. Prints how many calls of routes and forks there were.
 *
 * Checks tables of a customer's as well, and routes and forks over them.
 *
 * Each export is called, and what it is not to write is compared as well, so that a library in which two slices of an export stand in
 * another order than in the header does not pass: no proof knows the header. */
#include "hurzelma.h"

#include <stdbool.h>
#include <stdio.h>
#include <stdlib.h>
#include <string.h>

enum { CALLS = 50000, FORKS = 20000, TABLES = 20000, PLACE = 66, MOST = 66, LEGS = 34, CARDS = MOST * MOST, BYTES = LEGS * HURZELMA_ROW };

/* The kinds, and a cost of any of them: of delays all depths are 255, and of depths all delays 0. */
enum kind { DELAY, DEPTH, BOTH };

struct cost {
    int64_t delay, depth;
};

/* What a call is handed. */
struct job {
    enum kind kind;
    size_t n, cards_length, legs_length, costs_length, chains_length;
    struct cost cards[CARDS];
    struct hurzelma_leg legs[LEGS];
};

/* The formats of a fork, which is made over the cards of a job and has no legs. */
struct fork {
    size_t input, first, second;
};

/* What a call left. */
struct left {
    struct hurzelma_both costs[LEGS];
    uint8_t chains[BYTES];
    size_t split;
};

static uint64_t state = 1;

/* A number from low to high. */
static int64_t draw(int64_t low, int64_t high) {
    state ^= state << 13;
    state ^= state >> 7;
    state ^= state << 17;
    return low + (int64_t)(state % (uint64_t)(high - low + 1));
}

static bool chance(int of) {
    return draw(1, of) == 1;
}

/* The rules. */

static bool stands(const struct job *job, size_t s, size_t t) {
    struct cost cost = job->cards[s * job->n + t];
    bool slow = cost.delay < -2000000 || cost.delay > 2000000, deep = cost.depth < 1 || cost.depth > 16;
    return s != t && !(job->kind != DEPTH && slow) && !(job->kind != DELAY && deep);
}

static struct cost sum(struct cost a, struct cost b) {
    return (struct cost){a.delay + b.delay, a.depth < b.depth ? a.depth : b.depth};
}

static bool better(struct cost a, struct cost b) {
    return a.delay < b.delay || (a.delay == b.delay && a.depth > b.depth);
}

static bool equal(struct cost a, struct cost b) {
    return a.delay == b.delay && a.depth == b.depth;
}

static const struct cost unit = {0, 255};

static uint32_t fault(uint32_t layer, uint32_t number, uint32_t part) {
    return layer << 16 | number << 8 | part;
}

static uint32_t of_leg(size_t leg, uint32_t cause) {
    return (uint32_t)leg << 24 | cause;
}

/* What is refused for the number of formats and of cards. */
static uint32_t unfit(const struct job *job) {
    size_t n = job->n;
    if (n < 2 || n > 64) return fault(3, 16, 0);
    if (job->cards_length < n * n) return fault(3, 16, 1);
    return 0;
}

/* What is refused before a card is looked at. */
static uint32_t early(const struct job *job) {
    size_t n = job->n;
    if (unfit(job) != 0) return unfit(job);
    for (size_t k = 0; k < job->legs_length; k++) {
        struct hurzelma_leg leg = job->legs[k];
        if (leg.from >= n) return of_leg(k, fault(2, 11, 0));
        if (leg.to >= n) return of_leg(k, fault(2, 11, 1));
        if (k >= 32) return of_leg(k, fault(2, 24, 0));
    }
    if (job->legs_length == 0) return fault(2, 25, 0);
    if (job->costs_length < job->legs_length) return fault(2, 15, 1);
    if (job->chains_length < HURZELMA_ROW * job->legs_length) return fault(2, 15, 2);
    return 0;
}

/* The same of a fork. */
static uint32_t early_fork(const struct job *job, const struct fork *fork) {
    size_t n = job->n;
    if (unfit(job) != 0) return unfit(job);
    if (fork->input >= n) return fault(2, 11, 0);
    if (fork->first >= n) return fault(2, 11, 1);
    if (fork->second >= n) return fault(2, 11, 2);
    if (job->costs_length < 1) return fault(2, 15, 1);
    if (job->chains_length < HURZELMA_ROW * HURZELMA_FORK_ROWS) return fault(2, 15, 2);
    return 0;
}

/* The best costs from every format to one, and whether a walk leads there; false where they do not settle. */
static bool relax(const struct job *job, size_t goal, struct cost *best, bool *leads) {
    memset(leads, 0, job->n * sizeof *leads);
    best[goal] = unit;
    leads[goal] = true;
    for (size_t round = 0; round <= job->n; round++) {
        bool changed = false;
        for (size_t s = 0; s < job->n; s++) {
            for (size_t t = 0; t < job->n; t++) {
                if (!leads[t] || !stands(job, s, t)) continue;
                struct cost cost = sum(job->cards[s * job->n + t], best[t]);
                if (leads[s] && !better(cost, best[s])) continue;
                best[s] = cost;
                leads[s] = true;
                changed = true;
            }
        }
        if (!changed) return true;
    }
    return false;
}

static bool gains(const struct job *job) {
    struct cost best[MOST];
    bool leads[MOST];
    for (size_t goal = 0; goal < job->n; goal++) {
        if (!relax(job, goal, best, leads)) return true;
    }
    return false;
}

/* Whether a row holds so many formats of a walk over standing cards, and 255 behind them; then the walk's cost. */
static bool is_walk(const struct job *job, const uint8_t *row, struct cost *cost) {
    size_t count = row[0];
    if (count < 1 || count > 65) return false;
    *cost = unit;
    for (size_t i = 1; i < HURZELMA_ROW; i++) {
        if (i > count ? row[i] != 255 : row[i] >= job->n) return false;
        if (i < 2 || i > count) continue;
        if (!stands(job, row[i - 1], row[i])) return false;
        *cost = sum(*cost, job->cards[row[i - 1] * job->n + row[i]]);
    }
    return true;
}

/* Whether no format comes twice among some. */
static bool all_differ(const uint8_t *formats, size_t count) {
    bool met[256] = {false};
    for (size_t i = 0; i < count; i++) {
        if (met[formats[i]]) return false;
        met[formats[i]] = true;
    }
    return true;
}

static bool is_loop(const struct job *job, const uint8_t *row) {
    struct cost cost;
    return is_walk(job, row, &cost) && row[0] > 1 && row[1] == row[row[0]] && all_differ(row + 1, row[0] - 1u) && better(cost, unit);
}

/* The best cost from one format to another; false where no walk leads there. */
static bool best_cost(const struct job *job, size_t from, size_t to, struct cost *cost) {
    struct cost best[MOST];
    bool leads[MOST];
    relax(job, to, best, leads);
    *cost = best[from];
    return leads[from];
}

/* Whether a row is a chain from one format to another at this cost. */
static bool is_chain(const struct job *job, size_t from, size_t to, const uint8_t *row, struct cost told) {
    struct cost cost;
    return is_walk(job, row, &cost) && all_differ(row + 1, row[0]) && row[1] == from && row[row[0]] == to && equal(cost, told);
}

/* Whether a leg's row and cost are right. */
static bool is_served(const struct job *job, struct hurzelma_leg leg, const uint8_t *row, struct cost told) {
    struct cost best;
    if (!best_cost(job, leg.from, leg.to, &best)) {
        for (size_t i = 1; i < HURZELMA_ROW; i++) {
            if (row[i] != 255) return false;
        }
        return row[0] == 0 && equal(told, unit);
    }
    return equal(told, best) && is_chain(job, leg.from, leg.to, row, told);
}

/* A split of a fork: its format, what its chains cost, and their sum. */
struct split {
    size_t at;
    struct cost parts[HURZELMA_FORK_ROWS], total;
};

/* The lowest split of those whose total is best; at n where there is none. */
static struct split best_split(const struct job *job, const struct fork *fork) {
    struct split best = {.at = job->n};
    struct cost first[MOST], second[MOST];
    bool leads_first[MOST], leads_second[MOST];
    relax(job, fork->first, first, leads_first);
    relax(job, fork->second, second, leads_second);
    for (size_t at = 0; at < job->n; at++) {
        struct split split = {at, {unit, first[at], second[at]}, unit};
        if (!leads_first[at] || !leads_second[at] || !best_cost(job, fork->input, at, &split.parts[0])) continue;
        split.total = sum(split.parts[0], sum(split.parts[1], split.parts[2]));
        if (best.at == job->n || better(split.total, best.total)) best = split;
    }
    return best;
}

/* Whether two chains to one format go on alike from where they meet. */
static bool agree(const uint8_t *one, const uint8_t *other) {
    if (one[0] == 0 || other[0] == 0 || one[one[0]] != other[other[0]]) return true;
    for (size_t i = 1; i <= one[0]; i++) {
        for (size_t j = 1; j <= other[0]; j++) {
            if (one[i] != other[j]) continue;
            size_t more = one[0] - i;
            if (more != other[0] - j || memcmp(one + i, other + j, more + 1) != 0) return false;
        }
    }
    return true;
}

/* The cost that an entry of the sheet tells. */
static struct cost told_cost(const struct job *job, struct hurzelma_both entry) {
    return (struct cost){job->kind == DEPTH ? 0 : entry.delay, job->kind == DELAY ? 255 : entry.depth};
}

/* Whether a call for a loop left such a loop in row 0, and all else as it was. */
static bool is_looped(const struct job *job, const struct left *before, const struct left *after) {
    return is_loop(job, after->chains) && memcmp(before->costs, after->costs, sizeof before->costs) == 0 &&
           memcmp(before->chains + HURZELMA_ROW, after->chains + HURZELMA_ROW, BYTES - HURZELMA_ROW) == 0 && before->split == after->split;
}

/* Whether all is as it was but so many entries and bytes of the sheets. */
static bool is_beyond(size_t entries, size_t bytes, const struct left *before, const struct left *after) {
    return memcmp(before->costs + entries, after->costs + entries, (LEGS - entries) * sizeof before->costs[0]) == 0 &&
           memcmp(before->chains + bytes, after->chains + bytes, BYTES - bytes) == 0;
}

/* Whether all is right that a fork told and left. */
static bool is_forked(const struct job *job, const struct fork *fork, uint32_t told, const struct left *before, const struct left *after) {
    uint32_t cause = early_fork(job, fork);
    if (cause != 0) return told == cause && memcmp(before, after, sizeof *before) == 0;
    if (gains(job)) return told == fault(2, 26, 0) && is_looped(job, before, after);
    struct split best = best_split(job, fork);
    if (best.at == job->n) return told == fault(2, 27, 0) && memcmp(before, after, sizeof *before) == 0;
    const uint8_t *rows = after->chains;
    return told == 0 && after->split == best.at && equal(told_cost(job, after->costs[0]), best.total) &&
           is_chain(job, fork->input, best.at, rows, best.parts[0]) &&
           is_chain(job, best.at, fork->first, rows + HURZELMA_ROW, best.parts[1]) &&
           is_chain(job, best.at, fork->second, rows + 2 * HURZELMA_ROW, best.parts[2]) &&
           is_beyond(1, HURZELMA_FORK_ROWS * HURZELMA_ROW, before, after);
}

/* Whether all is right that a route told and left. */
static bool is_right(const struct job *job, uint32_t told, const struct left *before, const struct left *after) {
    uint32_t cause = early(job);
    if (cause != 0) return told == cause && memcmp(before, after, sizeof *before) == 0;
    size_t legs = job->legs_length;
    if (gains(job)) return told == fault(2, 26, 0) && is_looped(job, before, after);
    for (size_t k = 0; k < legs; k++) {
        if (!is_served(job, job->legs[k], after->chains + HURZELMA_ROW * k, told_cost(job, after->costs[k]))) return false;
        for (size_t j = 0; j < k; j++) {
            if (!agree(after->chains + HURZELMA_ROW * j, after->chains + HURZELMA_ROW * k)) return false;
        }
    }
    return told == 0 && is_beyond(legs, HURZELMA_ROW * legs, before, after);
}

/* The calls. */

static int64_t draw_delay(int64_t low) {
    if (chance(60)) return draw(0, 1) * 4000002 - 2000001;
    if (chance(200)) return draw(0, 1) * 4000000 - 2000000;
    return draw(low, 9);
}

static int64_t draw_depth(void) {
    if (chance(60)) return draw(0, 1) * 17;
    return chance(200) ? 16 : draw(1, 16);
}

static struct cost draw_cost(enum kind kind, bool none, int64_t low) {
    int64_t delay = none ? HURZELMA_NO_DELAY : draw_delay(low), depth = none ? HURZELMA_NO_DEPTH : draw_depth();
    return (struct cost){kind == DEPTH ? 0 : delay, kind == DELAY ? 255 : depth};
}

static void draw_job(struct job *job) {
    static const size_t odd_sizes[] = {0, 1, 65, 66, 64};
    job->kind = (enum kind)draw(DELAY, BOTH);
    job->n = chance(40) ? odd_sizes[draw(0, 4)] : (size_t)(chance(200) ? draw(20, 40) : draw(2, 7));
    job->cards_length = job->n * job->n - (size_t)(job->n > 0 && chance(40));
    int64_t low = draw(-3, 1), of = draw(1, 5);
    for (size_t i = 0; i < job->n * job->n; i++) {
        job->cards[i] = draw_cost(job->kind, !chance((int)of), low);
    }
    job->legs_length = (size_t)(chance(30) ? draw(31, 34) : draw(0, 5));
    for (size_t k = 0; k < job->legs_length; k++) {
        size_t last = job->n < 2 ? 1 : job->n - 1;
        job->legs[k].from = chance(300) ? SIZE_MAX : (size_t)draw(0, (int64_t)last);
        job->legs[k].to = chance(300) ? job->n : (size_t)draw(0, (int64_t)last);
        if (chance(10)) job->legs[k].to = job->legs[k].from;
    }
    job->costs_length = LEGS;
    job->chains_length = BYTES;
    if (job->legs_length > 0 && chance(30)) job->costs_length = job->legs_length - 1;
    if (job->legs_length > 0 && chance(30)) job->chains_length = HURZELMA_ROW * job->legs_length - 1;
}

/* A fork over a job's cards, mostly with room enough. */
static void draw_fork(struct job *job, struct fork *fork) {
    size_t last = job->n < 2 ? 1 : job->n - 1;
    size_t *formats[] = {&fork->input, &fork->first, &fork->second};
    for (size_t i = 0; i < 3; i++) *formats[i] = chance(60) ? (chance(5) ? SIZE_MAX : job->n) : (size_t)draw(0, (int64_t)last);
    if (chance(10)) fork->second = fork->first;
    if (chance(10)) fork->first = fork->input;
    job->costs_length = chance(30) ? 0 : (size_t)draw(1, LEGS);
    job->chains_length = (size_t)(chance(30) ? draw(0, 3 * HURZELMA_ROW - 1) : draw(3 * HURZELMA_ROW, BYTES));
}

/* The calls: a fork, or a route where none is given. */

static uint32_t call_delay(const struct job *job, const struct fork *fork, struct left *left) {
    hurzelma_half_lines cards[CARDS], costs[LEGS];
    for (size_t i = 0; i < job->n * job->n; i++) cards[i] = (hurzelma_half_lines)job->cards[i].delay;
    for (size_t k = 0; k < LEGS; k++) costs[k] = left->costs[k].delay;
    uint32_t told = fork ? hurzelma_fork_delay(job->n, cards, job->cards_length, fork->input, fork->first, fork->second,
                                               costs, job->costs_length, left->chains, job->chains_length, &left->split)
                         : hurzelma_route_delay(job->n, cards, job->cards_length, job->legs, job->legs_length,
                                                costs, job->costs_length, left->chains, job->chains_length);
    for (size_t k = 0; k < LEGS; k++) left->costs[k].delay = costs[k];
    return told;
}

static uint32_t call_depth(const struct job *job, const struct fork *fork, struct left *left) {
    hurzelma_bits cards[CARDS], costs[LEGS];
    for (size_t i = 0; i < job->n * job->n; i++) cards[i] = (hurzelma_bits)job->cards[i].depth;
    for (size_t k = 0; k < LEGS; k++) costs[k] = left->costs[k].depth;
    uint32_t told = fork ? hurzelma_fork_depth(job->n, cards, job->cards_length, fork->input, fork->first, fork->second,
                                               costs, job->costs_length, left->chains, job->chains_length, &left->split)
                         : hurzelma_route_depth(job->n, cards, job->cards_length, job->legs, job->legs_length,
                                                costs, job->costs_length, left->chains, job->chains_length);
    for (size_t k = 0; k < LEGS; k++) left->costs[k].depth = costs[k];
    return told;
}

static uint32_t call_both(const struct job *job, const struct fork *fork, struct left *left) {
    struct hurzelma_both cards[CARDS];
    for (size_t i = 0; i < job->n * job->n; i++) {
        cards[i] = (struct hurzelma_both){(hurzelma_half_lines)job->cards[i].delay, (hurzelma_bits)job->cards[i].depth};
    }
    return fork ? hurzelma_fork_both(job->n, cards, job->cards_length, fork->input, fork->first, fork->second,
                                     left->costs, job->costs_length, left->chains, job->chains_length, &left->split)
                : hurzelma_route_both(job->n, cards, job->cards_length, job->legs, job->legs_length,
                                      left->costs, job->costs_length, left->chains, job->chains_length);
}

static uint32_t call(const struct job *job, const struct fork *fork, struct left *left) {
    return job->kind == DELAY ? call_delay(job, fork, left) : job->kind == DEPTH ? call_depth(job, fork, left) : call_both(job, fork, left);
}

/* A ticket, its answer, and what it is told. */
struct answered {
    const char *ticket, *answer;
    struct hurzelma_verdict verdict;
};

enum { TICKET_MOST = 200, ANSWER_MOST = 120 };

static const struct answered tickets[] = {
    {"(bay delay 2)\n(format 0 UYVY)\n(format 1 v210)\n(card (0 1) -4.5)\n(leg (0 1))\n(leg (1 0))\n(leg (1 1))\n(end)\n",
     "(leg 0 (0 1) -4.5 (UYVY v210))\n(leg 1 (1 0) none)\n(leg 2 (1 1) 0 (v210))\n(end)\n", {0, 0, 0, 0}},
    {"(bay depth 2)\n(format 0 UYVY)\n(format 1 v210)\n(card (0 1) 10)\n(leg (0 1))\n(end)\n", "(leg 0 (0 1) 10 (UYVY v210))\n(end)\n", {0, 0, 0, 0}},
    {"(bay both 2)\n(format 0 UYVY)\n(format 1 v210)\n(card (0 1) (-0.5 10))\n(leg (0 1))\n(end)\n",
     "(leg 0 (0 1) (-0.5 10) (UYVY v210))\n(end)\n", {0, 0, 0, 0}},
    {"", "(refused ticket 2 0 0)\n", {1, 2, 0, 0}},
    {"(bay delay 1)\n", "(refused ticket 3 0 11)\n", {1, 3, 0, 11}},
    {"(bay delay 2)\n(format 0 UYVY)\n(format 1 v210)\n(card (0 1) 1)\n(card (1 2) 1)\n", "(refused register 11 1 61)\n", {3, 11, 1, 61}},
    {"(bay delay 2)\n(format 0 UYVY)\n(format 1 v210)\n(card (0 1) -2)\n(card (1 0) 1.5)\n(leg (0 0))\n(end)\n",
     "(refused bay 26 0 91)\n(loop (v210 UYVY v210))\n", {2, 26, 0, 91}},
};

/* Whether a ticket is answered rightly in a place of so many bytes, and nothing else is written. */
static bool is_answered(const struct answered *as, size_t room) {
    uint8_t text[TICKET_MOST], place[ANSWER_MOST], right[ANSWER_MOST];
    struct hurzelma_verdict verdict = {77, 77, 77, 77};
    size_t length = SIZE_MAX, ticket = strlen(as->ticket), wanted = strlen(as->answer);
    memset(text, 8, sizeof text);
    memcpy(text, as->ticket, ticket);
    memset(place, 9, sizeof place);
    memset(right, 9, sizeof right);
    if (wanted <= room) memcpy(right, as->answer, wanted);
    uint32_t told = hurzelma_answer(text, ticket, place, room, &length, &verdict);
    return told == (wanted <= room ? HURZELMA_WRITTEN : HURZELMA_PLACE_SHORT) && length == wanted &&
           memcmp(text, as->ticket, ticket) == 0 && text[ticket] == 8 && memcmp(place, right, sizeof place) == 0 &&
           verdict.layer == as->verdict.layer && verdict.number == as->verdict.number && verdict.part == as->verdict.part &&
           verdict.byte == as->verdict.byte;
}

/* Each ticket in places that are too short and long enough. */
static bool tickets_are_answered(void) {
    for (size_t i = 0; i < sizeof tickets / sizeof *tickets; i++) {
        for (size_t room = 0; room < ANSWER_MOST; room++) {
            if (!is_answered(&tickets[i], room)) return false;
        }
    }
    return true;
}

/* The most that a ticket can be answered: 32 legs, each over all 64 formats, with a cost of two parts. */
static bool longest_is_answered(void) {
    static char text[HURZELMA_TICKET];
    static uint8_t place[HURZELMA_ANSWER];
    struct hurzelma_verdict verdict;
    size_t length, end = 0;
    end += (size_t)sprintf(text + end, "(bay both 64)\n");
    for (int f = 0; f < 64; f++) end += (size_t)sprintf(text + end, "(format %d F%03d)\n", f, f);
    for (int f = 0; f < 63; f++) end += (size_t)sprintf(text + end, "(card (%d %d) (-999999.5 16))\n", f, f + 1);
    for (int k = 0; k < 32; k++) end += (size_t)sprintf(text + end, "(leg (0 63))\n");
    end += (size_t)sprintf(text + end, "(end)\n");
    if (hurzelma_answer((const uint8_t *)text, end, place, sizeof place, &length, &verdict) != HURZELMA_WRITTEN) return false;
    return verdict.layer == 0 && length > 11000 && memcmp(place + length - 6, "(end)\n", 6) == 0;
}

/* Every fault that there is, as its layer, number and parts from 0 on. */
static const struct {
    uint32_t layer, number, parts;
} faults[] = {
    {1, 1, 1}, {1, 2, 1}, {1, 3, 1}, {1, 4, 1}, {2, 11, 3}, {2, 14, 1}, {2, 15, 4}, {2, 24, 1}, {2, 25, 1}, {2, 26, 1},
    {2, 27, 1}, {3, 11, 2}, {3, 16, 2}, {3, 21, 1}, {3, 22, 1}, {3, 23, 1}, {3, 28, 65}, {3, 29, 1},
};

/* Two faults of a register name one part alone, which is not 0. */
static bool is_fault(uint32_t layer, uint32_t number, uint32_t part) {
    if (layer == 3 && number == 12) return part == 1;
    if (layer == 3 && number == 13) return part == 2;
    for (size_t i = 0; i < sizeof faults / sizeof *faults; i++) {
        if (faults[i].layer == layer && faults[i].number == number) return part < faults[i].parts;
    }
    return false;
}

/* Whether each fault has words, of any leg, and nothing else has; and what a place of words then holds. */
static bool faults_have_words(void) {
    for (uint32_t told = 0; told < 1u << 19; told++) {
        uint8_t place[HURZELMA_WORDS + 1], again[HURZELMA_WORDS + 1];
        size_t length = SIZE_MAX, wanted = SIZE_MAX;
        memset(place, 9, sizeof place);
        if (hurzelma_fault_text(told, place, HURZELMA_WORDS, &length) != HURZELMA_WRITTEN) return false;
        bool there = is_fault(HURZELMA_LAYER(told), HURZELMA_NUMBER(told), HURZELMA_PART(told));
        if (length > HURZELMA_WORDS || (length > 0) != there || place[length] != 9) return false;
        if (!there) continue;
        memset(again, 9, sizeof again);
        if (hurzelma_fault_text(told, again, length - 1, &wanted) != HURZELMA_PLACE_SHORT || wanted != length || again[0] != 9) return false;
        if (hurzelma_fault_text(told | 31u << 24, again, length, &wanted) != HURZELMA_WRITTEN) return false;
        if (wanted != length || memcmp(place, again, sizeof place) != 0) return false;
    }
    return true;
}

/* House tables of a customer's. */

static struct cost of_delay(hurzelma_half_lines delay) {
    return (struct cost){delay, 255};
}

/* What a table is told, written anew: the numbers, and the room for them. */
static uint32_t table_fault(const int32_t *numbers, size_t length, size_t room) {
    static struct job job;
    if (length != HURZELMA_TABLE || room != HURZELMA_TABLE) return fault(3, 28, HURZELMA_TABLE);
    for (uint32_t i = 0; i < HURZELMA_TABLE; i++) {
        bool diagonal = i % (HURZELMA_TABLE_FORMATS + 1) == 0;
        if (numbers[i] == HURZELMA_NO_DELAY) continue;
        if (diagonal || numbers[i] < -2000000 || 2000000 < numbers[i]) return fault(3, 28, i);
    }
    job.n = HURZELMA_TABLE_FORMATS;
    for (size_t i = 0; i < HURZELMA_TABLE; i++) job.cards[i] = of_delay(numbers[i]);
    return gains(&job) ? fault(3, 29, 0) : 0;
}

/* Whether a table is checked rightly into a place; the place is then what it left. */
static bool is_checked(const int32_t *numbers, size_t length, int32_t *place, size_t room) {
    int32_t handed[PLACE], right[PLACE];
    uint32_t cause = table_fault(numbers, length, room);
    memcpy(handed, numbers, sizeof handed);
    memcpy(right, place, sizeof right);
    if (cause == 0) memcpy(right, numbers, length * sizeof *right);
    return hurzelma_check_table(numbers, length, place, room) == cause && memcmp(place, right, sizeof right) == 0 &&
           memcmp(handed, numbers, sizeof handed) == 0;
}

/* Bars, and a job over what a place holds under them. */
static uint64_t draw_over_table(const int32_t *place, size_t length, struct job *job) {
    uint64_t bars = (uint64_t)draw(0, 255) & (uint64_t)draw(0, 255) & (uint64_t)draw(0, 255);
    if (chance(3)) bars = 0;
    if (chance(9)) bars |= UINT64_MAX << 8;
    draw_job(job);
    job->kind = DELAY;
    job->n = HURZELMA_TABLE_FORMATS;
    job->cards_length = HURZELMA_TABLE;
    for (size_t k = 0; k < job->legs_length; k++) {
        job->legs[k].from = chance(300) ? SIZE_MAX : (size_t)draw(0, 7);
        job->legs[k].to = chance(300) ? 8 : (size_t)draw(0, 7);
    }
    bool passes = table_fault(place, length, length) == 0;
    for (size_t i = 0; i < HURZELMA_TABLE; i++) {
        bool barred = bars >> (i / 8) & 1 || bars >> (i % 8) & 1;
        job->cards[i] = of_delay(passes && !barred ? place[i] : HURZELMA_NO_DELAY);
    }
    return bars;
}

/* Whether legs are routed, or an input forks, rightly over what a place holds, under bars. */
static bool is_told_over(const int32_t *place, size_t length, struct job *job, bool forks) {
    static struct left before, after;
    hurzelma_half_lines costs[LEGS];
    struct fork fork;
    uint64_t bars = draw_over_table(place, length, job);
    if (forks) draw_fork(job, &fork);
    memset(&before, 0, sizeof before);
    for (size_t k = 0; k < LEGS; k++) before.costs[k].delay = costs[k] = (hurzelma_half_lines)draw(0, 255);
    for (size_t k = 0; k < BYTES; k++) before.chains[k] = (uint8_t)draw(0, 255);
    memcpy(&after, &before, sizeof after);
    uint32_t told = forks ? hurzelma_fork_table(place, length, bars, fork.input, fork.first, fork.second,
                                                costs, job->costs_length, after.chains, job->chains_length, &after.split)
                          : hurzelma_route_table(place, length, bars, job->legs, job->legs_length,
                                                 costs, job->costs_length, after.chains, job->chains_length);
    for (size_t k = 0; k < LEGS; k++) after.costs[k].delay = costs[k];
    bool right = forks ? is_forked(job, &fork, told, &before, &after) : is_right(job, told, &before, &after);
    return HURZELMA_NUMBER(told) != 26 && right;
}

/* A table: often one in which a card costs at least what the heights of its ends fall, so that it does not gain. */
static void draw_table(int32_t *numbers) {
    int64_t heights[HURZELMA_TABLE_FORMATS], low = chance(3) ? draw(-2, -1) : 0;
    int of = (int)draw(1, 6);
    for (size_t f = 0; f < HURZELMA_TABLE_FORMATS; f++) heights[f] = chance(20) ? draw(-1000000, 1000000) : draw(-9, 9);
    for (size_t i = 0; i < PLACE; i++) {
        int64_t falls = i < HURZELMA_TABLE ? heights[i / 8] - heights[i % 8] : 0;
        numbers[i] = i / 8 == i % 8 || !chance(of) ? HURZELMA_NO_DELAY : (int32_t)(draw(low, 9) - falls);
    }
    if (chance(20)) numbers[draw(0, 63)] = (int32_t)draw(0, 1) * 4000002 - 2000001;
    if (chance(20)) numbers[draw(0, 63)] = (int32_t)draw(0, 1) * 4000000 - 2000000;
    if (chance(20)) numbers[draw(0, 7) * 9] = (int32_t)draw(-1, 1);
}

/* Our own table with one number changed, at each index in turn: to one that is too large, too small, the most, the least, none. */
static bool each_index_is_told(void) {
    static const int32_t odd[] = {2000001, -2000001, 2000000, -2000000, HURZELMA_NO_DELAY, INT32_MAX, HURZELMA_NO_DELAY + 1};
    int32_t own[PLACE] = {0}, place[PLACE];
    if (hurzelma_own_table(own, HURZELMA_TABLE) != 0 || own[HURZELMA_TABLE] != 0) return false;
    for (size_t room = 63; room <= 65; room += 2) {
        memset(place, 9, sizeof place);
        if (hurzelma_own_table(place, room) != fault(3, 28, 64) || place[0] != 0x09090909) return false;
    }
    if (table_fault(own, HURZELMA_TABLE, HURZELMA_TABLE) != 0) return false;
    for (size_t i = 0; i < HURZELMA_TABLE; i++) {
        for (size_t k = 0; k < sizeof odd / sizeof *odd; k++) {
            int32_t numbers[PLACE];
            memcpy(numbers, own, sizeof numbers);
            numbers[i] = odd[k];
            memset(place, 9, sizeof place);
            if (!is_checked(numbers, HURZELMA_TABLE, place, HURZELMA_TABLE)) return false;
        }
    }
    return true;
}

/* Tables that are drawn, each checked into a place, and legs routed and an input forked over what the place then holds; answers how many
 * passed, or -1. */
static int tables_told(struct job *job) {
    static const size_t odd_lengths[] = {0, 1, 8, 63, 65, 66};
    int passed = 0;
    for (unsigned i = 0; i < TABLES; i++) {
        int32_t numbers[PLACE], place[PLACE];
        size_t length = chance(30) ? odd_lengths[draw(0, 5)] : HURZELMA_TABLE;
        size_t room = chance(30) ? odd_lengths[draw(0, 5)] : HURZELMA_TABLE;
        draw_table(numbers);
        draw_table(place);
        passed += table_fault(numbers, length, room) == 0;
        if (!is_checked(numbers, length, place, room)) return -1;
        if (!is_told_over(place, room, job, false) || !is_told_over(place, room, job, true)) return -1;
    }
    return passed;
}

/* A call of a route, or of a fork, with sheets that hold anything; answers whether it was told rightly, and what. */
static bool is_told(struct job *job, bool forks, uint32_t *told) {
    static struct left before, after;
    struct fork fork;
    draw_job(job);
    if (forks) draw_fork(job, &fork);
    for (size_t k = 0; k < sizeof before; k++) ((uint8_t *)&before)[k] = (uint8_t)draw(0, 255);
    memcpy(&after, &before, sizeof after);
    *told = call(job, forks ? &fork : NULL, &after);
    return forks ? is_forked(job, &fork, *told, &before, &after) : is_right(job, *told, &before, &after);
}

/* So many calls; answers whether all were told rightly, and prints how many were granted and found a loop. */
static bool all_told(struct job *job, bool forks, unsigned calls) {
    unsigned granted = 0, loops = 0, unsplit = 0;
    for (unsigned i = 0; i < calls; i++) {
        uint32_t told;
        if (!is_told(job, forks, &told)) {
            printf("%s %u of %zu formats is wrong: it was told %u\n", forks ? "fork" : "call", i, job->n, told);
            return false;
        }
        granted += told == 0;
        loops += HURZELMA_NUMBER(told) == 26;
        unsplit += HURZELMA_NUMBER(told) == 27;
    }
    printf("%u %s told rightly: %u granted, %u loops", calls, forks ? "forks" : "calls", granted, loops);
    if (forks) printf(", %u without a split", unsplit);
    printf("\n");
    return true;
}

int main(void) {
    static struct job job;
    if (!each_index_is_told()) {
        printf("a table with one number changed is told wrongly\n");
        return 1;
    }
    if (!tickets_are_answered() || !longest_is_answered()) {
        printf("a ticket is answered wrongly\n");
        return 1;
    }
    if (!faults_have_words() || hurzelma_version() != HURZELMA_VERSION_NUMBER) {
        printf("the words of a fault, or the version, are wrong\n");
        return 1;
    }
    if (!all_told(&job, false, CALLS) || !all_told(&job, true, FORKS)) return 1;
    int passed = tables_told(&job);
    if (passed < 0) {
        printf("a table, or a route or a fork over one, is told wrongly\n");
        return 1;
    }
    printf("%d tables told rightly: %d passed\n", TABLES, passed);
    return 0;
}
