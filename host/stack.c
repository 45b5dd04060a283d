/* Calls the library from a thread with 64 kB of stack, each time in memory that is lent to the call as its stack, and measures how
 * much of that it took: no more than the header says. Prints the most of each sort.
 *
 * So a host whose threads have little stack lends a call as much as it wants: `in_memory` is all that it needs for that. */
#define _XOPEN_SOURCE 700
#include "hurzelma.h"

#include <pthread.h>
#include <stdbool.h>
#include <stdio.h>
#include <string.h>
#include <ucontext.h>

/* What stands on the lent memory besides the call: the frames of `enter` and of the call's caller. */
enum { BESIDES = 4096, THREAD = 64 * 1024, LENT = HURZELMA_STACK + BESIDES, UNTOUCHED = 0xA5 };

static ucontext_t caller, called;
static void (*work)(void);

static void enter(void) {
    work();
}

/* Calls a function with so much memory as its stack. */
static bool in_memory(void (*function)(void), void *memory, size_t size) {
    if (getcontext(&called) != 0) return false;
    called.uc_stack.ss_sp = memory;
    called.uc_stack.ss_size = size;
    called.uc_link = &caller;
    work = function;
    makecontext(&called, enter, 0);
    return swapcontext(&caller, &called) == 0;
}

enum { FORMATS = HURZELMA_MOST_FORMATS, LEGS = HURZELMA_MOST_LEGS };

static size_t formats, split;
static struct hurzelma_leg legs[LEGS];
static hurzelma_half_lines delays[FORMATS * FORMATS], place[HURZELMA_TABLE], delay_costs[LEGS];
static hurzelma_bits depths[FORMATS * FORMATS], depth_costs[LEGS];
static struct hurzelma_both boths[FORMATS * FORMATS], both_costs[LEGS];
static uint8_t chains[LEGS * HURZELMA_ROW], answer[HURZELMA_ANSWER];
static char ticket[HURZELMA_TICKET];
static size_t ticket_length, length;
static struct hurzelma_verdict verdict;

static void nothing(void) {
}

static void route_delay(void) {
    hurzelma_route_delay(formats, delays, FORMATS * FORMATS, legs, LEGS, delay_costs, LEGS, chains, sizeof chains);
}

static void route_depth(void) {
    hurzelma_route_depth(formats, depths, FORMATS * FORMATS, legs, LEGS, depth_costs, LEGS, chains, sizeof chains);
}

static void route_both(void) {
    hurzelma_route_both(formats, boths, FORMATS * FORMATS, legs, LEGS, both_costs, LEGS, chains, sizeof chains);
}

static void fork_delay(void) {
    hurzelma_fork_delay(formats, delays, FORMATS * FORMATS, 0, formats / 2, formats - 1, delay_costs, LEGS, chains, sizeof chains, &split);
}

static void fork_depth(void) {
    hurzelma_fork_depth(formats, depths, FORMATS * FORMATS, 0, formats / 2, formats - 1, depth_costs, LEGS, chains, sizeof chains, &split);
}

static void fork_both(void) {
    hurzelma_fork_both(formats, boths, FORMATS * FORMATS, 0, formats / 2, formats - 1, both_costs, LEGS, chains, sizeof chains, &split);
}

static void check_table(void) {
    hurzelma_own_table(place, HURZELMA_TABLE);
    hurzelma_check_table(place, HURZELMA_TABLE, delays, HURZELMA_TABLE);
}

static void route_table(void) {
    hurzelma_route_table(place, HURZELMA_TABLE, 0, legs, LEGS, delay_costs, LEGS, chains, sizeof chains);
}

static void fork_table(void) {
    hurzelma_fork_table(place, HURZELMA_TABLE, 0, 4, 2, 6, delay_costs, LEGS, chains, sizeof chains, &split);
}

static void fault_text(void) {
    hurzelma_fault_text(HURZELMA_FAULT(2, 11, 1), answer, sizeof answer, &length);
}

static void answer_ticket(void) {
    hurzelma_answer((const uint8_t *)ticket, ticket_length, answer, sizeof answer, &length, &verdict);
}

/* Cards between all formats that are near one another, and legs over as many of them as there may be. */
static void draw(size_t n) {
    formats = n;
    for (size_t s = 0; s < n; s++) {
        for (size_t t = 0; t < n; t++) {
            bool near = s < t + 3 && t < s + 3;
            delays[s * n + t] = near ? (hurzelma_half_lines)((s * 7 + t * 5) % 11) : HURZELMA_NO_DELAY;
            depths[s * n + t] = near ? (hurzelma_bits)(1 + (s * 7 + t * 5) % 16) : HURZELMA_NO_DEPTH;
            boths[s * n + t] = (struct hurzelma_both){delays[s * n + t], depths[s * n + t]};
        }
    }
    for (size_t k = 0; k < LEGS; k++) legs[k] = (struct hurzelma_leg){k % n, (n - 1 - k % n) % n};
}

/* A ticket of a kind, over as many formats as there are. */
static void write_ticket(const char *kind, const char *cost) {
    size_t end = (size_t)sprintf(ticket, "(bay %s %d)\n", kind, FORMATS);
    for (int f = 0; f < FORMATS; f++) end += (size_t)sprintf(ticket + end, "(format %d F%03d)\n", f, f);
    for (int f = 0; f < FORMATS - 1; f++) end += (size_t)sprintf(ticket + end, "(card (%d %d) %s)\n", f, f + 1, cost);
    for (int k = 0; k < LEGS; k++) end += (size_t)sprintf(ticket + end, "(leg (0 63))\n");
    ticket_length = end + (size_t)sprintf(ticket + end, "(end)\n");
}

static uint8_t lent[LENT];

/* How much of the lent memory a call takes, or all of it where the call could not be made. */
static size_t taken(void (*function)(void)) {
    size_t free_bytes = 0;
    memset(lent, UNTOUCHED, sizeof lent);
    if (!in_memory(function, lent, sizeof lent)) return sizeof lent;
    while (free_bytes < sizeof lent && lent[free_bytes] == UNTOUCHED) free_bytes++;
    return sizeof lent - free_bytes;
}

static size_t most, few, unsplit;

static void measure(size_t *sort, void (*function)(void)) {
    size_t bytes = taken(function), besides = taken(nothing);
    if (*sort + besides < bytes) *sort = bytes - besides;
}

static void *measure_all(void *unused) {
    static void (*const calls[])(void) = {route_delay, route_depth, route_both, fork_delay, fork_depth, fork_both};
    static const size_t sizes[] = {2, 8, 16, 17, FORMATS};
    (void)unused;
    for (size_t i = 0; i < sizeof sizes / sizeof *sizes; i++) {
        draw(sizes[i]);
        for (size_t k = 0; k < sizeof calls / sizeof *calls; k++) {
            split = FORMATS;
            measure(sizes[i] <= HURZELMA_FEW_FORMATS ? &few : &most, calls[k]);
            if (k >= 3 && split >= formats) unsplit++;
        }
    }
    draw(8);
    measure(&few, check_table);
    measure(&few, route_table);
    measure(&few, fork_table);
    measure(&few, fault_text);
    write_ticket("delay", "-999999.5");
    measure(&most, answer_ticket);
    write_ticket("depth", "16");
    measure(&most, answer_ticket);
    write_ticket("both", "(-999999.5 16)");
    measure(&most, answer_ticket);
    return NULL;
}

int main(void) {
    pthread_t thread;
    pthread_attr_t attributes;
    if (pthread_attr_init(&attributes) != 0 || pthread_attr_setstacksize(&attributes, THREAD) != 0) return 2;
    if (pthread_create(&thread, &attributes, measure_all, NULL) != 0 || pthread_join(thread, NULL) != 0) return 2;
    printf("measured in lent memory: %zu bytes, %zu over few formats\n", most, few);
    if (verdict.layer != 0 || length < 11000) {
        printf("a ticket is answered wrongly there\n");
        return 1;
    }
    if (unsplit > 0) {
        printf("%zu forks find no split there\n", unsplit);
        return 1;
    }
    return most <= HURZELMA_STACK && few <= HURZELMA_STACK_FEW ? 0 : 1;
}
