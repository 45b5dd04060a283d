/* A host in C: it asks for five routes and three forks by numbers, for two routes and a fork over a table of its own, and for the answers
 * to three tickets, and prints what it is told. */
#include "hurzelma.h"

#include <stdio.h>
#include <string.h>

#define FORMATS 3
#define LEGS 3

static void print_told(uint32_t told) {
    printf("refused: layer %u, number %u, part %u\n", HURZELMA_LAYER(told), HURZELMA_NUMBER(told), HURZELMA_PART(told));
}

/* The words of a fault. */
static void print_words(uint32_t told) {
    uint8_t words[HURZELMA_WORDS];
    size_t length = 0;
    hurzelma_fault_text(told, words, sizeof words, &length);
    fwrite(words, 1, length, stdout);
    printf("\n");
}

static void print_row(const uint8_t *row) {
    for (unsigned i = 1; i <= row[0]; i++) {
        printf(" %u", row[i]);
    }
    printf("\n");
}

/* Each leg's cost and chain. */
static void print_legs(size_t legs, const hurzelma_half_lines *costs, const uint8_t *chains) {
    for (size_t k = 0; k < legs; k++) {
        const uint8_t *row = chains + k * HURZELMA_ROW;
        if (row[0] == 0) {
            printf("leg %zu: none\n", k);
        } else {
            printf("leg %zu: %d half lines by", k, (int)costs[k]);
            print_row(row);
        }
    }
}

/* Routes legs over three formats, with delays in half lines, and prints each leg's cost and chain, or the loop. */
static void route(const hurzelma_half_lines cards[FORMATS * FORMATS], const struct hurzelma_leg legs[LEGS]) {
    hurzelma_half_lines costs[LEGS] = {0};
    uint8_t chains[LEGS * HURZELMA_ROW] = {0};
    uint32_t told = hurzelma_route_delay(FORMATS, cards, FORMATS * FORMATS, legs, LEGS, costs, LEGS, chains, sizeof chains);
    if (told != HURZELMA_GRANTED) {
        print_told(told);
        if (HURZELMA_NUMBER(told) == HURZELMA_CAUSE_LOOP) {
            printf("loop:");
            print_row(chains);
        }
        return;
    }
    print_legs(LEGS, costs, chains);
}

/* Where an input splits, what that costs, and the three chains. */
static void print_split(size_t split, hurzelma_half_lines total, const uint8_t *chains) {
    printf("split at %zu: %d half lines\n", split, (int)total);
    for (size_t k = 0; k < HURZELMA_FORK_ROWS; k++) {
        printf(k == 0 ? "  in by" : "  out by");
        print_row(chains + k * HURZELMA_ROW);
    }
}

/* Splits format 0 over formats 2 and 3. The least chains of legs to each would have no card in common: 0 2, and 0 3. Then without
 * the cards to format 3, and with an output that does not exist. */
static void fork_once(void) {
    enum { NO = HURZELMA_NO_DELAY, COUNT = 4 };
    hurzelma_half_lines total = 0;
    uint8_t chains[HURZELMA_FORK_ROWS * HURZELMA_ROW] = {0};
    size_t split = 0;
    hurzelma_half_lines cards[COUNT * COUNT] = {
        NO, 5, 6, 6,
        NO, NO, 2, 2,
        NO, NO, NO, NO,
        NO, NO, NO, NO,
    };
    hurzelma_fork_delay(COUNT, cards, COUNT * COUNT, 0, 2, 3, &total, 1, chains, sizeof chains, &split);
    print_split(split, total, chains);
    cards[0 * COUNT + 3] = cards[1 * COUNT + 3] = NO;
    print_words(hurzelma_fork_delay(COUNT, cards, COUNT * COUNT, 0, 2, 3, &total, 1, chains, sizeof chains, &split));
    print_words(hurzelma_fork_delay(COUNT, cards, COUNT * COUNT, 0, 2, COUNT, &total, 1, chains, sizeof chains, &split));
}

/* Our own table with one more card, half a line from format 6 to format 4: checked, and a leg routed over it, bare and with format 3
 * barred; then a fork. Then a card is changed so that the table gains. */
static void table(void) {
    const struct hurzelma_leg leg = {1, 0};
    hurzelma_half_lines numbers[HURZELMA_TABLE], place[HURZELMA_TABLE], cost;
    uint8_t chains[HURZELMA_FORK_ROWS * HURZELMA_ROW];
    size_t split;
    hurzelma_own_table(numbers, HURZELMA_TABLE);
    numbers[1 * HURZELMA_TABLE_FORMATS + 0] = HURZELMA_NO_DELAY;
    numbers[6 * HURZELMA_TABLE_FORMATS + 4] = 1;
    uint32_t told = hurzelma_check_table(numbers, HURZELMA_TABLE, place, HURZELMA_TABLE);
    if (told != HURZELMA_GRANTED) {
        print_told(told);
        return;
    }
    for (uint64_t bars = 0; bars <= 1u << 3; bars += 1u << 3) {
        hurzelma_route_table(place, HURZELMA_TABLE, bars, &leg, 1, &cost, 1, chains, sizeof chains);
        print_legs(1, &cost, chains);
    }
    hurzelma_fork_table(place, HURZELMA_TABLE, 0, 1, 5, 6, &cost, 1, chains, sizeof chains, &split);
    print_split(split, cost, chains);
    numbers[0] = 0;
    print_told(hurzelma_check_table(numbers, HURZELMA_TABLE, place, HURZELMA_TABLE));
    numbers[0] = HURZELMA_NO_DELAY;
    numbers[7 * HURZELMA_TABLE_FORMATS + 6] = -1;
    print_told(hurzelma_check_table(numbers, HURZELMA_TABLE, place, HURZELMA_TABLE));
}

/* Routes one leg over costs of a delay and a depth. */
static void route_both(void) {
    const struct hurzelma_both no = HURZELMA_NO_BOTH;
    const struct hurzelma_both cards[FORMATS * FORMATS] = {
        no, {3, 10}, {6, 8},
        no, no, {3, 10},
        no, no, no,
    };
    const struct hurzelma_leg leg = {0, 2};
    struct hurzelma_both cost = {0, 0};
    uint8_t chain[HURZELMA_ROW] = {0};
    uint32_t told = hurzelma_route_both(FORMATS, cards, FORMATS * FORMATS, &leg, 1, &cost, 1, chain, sizeof chain);
    if (told != HURZELMA_GRANTED) {
        print_told(told);
        return;
    }
    printf("%d half lines and %u bits by", (int)cost.delay, cost.depth);
    print_row(chain);
}

/* Answers a ticket, first in a place that may be too short. */
static void answer(const char *ticket, size_t room) {
    uint8_t place[HURZELMA_ANSWER];
    size_t length = 0;
    struct hurzelma_verdict verdict;
    const uint8_t *text = (const uint8_t *)ticket;
    if (hurzelma_answer(text, strlen(ticket), place, room, &length, &verdict) == HURZELMA_PLACE_SHORT) {
        printf("a place of %zu bytes is too short: %zu are wanted\n", room, length);
        hurzelma_answer(text, strlen(ticket), place, length, &length, &verdict);
    }
    fwrite(place, 1, length, stdout);
    if (verdict.layer != 0) {
        printf("byte %zu: ", verdict.byte);
        print_words(HURZELMA_FAULT(verdict.layer, verdict.number, verdict.part));
    }
}

/* Routes legs of which one cannot be booked, and prints which, and why. */
static void refuse(const struct hurzelma_leg legs[LEGS]) {
    const hurzelma_half_lines cards[FORMATS * FORMATS] = {0};
    hurzelma_half_lines costs[LEGS];
    uint8_t chains[LEGS * HURZELMA_ROW];
    uint32_t told = hurzelma_route_delay(FORMATS, cards, FORMATS * FORMATS, legs, LEGS, costs, LEGS, chains, sizeof chains);
    printf("leg %u: ", HURZELMA_LEG(told));
    print_words(told);
}

int main(void) {
    enum { NO = HURZELMA_NO_DELAY };
    const struct hurzelma_leg legs[LEGS] = {{0, 1}, {1, 0}, {2, 2}};
    const struct hurzelma_leg wrong[LEGS] = {{0, 1}, {1, 0}, {2, 3}};
    const hurzelma_half_lines cards[FORMATS * FORMATS] = {
        NO, 8, 12,
        NO, NO, NO,
        NO, -5, NO,
    };
    const hurzelma_half_lines gaining[FORMATS * FORMATS] = {
        NO, 2, NO,
        NO, NO, -4,
        1, NO, NO,
    };

    route(cards, legs);
    route(gaining, legs);
    route(cards, wrong);
    refuse(wrong);
    fork_once();
    route_both();
    table();
    answer("(bay delay 3)\n(format 0 UYVY)\n(format 1 v210)\n(format 2 NV12)\n"
           "(card (0 1) 4)\n(card (0 2) 6)\n(card (2 1) -3)\n(leg (0 1))\n(leg (1 0))\n(end)\n", 16);
    answer("(bay both 2)\n(format 0 UYVY)\n(format 1 v210)\n(card (0 1) (-4.5 10))\n(leg (0 1))\n(leg (1 1))\n(end)\n", HURZELMA_ANSWER);
    answer("(bay delay 1)\n", HURZELMA_ANSWER);
    return 0;
}
