/* Hurzelma for hosts in C: routes and forks of converter chains, and answers to tickets.
 *
 * No function allocates, keeps anything from one call to the next, or reads or writes anything but what it is given. Each works
 * in at most HURZELMA_STACK bytes of the calling thread's stack, and may be called by several threads at once, each with its own
 * memory.
 *
 * No pointer may be null, also where its length is 0, and what is written may not overlap anything else that is handed in. A
 * length counts elements. */
#ifndef HURZELMA_H
#define HURZELMA_H

#include <stddef.h>
#include <stdint.h>

/* The first of the three numbers goes up with each change that a host has to follow. hurzelma_version answers the version that the
 * library has, as one number: the first times 65536, the second times 256, the third. */
#define HURZELMA_VERSION "1.0.0"
#define HURZELMA_VERSION_NUMBER 0x010000u

#ifdef __cplusplus
extern "C" {
#endif

uint32_t hurzelma_version(void);

/* There are 2 to 64 formats, numbered from 0, and up to 32 legs. */
#define HURZELMA_MOST_FORMATS 64
#define HURZELMA_MOST_LEGS 32

/* A row of a chain sheet: the number of formats in the chain, then the formats, a byte each, then 255 to its end. A chain begins
 * with its leg's first format and ends with its last; where these are the same, the chain is that format alone. */
#define HURZELMA_ROW 66

/* A delay: so many half lines of video, below 0 where lines are given back. */
typedef int32_t hurzelma_half_lines;

/* A depth: so many bits kept of a sample. */
typedef uint8_t hurzelma_bits;

/* A delay and a depth: the smaller delay is better, and where delays are equal the larger depth. */
struct hurzelma_both {
    hurzelma_half_lines delay;
    hurzelma_bits depth;
};

/* Numbers that are no card: one of half lines, one of bits, and one of each, with which a struct hurzelma_both begins. */
#define HURZELMA_NO_DELAY INT32_MIN
#define HURZELMA_NO_DEPTH 0
#define HURZELMA_NO_BOTH {HURZELMA_NO_DELAY, HURZELMA_NO_DEPTH}

/* So many bytes of the stack are enough for every call; so many for each call but tickets, and routes and forks over more than so few
 * formats. */
#define HURZELMA_STACK (58 * 1024)
#define HURZELMA_STACK_FEW (9 * 1024)
#define HURZELMA_FEW_FORMATS 16

/* The two formats of a leg, which may be the same. */
struct hurzelma_leg {
    size_t from;
    size_t to;
};

/* What a route or a fork is told: 0 where it is granted, or a fault. */
#define HURZELMA_GRANTED 0u

/* The layer that refused. */
#define HURZELMA_LAYER(told) ((told) >> 16 & 255u)
#define HURZELMA_LAYER_TICKET 1u
#define HURZELMA_LAYER_BAY 2u
#define HURZELMA_LAYER_REGISTER 3u

/* The leg of a route that was refused, by its number among those handed in, where a leg was: after bay 11 and 24. Else 0. */
#define HURZELMA_LEG(told) ((told) >> 24)

/* Why, and the part of the call that is meant:
 *   register 16: the number of formats (part 0), or fewer than n * n cards (1)
 *   bay 11: a leg's first (0) or last (1) format is not below n; of a fork, the input (0), the first output (1) or the second (2)
 *   bay 15: the cost sheet (1) has fewer entries than there are legs, or the chain sheet (2) fewer bytes than their rows; for a fork,
 *           one entry and HURZELMA_FORK_ROWS rows
 *   bay 24: more than 32 legs
 *   bay 25: no legs
 *   bay 26: a loop of cards undercuts the unit, which is 0 half lines, 255 bits, or both; row 0 then holds such a loop. Its first format comes
 *           again at its end and counts twice, so the number is up to 65
 *   bay 27: no chain leads from the input of a fork to its first output, or none to its second */
#define HURZELMA_NUMBER(told) (((told) >> 8) & 255u)
#define HURZELMA_PART(told) ((told) & 255u)

/* What tells a fault, from its layer, number and part. */
#define HURZELMA_FAULT(layer, number, part) ((uint32_t)(layer) << 16 | (uint32_t)(number) << 8 | (uint32_t)(part))

/* The numbers of the causes, of whatever layer and part. Those below 10 are a ticket's alone. */
#define HURZELMA_CAUSE_TICKET_LONG 1u
#define HURZELMA_CAUSE_BYTE_UNFIT 2u
#define HURZELMA_CAUSE_OUT_OF_FIELD 3u
#define HURZELMA_CAUSE_CODE_USED 4u
#define HURZELMA_CAUSE_NO_FORMAT 11u
#define HURZELMA_CAUSE_SAME_ENDS 12u
#define HURZELMA_CAUSE_COST_UNFIT 13u
#define HURZELMA_CAUSE_SHEET_SHORT 15u
#define HURZELMA_CAUSE_SIZE_UNFIT 16u
#define HURZELMA_CAUSE_CARDS_FULL 23u
#define HURZELMA_CAUSE_LEGS_FULL 24u
#define HURZELMA_CAUSE_NO_LEGS 25u
#define HURZELMA_CAUSE_LOOP 26u
#define HURZELMA_CAUSE_NO_SPLIT 27u
#define HURZELMA_CAUSE_TABLE_UNFIT 28u
#define HURZELMA_CAUSE_TABLE_LOOP 29u

/* The part of HURZELMA_CAUSE_NO_FORMAT, of a route and of a fork. */
#define HURZELMA_PART_FROM 0u
#define HURZELMA_PART_TO 1u
#define HURZELMA_PART_INPUT 0u
#define HURZELMA_PART_FIRST_OUTPUT 1u
#define HURZELMA_PART_SECOND_OUTPUT 2u

/* No words of a fault have more bytes. */
#define HURZELMA_WORDS 64

/* Writes the words of a fault, in English and without an end of line, from the start of the place, and their length into *length;
 * the rest of the place is as it was. Which leg is told does not matter. Each fault that a call tells has words; what tells none
 * has 0 bytes of them. Answers HURZELMA_WRITTEN, or HURZELMA_PLACE_SHORT where the place is too short and as it was. */
uint32_t hurzelma_fault_text(uint32_t told, uint8_t *place, size_t place_length, size_t *length);

/* Finds a chain of least cost for every leg over the cards of n formats.
 *
 * cards: n * n numbers, row by row: that of the card from format s to format t stands at s * n + t. A number that no card may have
 * is no card, and so is every number from a format to itself. A card's delay is -2000000 to 2000000 half lines, a million lines
 * each way, with the smaller one better and delays added along a chain; its depth is 1 to 16 bits, with the larger one better and
 * a chain keeping the smallest of its cards. A card with both may have what both of its parts may have, and a chain the sum of the
 * delays and the smallest of the depths.
 *
 * Granted, entry k of costs is the cost of leg k's chain, in half lines, in bits or in both, and row k of chains holds the chain. A
 * chain of one format, for a leg whose formats are the same, costs the unit. Where no chain leads from its first format to its last,
 * the row has the number 0, and the cost is the unit. Entries and rows beyond the legs are as they were.
 * Refused, all is as it was, but for row 0 after 26. The causes are judged in this order: 16, for each leg 11 and 24, then 25, 15,
 * 26. */
uint32_t hurzelma_route_delay(size_t n, const hurzelma_half_lines *cards, size_t cards_length,
                              const struct hurzelma_leg *legs, size_t legs_length,
                              hurzelma_half_lines *costs, size_t costs_length,
                              uint8_t *chains, size_t chains_length);

uint32_t hurzelma_route_depth(size_t n, const hurzelma_bits *cards, size_t cards_length,
                              const struct hurzelma_leg *legs, size_t legs_length,
                              hurzelma_bits *costs, size_t costs_length,
                              uint8_t *chains, size_t chains_length);

uint32_t hurzelma_route_both(size_t n, const struct hurzelma_both *cards, size_t cards_length,
                             const struct hurzelma_leg *legs, size_t legs_length,
                             struct hurzelma_both *costs, size_t costs_length,
                             uint8_t *chains, size_t chains_length);

/* The rows that a fork writes: from its input to the split, from the split to the first output, and from there to the second. */
#define HURZELMA_FORK_ROWS 3

/* Finds the cheapest split of one input over two outputs over the cards of n formats, which are handed in as to a route: a format,
 * the split, and chains of least cost that lead from the input to it and from it to each output. What all three cost together is
 * the total, so the part that both outputs share counts once; no other split has a lower total, and of those with the same one it
 * is the lowest format. The split may be the input or an output, with a chain of that format alone, at the unit, and the outputs
 * may be the same as each other or as the input.
 *
 * Granted, *split is the split, entry 0 of costs is the total, and rows 0 to 2 of chains hold the chains. All else is as it was.
 * Refused, all is as it was, but for row 0 after 26. The causes are judged in this order: 16, 11, 15, 26, 27. */
uint32_t hurzelma_fork_delay(size_t n, const hurzelma_half_lines *cards, size_t cards_length,
                             size_t input, size_t first, size_t second,
                             hurzelma_half_lines *costs, size_t costs_length,
                             uint8_t *chains, size_t chains_length, size_t *split);

uint32_t hurzelma_fork_depth(size_t n, const hurzelma_bits *cards, size_t cards_length,
                             size_t input, size_t first, size_t second,
                             hurzelma_bits *costs, size_t costs_length,
                             uint8_t *chains, size_t chains_length, size_t *split);

uint32_t hurzelma_fork_both(size_t n, const struct hurzelma_both *cards, size_t cards_length,
                            size_t input, size_t first, size_t second,
                            struct hurzelma_both *costs, size_t costs_length,
                            uint8_t *chains, size_t chains_length, size_t *split);

/* A house table of a customer's: 64 delays in half lines between 8 formats, row by row: that of the card from format s to format t
 * stands at s * 8 + t, HURZELMA_NO_DELAY where there is none. */
#define HURZELMA_TABLE_FORMATS 8
#define HURZELMA_TABLE 64

/* Checks such a table and, where it is granted, copies it into a place of 64 numbers; refused, the place is as it was.
 *   register 28: there are not 64 numbers, or the place has not 64 (part 64); or the number at the index that the part tells, the
 *                first such, is neither HURZELMA_NO_DELAY nor, off the diagonal, a delay that a card may have
 *   register 29: a closed walk over the cards undercuts the unit, 0 half lines */
uint32_t hurzelma_check_table(const hurzelma_half_lines *numbers, size_t numbers_length,
                              hurzelma_half_lines *place, size_t place_length);

/* The same for our own table, which is granted wherever the place has 64 numbers. */
uint32_t hurzelma_own_table(hurzelma_half_lines *place, size_t place_length);

/* Finds a chain of least cost for every leg over the table that a place holds, under bars: bit f of bars takes the format f out of
 * use, with all its cards. A place that hurzelma_check_table would refuse as a table has no card. So 26 is never told, and neither
 * is 16; all else is as in hurzelma_route_delay over these cards. */
uint32_t hurzelma_route_table(const hurzelma_half_lines *place, size_t place_length, uint64_t bars,
                              const struct hurzelma_leg *legs, size_t legs_length,
                              hurzelma_half_lines *costs, size_t costs_length,
                              uint8_t *chains, size_t chains_length);

/* Finds the cheapest split of one input over two outputs over such a table, under bars. Neither 26 nor 16 is ever told; all else is
 * as in hurzelma_fork_delay over these cards. */
uint32_t hurzelma_fork_table(const hurzelma_half_lines *place, size_t place_length, uint64_t bars,
                             size_t input, size_t first, size_t second,
                             hurzelma_half_lines *costs, size_t costs_length,
                             uint8_t *chains, size_t chains_length, size_t *split);

/* Whether a text is written, or its place is too short for it. */
#define HURZELMA_WRITTEN 0u
#define HURZELMA_PLACE_SHORT 1u

/* A ticket may have so many bytes; a longer one is refused. */
#define HURZELMA_TICKET 32768

/* No answer to a ticket has more bytes. */
#define HURZELMA_ANSWER 14278

/* What a ticket is told: the layer that refused it, the number of the cause, the part of the call that is meant, and the byte of the
 * ticket. Where it is granted all four are 0. */
struct hurzelma_verdict {
    uint32_t layer;
    uint32_t number;
    uint32_t part;
    size_t byte;
};

/* Writes the answer to a ticket, its listing or its refusal, from the start of the place, its length into *length, and what it is
 * told into *verdict; the rest of the place is as it was. A place that is too short is as it was, and *length is what the answer
 * needs; the verdict is told all the same. Any bytes are answered. A ticket and its answer tell delays in lines, with .5 for half
 * a line. docs/GRAMMAR.md says what a ticket looks like, and docs/RULES.md what its answer does. */
uint32_t hurzelma_answer(const uint8_t *text, size_t text_length, uint8_t *place, size_t place_length,
                         size_t *length, struct hurzelma_verdict *verdict);

#ifdef __cplusplus
}
#endif

#endif
