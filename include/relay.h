/* Relay netlists: readers of BLIF, BENCH and Bristol texts, the circuit check, the schedule, evaluation and runs.
 *
 * Each call returns 0 where it accepts, else the refusal's number (below). Counts go through the last pointers: 0 on a refusal.
 * A slice is a pointer and a length in elements. On a refusal every area lent for writing is zero; work areas are zero after any
 * call; zeros follow the records. Old contents of an area don't matter.
 *
 * What a caller owes, and nothing else, since every text, record, key, order and length is checked:
 * - each pointer is aligned for its type and has memory for the length given with it; it is not null, even where the length is 0;
 * - what a call writes (areas and counts) overlaps no other argument of the same call. What is only read may overlap.
 * An area that is longer than needed costs the time to clear it; one that is too short is refused (RELAY_NO_ROOM).
 *
 * The archive needs memset from whoever links it, and nothing else.
 *
 * The calls keep nothing between them, allocate nothing and may run in parallel on areas of their own. relay_run takes some 17 KB of
 * stack, and 129 KB for a circuit of more than 131,072 nodes; the others take less than 4 KB.
 */
#ifndef RELAY_H
#define RELAY_H

#include <stddef.h>
#include <stdint.h>

#if SIZE_MAX != UINT64_MAX
#error "relay: words of 64 bits alone"
#endif

#ifdef __cplusplus
extern "C" {
#endif

/* Refusals. */
#define RELAY_ACCEPTED 0
#define RELAY_TEXT_TOO_LONG 1    /* text over 1,048,576 bytes */
#define RELAY_NOT_ASCII 2        /* a byte of 128 or more, comments included */
#define RELAY_NO_ROOM 3          /* an area is too short */
#define RELAY_DEFINED_BEFORE 4   /* BLIF or BENCH name defined before */
#define RELAY_NO_DRIVER 5        /* gate input or output without a driver */
#define RELAY_WRONG_COUNT 6      /* wrong number of inputs, outputs or declared names */
#define RELAY_BAD_ROW 7          /* bad BLIF row */
#define RELAY_UNKNOWN_WORD 8     /* unknown directive, operation or declaration */
#define RELAY_MALFORMED 9        /* malformed line */
#define RELAY_NO_OUTPUTS 10      /* no outputs (BLIF, BENCH) */
#define RELAY_HEADER_MISMATCH 11 /* Bristol header against content */
#define RELAY_NOT_NUMBER 12      /* not an unsigned 64-bit number */
#define RELAY_OUTPUT_OUTSIDE 13  /* Bristol output wire not below the wire count */
#define RELAY_DRIVEN_TWICE 14    /* Bristol wire driven twice */
#define RELAY_BROKEN 15          /* a record breaks the circuit rules */
#define RELAY_NOT_EARLIER 16     /* a node reads itself or a later one */
#define RELAY_CIRCLE 17          /* cells read in a circle */
#define RELAY_NO_WINDOW 18       /* window 0 */
#define RELAY_WRONG_VALUES 19    /* assignment or key list of a wrong length or value; assignment number too large */
#define RELAY_UNFIT_ORDER 20     /* not each cell once after those that it reads */
#define RELAY_TOO_MANY_INPUTS 21 /* numbered assignment with over 20 inputs */

/* Words of a record. A node: kind, wire count, table (entry j is bit j), name (4 words), two wires. An output: name (4 words), wire.
 * The area of names is a work area: what stands in its records is no part of an answer. */
#define RELAY_NODE_WORDS 9
#define RELAY_OUTPUT_WORDS 5
#define RELAY_NAME_WORDS 5
#define RELAY_KEY_NUMBERS 3

/* Places in a node record and in an output record. */
#define RELAY_NODE_KIND 0
#define RELAY_NODE_WIRE_COUNT 1
#define RELAY_NODE_TABLE 2
#define RELAY_NODE_NAME 3
#define RELAY_NODE_WIRES 7
#define RELAY_OUTPUT_NAME 0
#define RELAY_OUTPUT_WIRE 4

/* A node's kind. */
#define RELAY_INPUT 1
#define RELAY_CELL 2

/* A wire: 0 and 1 the constants, k + 2 the node k. */
#define RELAY_WIRE_OF_NODE(node) ((node) + 2)
#define RELAY_WIRE_IS_NODE(wire) ((wire) >= 2)
#define RELAY_NODE_OF_WIRE(wire) ((wire) - 2)

/* A name's first word. Its others: start, length, 0 (bytes of the joined text); start, length, step (those bytes, then `$bench$` and the
 * step); number, 0, 0 (a Bristol wire). */
#define RELAY_NAME_STRETCH 1
#define RELAY_NAME_STEP 2
#define RELAY_NAME_NUMBER 3

/* The value, besides 0 and 1, that a run knows. */
#define RELAY_UNKNOWN 2

/* Sizes of areas, in elements. At most RELAY_MOST_RECORDS records of nodes, names, outputs and wires are used. */
#define RELAY_MOST_TEXT 1048576
#define RELAY_MOST_RECORDS 1048576
#define RELAY_JOINED(text_len) ((text_len) + 1)
#define RELAY_NODES(n) (RELAY_NODE_WORDS * (n))
#define RELAY_OUTPUTS(n) (RELAY_OUTPUT_WORDS * (n))
#define RELAY_NAMES(n) (RELAY_NAME_WORDS * (n))
#define RELAY_WIRES(n) (n)
#define RELAY_KEYS(nodes) (RELAY_KEY_NUMBERS * (nodes))
#define RELAY_READY(nodes) (3 * (nodes))
#define RELAY_SUCCESSORS(nodes) (2 * (nodes) + 1)
#define RELAY_ORDER(nodes) (nodes)
#define RELAY_ASSIGNMENT(inputs) (inputs)
#define RELAY_VALUES(nodes) (nodes)
#define RELAY_ANSWERS(outputs) (outputs)

/* As many nodes, names and outputs as a BLIF or BENCH text of so many bytes can have: each has a byte of its own and one beside it.
 * A Bristol text says the number of its wires in its header; its nodes are at most its inputs and a cell for each line. */
#define RELAY_RECORDS(text_len) ((text_len) / 2 + 1)

/* A BLIF text into nodes and outputs, and its joined lines, where the names stand. `names` is a work area: a record for each name. */
size_t relay_parse_blif(const uint8_t *text, size_t text_len, uint8_t *joined, size_t joined_len, size_t *nodes, size_t nodes_len,
                        size_t *names, size_t names_len, size_t *outputs, size_t outputs_len, size_t *node_count, size_t *output_count);

/* The same for a BENCH text. */
size_t relay_parse_bench(const uint8_t *text, size_t text_len, uint8_t *joined, size_t joined_len, size_t *nodes, size_t nodes_len,
                         size_t *names, size_t names_len, size_t *outputs, size_t outputs_len, size_t *node_count, size_t *output_count);

/* A Bristol text into nodes and outputs. `wires` is a work area: a record for each wire of the file. */
size_t relay_parse_bristol(const uint8_t *text, size_t text_len, size_t *nodes, size_t nodes_len, size_t *outputs, size_t outputs_len,
                           size_t *wires, size_t wires_len, size_t *node_count, size_t *output_count);

/* The calls below take a circuit as its records and nothing else: nodes_len is RELAY_NODES(node_count), outputs_len
 * RELAY_OUTPUTS(output_count). */

/* Whether the records obey the circuit rules (15) and every node reads earlier ones alone (16). */
size_t relay_validate_topological(const size_t *nodes, size_t nodes_len, const size_t *outputs, size_t outputs_len);

/* An order of the cells, each after those that it reads: among the `window` smallest ready numbers the greatest key is next, on equal
 * keys the smallest number. `keys` has three numbers for each node; `ready` and `successors` are work areas. The first cell_count words
 * of `order` are the order. */
size_t relay_scheduled_gates_by_key(const size_t *nodes, size_t nodes_len, const size_t *outputs, size_t outputs_len, size_t window,
                                    const uint32_t *keys, size_t keys_len, size_t *ready, size_t ready_len, size_t *successors,
                                    size_t successors_len, size_t *order, size_t order_len, size_t *cell_count);

/* The outputs for one assignment of 0 and 1, an entry for each input in storage order. `values` is a work area. */
size_t relay_evaluate(const size_t *nodes, size_t nodes_len, const size_t *outputs, size_t outputs_len, const uint8_t *assignment,
                      size_t assignment_len, uint8_t *values, size_t values_len, uint8_t *answers, size_t answers_len,
                      size_t *output_count);

/* The outputs along an order of all cells, for values 0, 1 and 2 (unknown). order_len is the number of cells; `values` is a work area. */
size_t relay_run(const size_t *nodes, size_t nodes_len, const size_t *outputs, size_t outputs_len, const size_t *order,
                 size_t order_len, const uint8_t *assignment, size_t assignment_len, uint8_t *values, size_t values_len,
                 uint8_t *answers, size_t answers_len, size_t *cell_count);

/* Assignment `number` of all those of at most 20 inputs: input p of n is bit n - p - 1. */
size_t relay_exhaustive_inputs(const size_t *nodes, size_t nodes_len, const size_t *outputs, size_t outputs_len, size_t number,
                               uint8_t *assignment, size_t assignment_len, size_t *input_count);

#ifdef __cplusplus
}
#endif

#endif
