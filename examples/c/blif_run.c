/* Reads a BLIF text from standard input. Prints `refused N`, or the cells in an order and the outputs for each choice of one input
 * that is unknown while the others are 0. */
#include <relay.h>
#include <stdio.h>
#include <stdlib.h>

/* An area for so many elements; one more, so that it is never null. */
static void *area(size_t elements, size_t size) {
    void *memory = malloc((elements + 1) * size);
    if (!memory) {
        fputs("no memory\n", stderr);
        exit(2);
    }
    return memory;
}

/* The names of a BLIF text are stretches of its joined text. */
static void print_name(const size_t *name, const uint8_t *joined) {
    printf(" %.*s", (int)name[2], (const char *)joined + name[1]);
}

static size_t show(const uint8_t *joined, const size_t *nodes, size_t node_count, const size_t *outputs, size_t output_count) {
    size_t nodes_len = RELAY_NODES(node_count), outputs_len = RELAY_OUTPUTS(output_count);
    size_t inputs = 0, cells = 0, ran = 0;
    uint32_t *keys = area(RELAY_KEYS(node_count), sizeof *keys);
    for (size_t k = 0; k < node_count; k++) {
        keys[RELAY_KEYS(k)] = keys[RELAY_KEYS(k) + 1] = 0;
        keys[RELAY_KEYS(k) + 2] = (uint32_t)k;
        inputs += nodes[RELAY_NODES(k) + RELAY_NODE_KIND] == RELAY_INPUT;
    }
    size_t *ready = area(RELAY_READY(node_count), sizeof *ready);
    size_t *successors = area(RELAY_SUCCESSORS(node_count), sizeof *successors);
    size_t *order = area(RELAY_ORDER(node_count), sizeof *order);
    size_t refusal = relay_scheduled_gates_by_key(nodes, nodes_len, outputs, outputs_len, 2, keys, RELAY_KEYS(node_count), ready,
                                                  RELAY_READY(node_count), successors, RELAY_SUCCESSORS(node_count), order,
                                                  RELAY_ORDER(node_count), &cells);
    printf("order");
    for (size_t i = 0; i < cells; i++) {
        print_name(nodes + RELAY_NODES(order[i]) + RELAY_NODE_NAME, joined);
    }
    printf("\n");

    uint8_t *assignment = area(RELAY_ASSIGNMENT(inputs), 1);
    uint8_t *values = area(RELAY_VALUES(node_count), 1);
    uint8_t *answers = area(RELAY_ANSWERS(output_count), 1);
    for (size_t unknown = 0; unknown < inputs && !refusal; unknown++) {
        for (size_t p = 0; p < inputs; p++) {
            assignment[p] = p == unknown ? RELAY_UNKNOWN : 0;
        }
        refusal = relay_run(nodes, nodes_len, outputs, outputs_len, order, cells, assignment, RELAY_ASSIGNMENT(inputs), values,
                            RELAY_VALUES(node_count), answers, RELAY_ANSWERS(output_count), &ran);
        printf("input %zu unknown:", unknown);
        for (size_t o = 0; o < output_count; o++) {
            print_name(outputs + RELAY_OUTPUTS(o) + RELAY_OUTPUT_NAME, joined);
            printf("=%c", "01?"[answers[o]]);
        }
        printf("\n");
    }
    free(keys), free(ready), free(successors), free(order), free(assignment), free(values), free(answers);
    return refusal;
}

int main(void) {
    uint8_t *text = area(RELAY_MOST_TEXT + 1, 1);
    size_t length = fread(text, 1, RELAY_MOST_TEXT + 1, stdin);
    size_t records = RELAY_RECORDS(length), node_count, output_count;
    uint8_t *joined = area(RELAY_JOINED(length), 1);
    size_t *nodes = area(RELAY_NODES(records), sizeof *nodes);
    size_t *names = area(RELAY_NAMES(records), sizeof *names);
    size_t *outputs = area(RELAY_OUTPUTS(records), sizeof *outputs);
    size_t refusal = relay_parse_blif(text, length, joined, RELAY_JOINED(length), nodes, RELAY_NODES(records), names, RELAY_NAMES(records),
                                      outputs, RELAY_OUTPUTS(records), &node_count, &output_count);
    if (!refusal) {
        refusal = show(joined, nodes, node_count, outputs, output_count);
    }
    if (refusal) {
        printf("refused %zu\n", refusal);
    }
    free(text), free(joined), free(nodes), free(names), free(outputs);
    return refusal != 0;
}
