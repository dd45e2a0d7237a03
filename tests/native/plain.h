/* A plain reading of document 01's rules for evaluation, to hold the library against. */
#ifndef PLAIN_H
#define PLAIN_H

#include <stddef.h>
#include <stdint.h>

struct plain_answer {
    uint32_t number, place, wires, outputs;
};

/* The arguments are those of desk_evaluate. */
struct plain_answer plain_evaluate(
    const uint8_t *circuit, size_t circuit_length,
    const uint8_t *inputs1, size_t inputs1_length,
    const uint8_t *inputs2, size_t inputs2_length,
    const uint8_t *tape, size_t tape_length,
    uint8_t *shares1, size_t shares1_length,
    uint8_t *shares2, size_t shares2_length,
    uint8_t *outputs, size_t outputs_length);

#endif
