/* The desk's operations, for C on x86-64. Link with libdesk.a.
 *
 * Words. Every memory holds words of four bytes, the lowest first; word i lies at bytes 4i to 4i + 3. No alignment is
 * needed. A uint32_t array is such a memory on x86-64. Lengths are in bytes. One to three odd last bytes are not read and
 * not written (only a circuit is refused for them, with 20).
 *
 * Nothing has to be checked before a call: every length and every content gets an answer. What the caller owes is C's own:
 * each pointer is valid for its length, and a memory that is lent to be written overlaps no other memory of the call. With
 * length 0 a pointer is not followed.
 *
 * A call keeps no state and uses no heap. It needs less than 16 KiB of stack and, of C's library, memset. The library has no
 * static data that is written, so several threads may call at once, each with lent memories of its own; what is only read
 * they may share. */
#ifndef DESK_H
#define DESK_H

#include <stddef.h>
#include <stdint.h>

#ifdef __cplusplus
extern "C" {
#endif

/* The answer of an evaluation. Accepted: number 0, place 0 and the counts. Refused: a number from 20 to 25, its place,
 * and zero counts. */
typedef struct desk_evaluated {
    uint32_t number;
    uint32_t place;   /* the lowest gate at fault, from 0; or 0 */
    uint32_t wires;   /* wires of the circuit: words written to each share memory */
    uint32_t outputs; /* outs of the circuit: words written to the output memory */
} desk_evaluated;

/* Evaluate a circuit on the inputs of both desks and a tape.
 *
 * Read:
 *   circuit    five words to a gate, gates and wires counted from 0:
 *                1  wire, wire, new wire, 0       add: the sum, which wraps at 2^32; both wires sort 1, the new one 1
 *                2  guard, wire, wire, new wire   mux: the first wire where the guard is 1, else the second; guard sort 3,
 *                                                 the others both sort 2 or both 3, the new one as they are
 *                3  wire, wire, new wire, 0       greater: 1 where the first is above the second, as unsigned numbers,
 *                                                 else 0; both wires sort 2, the new one 3
 *                4  value, sort, new wire, 0      constant: the value; sort 1 to 3, of sort 3 the value is 0 or 1
 *                5  wire, sort, new wire, 0       convert: keeps the value; from sort 1 to 2 or from 2 to 1
 *                6  desk, number, sort, new wire  input: that desk's input; desk 1 or 2, number 0 to 63, sort 1 or 3
 *                7  wire, 0, 0, 0                 out: puts the wire's value to the outputs; the wire of any sort
 *              A wire that is read was made by an earlier gate; a new wire has the next number. One desk and number has one
 *              sort: where two input gates differ, the later one is at fault (21). Sort 1 is an arithmetic uint, sort 2 a
 *              boolean one, sort 3 a bool.
 *   inputs1    desk one's inputs: word n is input number n
 *   inputs2    desk two's inputs
 *   tape       a word for each wire; more are not read
 *
 * Written where the call is accepted (number 0), from the start of each memory and only these words; all other bytes stay:
 *   shares1    word k is desk one's share of wire k: tape word k; for sort 3 its lowest bit
 *   shares2    word k is desk two's share of wire k: the wire's value minus tape word k, wrapped (sort 1); the value xor
 *              tape word k (sort 2); the value xor that word's lowest bit (sort 3)
 *   outputs    the outputs in order; both desks get all
 * A refusal leaves every byte of the three as it was.
 *
 * A circuit has at most 3,000 gates. So 12,000 bytes are always enough for the tape and for each of the three memories.
 *
 * The numbers. Each check is made of all gates before the next; the place is the lowest gate that fails, or 0 where none
 * is named:
 *    0  accepted
 *   20  the circuit is not whole words, not five to a gate, or over 15,000 words
 *   21  a gate breaks the rules above (place: the gate)
 *   22  an input that is read lies past the end of that desk's inputs (place: the input's gate)
 *   23  a bool input that is read is neither 0 nor 1 (place: the input's gate)
 *   24  the tape has fewer words than the circuit has wires
 *   25  a share memory or the output memory is too short
 *
 * The sum of one input of each desk, 7 and 5:
 *
 *     const uint32_t circuit[] = {6,1,0,1,0, 6,2,0,1,1, 1,0,1,2,0, 7,2,0,0,0}, one = 7, two = 5, tape[] = {10, 20, 30};
 *     uint32_t shares1[3], shares2[3], output;
 *     desk_evaluated r = desk_evaluate((const uint8_t *)circuit, sizeof circuit,
 *         (const uint8_t *)&one, 4, (const uint8_t *)&two, 4, (const uint8_t *)tape, sizeof tape,
 *         (uint8_t *)shares1, sizeof shares1, (uint8_t *)shares2, sizeof shares2, (uint8_t *)&output, 4);
 *     // r is {0, 0, 3, 1}, shares1 10, 20, 30, shares2 4294967293, 4294967281, 4294967278, output 12
 */
desk_evaluated desk_evaluate(
    const uint8_t *circuit, size_t circuit_length,
    const uint8_t *inputs1, size_t inputs1_length,
    const uint8_t *inputs2, size_t inputs2_length,
    const uint8_t *tape, size_t tape_length,
    uint8_t *shares1, size_t shares1_length,
    uint8_t *shares2, size_t shares2_length,
    uint8_t *outputs, size_t outputs_length);

#ifdef __cplusplus
}
#endif

#endif
