/* A plain reading of document 01's rules for evaluation. It works out the value of every wire and makes the shares from the
 * values; no share is ever joined. Each rule stands under the sentence of the paper that gives it. */
#include "plain.h"

#include <stdbool.h>

enum { MOST_WORDS = 15000, MOST_GATES = 3000 };
enum { ADD = 1, MUX, GREATER, CONSTANT, CONVERT, INPUT, OUT };
enum { ARITHMETIC = 1, BOOLEAN, BIT };

/* The words of a gate: its kind, and the four after it. */
struct gate {
    uint32_t kind, a, b, c, d;
};

/* The wires made so far: how many, and the sort and value of each. */
struct wires {
    uint32_t count;
    uint32_t sort[MOST_GATES];
    uint32_t value[MOST_GATES];
};

/* A circuit: its gates, the wires that they make, and how many outs there are. */
struct circuit {
    size_t count;
    struct gate gates[MOST_GATES];
    struct wires wires;
    uint32_t outs;
};

/* The inputs of both desks. */
struct inputs {
    const uint8_t *one, *two;
    size_t one_length, two_length;
};

/* "words little-endian, four bytes each" */
static uint32_t read_word(const uint8_t *bytes, size_t i)
{
    const uint8_t *b = bytes + 4 * i;
    return (uint32_t)b[0] | (uint32_t)b[1] << 8 | (uint32_t)b[2] << 16 | (uint32_t)b[3] << 24;
}

static void write_word(uint8_t *bytes, size_t i, uint32_t word)
{
    for (size_t k = 0; k < 4; k++)
        bytes[4 * i + k] = (uint8_t)(word >> 8 * k);
}

/* "elsewhere the odd last bytes are not read or written" */
static size_t whole_words(size_t bytes)
{
    return bytes / 4;
}

/* "Bytes that aren't whole words are .. 20 for a circuit"; "circuit words not a multiple of 5, or over 15,000" */
static bool fits(size_t bytes)
{
    return bytes % 4 == 0 && whole_words(bytes) % 5 == 0 && whole_words(bytes) <= MOST_WORDS;
}

static void read_gates(const uint8_t *bytes, size_t length, struct circuit *circuit)
{
    circuit->count = length / 20;
    for (size_t i = 0; i < circuit->count; i++) {
        struct gate *g = &circuit->gates[i];
        g->kind = read_word(bytes, 5 * i);
        g->a = read_word(bytes, 5 * i + 1);
        g->b = read_word(bytes, 5 * i + 2);
        g->c = read_word(bytes, 5 * i + 3);
        g->d = read_word(bytes, 5 * i + 4);
    }
}

/* "A wire read was made earlier", and it has this sort. */
static bool is_wire(const struct wires *wires, uint32_t wire, uint32_t sort)
{
    return wire < wires->count && wires->sort[wire] == sort;
}

/* "a new wire has the next number" */
static bool is_new(const struct wires *wires, uint32_t wire)
{
    return wire == wires->count;
}

/* "One desk and number has one sort in a circuit; a gate that differs from an earlier one breaks this." */
static bool clashes(const struct gate *gates, size_t i)
{
    for (size_t j = 0; j < i; j++)
        if (gates[j].kind == INPUT && gates[j].a == gates[i].a && gates[j].b == gates[i].b && gates[j].c != gates[i].c)
            return true;
    return false;
}

/* The table of gates, "Five words, unlisted ones 0": gate i keeps its line. The gates before it do. */
static bool keeps_rules(const struct gate *gates, size_t i, const struct wires *wires)
{
    const struct gate *g = &gates[i];
    switch (g->kind) {
    case ADD: /* "two wires sort 1; new wire" */
        return is_wire(wires, g->a, ARITHMETIC) && is_wire(wires, g->b, ARITHMETIC) && is_new(wires, g->c) && g->d == 0;
    case MUX: /* "guard sort 3; two wires both sort 2 or both 3; new" */
        return is_wire(wires, g->a, BIT)
            && ((is_wire(wires, g->b, BOOLEAN) && is_wire(wires, g->c, BOOLEAN))
                || (is_wire(wires, g->b, BIT) && is_wire(wires, g->c, BIT)))
            && is_new(wires, g->d);
    case GREATER: /* "two wires sort 2; new" */
        return is_wire(wires, g->a, BOOLEAN) && is_wire(wires, g->b, BOOLEAN) && is_new(wires, g->c) && g->d == 0;
    case CONSTANT: /* "value, sort 1 to 3, new (sort 3: value 0 or 1)" */
        return g->b >= 1 && g->b <= 3 && (g->b != BIT || g->a <= 1) && is_new(wires, g->c) && g->d == 0;
    case CONVERT: /* "wire, sort, new (1 to 2 or 2 to 1)" */
        return ((is_wire(wires, g->a, ARITHMETIC) && g->b == BOOLEAN)
                || (is_wire(wires, g->a, BOOLEAN) && g->b == ARITHMETIC))
            && is_new(wires, g->c) && g->d == 0;
    case INPUT: /* "desk 1 or 2, number 0..63, sort 1 or 3, new" */
        return (g->a == 1 || g->a == 2) && g->b <= 63 && (g->c == ARITHMETIC || g->c == BIT) && !clashes(gates, i)
            && is_new(wires, g->d);
    case OUT: /* "wire" */
        return g->a < wires->count && g->b == 0 && g->c == 0 && g->d == 0;
    default:
        return false;
    }
}

/* The sort of the wire that a gate makes, for a gate that keeps the rules and is no out. */
static uint32_t sort_made(const struct gate *g, const struct wires *wires)
{
    switch (g->kind) {
    case ADD:
        return ARITHMETIC;
    case MUX:
        return wires->sort[g->b];
    case GREATER:
        return BIT;
    case INPUT:
        return g->c;
    default: /* a constant's sort, a convert's sort */
        return g->b;
    }
}

/* "a gate breaks the rules below": the lowest one that does, or the number of gates. Notes the sorts of the wires and
 * counts the outs. */
static size_t breaks_rules(struct circuit *circuit)
{
    struct wires *wires = &circuit->wires;
    wires->count = circuit->outs = 0;
    for (size_t i = 0; i < circuit->count; i++) {
        const struct gate *g = &circuit->gates[i];
        if (!keeps_rules(circuit->gates, i, wires))
            return i;
        if (g->kind == OUT) {
            circuit->outs++;
        } else {
            wires->sort[wires->count] = sort_made(g, wires);
            wires->count++;
        }
    }
    return circuit->count;
}

static size_t input_words(const struct inputs *inputs, uint32_t desk)
{
    return whole_words(desk == 1 ? inputs->one_length : inputs->two_length);
}

static uint32_t input(const struct inputs *inputs, uint32_t desk, uint32_t number)
{
    return read_word(desk == 1 ? inputs->one : inputs->two, number);
}

/* "an input read lies past the end of that desk's inputs": the lowest such gate, or the number of gates */
static size_t reads_past_the_end(const struct circuit *circuit, const struct inputs *inputs)
{
    for (size_t i = 0; i < circuit->count; i++) {
        const struct gate *g = &circuit->gates[i];
        if (g->kind == INPUT && g->b >= input_words(inputs, g->a))
            return i;
    }
    return circuit->count;
}

/* "a bool input read is neither 0 nor 1": the lowest such gate, or the number of gates */
static size_t reads_no_bool(const struct circuit *circuit, const struct inputs *inputs)
{
    for (size_t i = 0; i < circuit->count; i++) {
        const struct gate *g = &circuit->gates[i];
        if (g->kind == INPUT && g->c == BIT && input(inputs, g->a, g->b) > 1)
            return i;
    }
    return circuit->count;
}

/* The value of a gate: of its new wire, or what it puts out. "addition wraps at 2^32"; "A bool is 0 or 1" */
static uint32_t value_of(const struct gate *g, const struct wires *wires, const struct inputs *inputs)
{
    switch (g->kind) {
    case ADD:
        return wires->value[g->a] + wires->value[g->b];
    case MUX: /* Figure 13: CKT_MUXT, CKT_MUXF */
        return wires->value[g->a] == 1 ? wires->value[g->b] : wires->value[g->c];
    case GREATER:
        return wires->value[g->a] > wires->value[g->b];
    case CONSTANT:
        return g->a;
    case INPUT:
        return input(inputs, g->a, g->b);
    default: /* convert, out */
        return wires->value[g->a];
    }
}

/* Works out the value of every wire. "Outputs are in order" */
static void run_gates(struct circuit *circuit, const struct inputs *inputs, uint8_t *outputs)
{
    struct wires *wires = &circuit->wires;
    size_t made = 0, put = 0;
    for (size_t i = 0; i < circuit->count; i++) {
        const struct gate *g = &circuit->gates[i];
        uint32_t value = value_of(g, wires, inputs);
        if (g->kind == OUT)
            write_word(outputs, put++, value);
        else
            wires->value[made++] = value;
    }
}

/* "Wire k uses tape word k, called t. Desk one gets t; for sort 3, t's lowest bit." */
static uint32_t share_one(uint32_t sort, uint32_t t)
{
    return sort == BIT ? t & 1 : t;
}

/* "For value v desk two gets v minus t wrapped (sort 1), v xor t (sort 2), or v xor that bit (sort 3)." */
static uint32_t share_two(uint32_t sort, uint32_t v, uint32_t t)
{
    if (sort == ARITHMETIC)
        return v - t;
    if (sort == BOOLEAN)
        return v ^ t;
    return v ^ (t & 1);
}

static void write_shares(const struct wires *wires, const uint8_t *tape, uint8_t *shares1, uint8_t *shares2)
{
    for (size_t k = 0; k < wires->count; k++) {
        uint32_t t = read_word(tape, k);
        write_word(shares1, k, share_one(wires->sort[k], t));
        write_word(shares2, k, share_two(wires->sort[k], wires->value[k], t));
    }
}

/* "It returns number, place and zero counts, and no lent word differs afterwards." */
static struct plain_answer refused(uint32_t number, size_t place)
{
    return (struct plain_answer){number, (uint32_t)place, 0, 0};
}

struct plain_answer plain_evaluate(
    const uint8_t *circuit, size_t circuit_length,
    const uint8_t *inputs1, size_t inputs1_length,
    const uint8_t *inputs2, size_t inputs2_length,
    const uint8_t *tape, size_t tape_length,
    uint8_t *shares1, size_t shares1_length,
    uint8_t *shares2, size_t shares2_length,
    uint8_t *outputs, size_t outputs_length)
{
    struct circuit c;
    struct inputs inputs = {inputs1, inputs2, inputs1_length, inputs2_length};
    size_t at;

    if (!fits(circuit_length))
        return refused(20, 0);
    read_gates(circuit, circuit_length, &c);
    if ((at = breaks_rules(&c)) < c.count)
        return refused(21, at);
    if ((at = reads_past_the_end(&c, &inputs)) < c.count)
        return refused(22, at);
    if ((at = reads_no_bool(&c, &inputs)) < c.count)
        return refused(23, at);
    /* "tape has fewer words than the circuit has wires (place 0)" */
    if (whole_words(tape_length) < c.wires.count)
        return refused(24, 0);
    /* "either share memory or the output memory is too short (place 0)" */
    if (whole_words(shares1_length) < c.wires.count || whole_words(shares2_length) < c.wires.count
        || whole_words(outputs_length) < c.outs)
        return refused(25, 0);

    /* it "writes only the words it needs, from the start" */
    run_gates(&c, &inputs, outputs);
    write_shares(&c.wires, tape, shares1, shares2);
    return (struct plain_answer){0, 0, c.wires.count, c.outs};
}
