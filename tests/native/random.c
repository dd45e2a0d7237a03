/* Random circuits, half of them valid and half damaged. That the library and the plain reading agree on the answer and on
 * every lent byte is expected of every call; here the calls are made up. */
#include "harness.h"

#include <stdio.h>
#include <string.h>

enum { CIRCUITS = 2000, MOST_GATES = 3000 };

static const uint64_t seed = 20011117;
static uint64_t state;

/* The next random number: splitmix64. */
static uint32_t any(void)
{
    uint64_t z = state += 0x9e3779b97f4a7c15;
    z = (z ^ z >> 30) * 0xbf58476d1ce4e5b9;
    z = (z ^ z >> 27) * 0x94d049bb133111eb;
    return (uint32_t)(z >> 32);
}

static uint32_t below(uint32_t n)
{
    return any() % n;
}

/* A word: often any one, often a small one or one at an end. */
static uint32_t some_word(void)
{
    switch (below(4)) {
    case 0:
        return below(8);
    case 1:
        return (const uint32_t[]){4294967295, 4294967294, 2147483648, 2147483647, 65536, 256}[below(6)];
    default:
        return any();
    }
}

/* The circuit that is being made: its wires by sort, its outs, and the sort of each input that it reads (0: not read). */
static struct {
    uint32_t wires, outs;
    uint32_t of_sort[4];
    uint32_t wire[4][MOST_GATES];
    uint32_t input[3][64];
} made;

static uint32_t wire_of(uint32_t sort)
{
    return made.wire[sort][below(made.of_sort[sort])];
}

static uint32_t new_wire(uint32_t sort)
{
    made.wire[sort][made.of_sort[sort]++] = made.wires;
    return made.wires++;
}

/* An input gate: often of a low number, so that one is read again. Its sort is the one that it was first read at. */
static void add_input(void)
{
    uint32_t desk = 1 + below(2), number = below(below(2) ? 4 : 64);
    uint32_t *sort = &made.input[desk][number];
    if (*sort == 0)
        *sort = below(2) ? 1 : 3;
    add_gate(6, desk, number, *sort, new_wire(*sort));
}

static void add_constant(void)
{
    uint32_t sort = 1 + below(3), value = sort == 3 ? below(2) : some_word();
    add_gate(4, value, sort, new_wire(sort), 0);
}

static void add_mux(uint32_t sort)
{
    uint32_t guard = wire_of(3), first = wire_of(sort), second = wire_of(sort);
    add_gate(2, guard, first, second, new_wire(sort));
}

static void add_both(uint32_t kind, uint32_t sort, uint32_t result)
{
    uint32_t first = wire_of(sort), second = wire_of(sort);
    add_gate(kind, first, second, new_wire(result), 0);
}

static void add_convert(uint32_t from, uint32_t to)
{
    uint32_t wire = wire_of(from);
    add_gate(5, wire, to, new_wire(to), 0);
}

/* A gate that keeps the rules; where the wires that it would read are missing, a constant. */
static void add_some_gate(void)
{
    uint32_t kind = 1 + below(7), uints = 1 + below(2), muxed = 2 + below(2);
    if (kind == 1 && made.of_sort[1] > 0) {
        add_both(1, 1, 1);
    } else if (kind == 2 && made.of_sort[3] > 0 && made.of_sort[muxed] > 0) {
        add_mux(muxed);
    } else if (kind == 3 && made.of_sort[2] > 0) {
        add_both(3, 2, 3);
    } else if (kind == 5 && made.of_sort[uints] > 0) {
        add_convert(uints, 3 - uints);
    } else if (kind == 6) {
        add_input();
    } else if (kind == 7 && made.wires > 0) {
        add_gate(7, below(made.wires), 0, 0, 0);
        made.outs++;
    } else {
        add_constant();
    }
}

/* Inputs up to the last that is read, and sometimes more. */
static void add_inputs(enum memory m, uint32_t desk)
{
    uint32_t count = 0;
    for (uint32_t n = 0; n < 64; n++)
        if (made.input[desk][n] != 0)
            count = n + 1;
    count += below(3) ? 0 : below(4);
    for (uint32_t n = 0; n < count; n++)
        add_word(m, n < 64 && made.input[desk][n] == 3 ? below(2) : some_word());
}

/* Bytes for so many words: often just these, sometimes a word or some bytes more. */
static size_t bytes_for(uint32_t words)
{
    return 4 * (size_t)words + (below(2) ? 0 : below(2) ? 4 : below(12));
}

static void make_valid(void)
{
    uint32_t gates = below(40) ? below(61) : below(MOST_GATES + 1);
    no_call();
    memset(&made, 0, sizeof made);
    for (uint32_t i = 0; i < gates; i++)
        add_some_gate();
    add_inputs(INPUTS1, 1);
    add_inputs(INPUTS2, 2);
    lend(TAPE, bytes_for(made.wires));
    for (size_t i = 0; i < call.length[TAPE]; i++)
        call.bytes[TAPE][i] = (uint8_t)any();
    lend(SHARES1, bytes_for(made.wires));
    lend(SHARES2, bytes_for(made.wires));
    lend(OUTPUTS, bytes_for(made.outs));
    for (enum memory m = CIRCUIT; m < MEMORIES; m++)
        call.shift[m] = below(16);
}

static uint32_t word_before(enum memory m, size_t i)
{
    uint32_t word = 0;
    for (size_t k = 0; k < 4; k++)
        word |= (uint32_t)call.bytes[m][4 * i + k] << 8 * k;
    return word;
}

static void change_word(enum memory m, size_t i, uint32_t word)
{
    for (size_t k = 0; k < 4; k++)
        call.bytes[m][4 * i + k] = (uint8_t)(word >> 8 * k);
}

/* One word of the circuit becomes another. */
static void damage_circuit(void)
{
    uint32_t words = (uint32_t)(call.length[CIRCUIT] / 4);
    if (words == 0)
        return;
    uint32_t i = below(words), word = word_before(CIRCUIT, i);
    switch (below(6)) {
    case 0:
        word++;
        break;
    case 1:
        word--;
        break;
    case 2:
        word = below(9);
        break;
    case 3:
        word = below(made.wires + 2);
        break;
    case 4:
        word ^= (uint32_t)1 << below(32);
        break;
    default:
        word = some_word();
    }
    change_word(CIRCUIT, i, word);
}

/* A memory becomes shorter by a word, by some bytes, or by much. */
static void damage_length(enum memory m)
{
    size_t less = below(2) ? 4 : below(2) ? 1 + below(9) : below((uint32_t)call.length[m] + 1);
    call.length[m] -= less < call.length[m] ? less : call.length[m];
}

/* One word of a desk's inputs becomes another, mostly no bool; where a few tries find one, an input that is read as a
 * bool. */
static void damage_input(enum memory m)
{
    uint32_t words = (uint32_t)(call.length[m] / 4);
    if (words == 0)
        return;
    const uint32_t *sorts = made.input[m == INPUTS1 ? 1 : 2];
    uint32_t i = below(words);
    for (int tries = 0; tries < 8 && (i >= 64 || sorts[i] != 3); tries++)
        i = below(words);
    change_word(m, i, below(2) ? 2 : some_word());
}

static void damage(void)
{
    switch (below(8)) {
    case 0:
    case 1:
    case 2:
        damage_circuit();
        break;
    case 3:
        if (below(2))
            damage_length(CIRCUIT);
        else
            call.length[CIRCUIT] += 1 + below(20);
        break;
    case 4:
        damage_length(INPUTS1 + below(2));
        break;
    case 5:
        damage_input(INPUTS1 + below(2));
        break;
    case 6:
        damage_length(TAPE);
        break;
    default:
        damage_length(SHARES1 + below(3));
    }
}

/* How many valid circuits were accepted, and how many calls got each number. */
static uint32_t valid_accepted, counts[26];

static void the_plain_reading_agrees(void)
{
    bool told = false;
    state = seed;
    for (uint32_t i = 0; i < CIRCUITS; i++) {
        bool valid = i % 2 == 0;
        make_valid();
        if (!valid)
            damage();
        if (!valid && below(4) == 0)
            damage(); /* two faults at once */
        desk_evaluated answer = make_call();
        valid_accepted += valid && answer.number == 0 && answer.wires == made.wires && answer.outputs == made.outs;
        counts[answer.number < 26 ? answer.number : 1]++;
        if (fails() && !told)
            printf("first at random circuit %u\n", i);
        told = fails();
    }
}

static void the_valid_ones_are_accepted(void)
{
    EXPECT(valid_accepted == CIRCUITS / 2);
}

static void every_number_occurs_and_no_other(void)
{
    uint32_t all = counts[0];
    EXPECT(counts[0] > 0);
    for (uint32_t number = 20; number <= 25; number++) {
        EXPECT(counts[number] > 0);
        all += counts[number];
    }
    EXPECT(all == CIRCUITS);
}

void random_circuits(void)
{
    const struct test tests[] = {
        TEST(the_plain_reading_agrees),
        TEST(the_valid_ones_are_accepted),
        TEST(every_number_occurs_and_no_other),
    };
    RUN_GROUP("random circuits", tests);
    printf("  seed %llu, %d circuits: %u accepted", (unsigned long long)seed, CIRCUITS, counts[0]);
    for (int number = 20; number <= 25; number++)
        printf(", %u with %d", counts[number], number);
    printf("\n");
}
