/* Refusal 21: for every rule of the table of gates, gates that keep it and gates that break it. */
#include "harness.h"

/* Six gates that keep the rules. Wire 0 has sort 1, wire 1 sort 2, wire 2 sort 3; wire 3 is desk one's input 3 at sort 1,
 * wire 4 desk two's input 3 at sort 3. So the gate tried is gate 6, and the next wire is 5. */
enum { TRIED = 6, NEXT = 5 };
static const uint32_t most = 4294967295;

/* All inputs of both desks, each 0 or 1: any gate may read any of them. */
static void add_all_inputs(void)
{
    for (uint32_t n = 0; n < 64; n++) {
        add_word(INPUTS1, n % 2);
        add_word(INPUTS2, n % 2);
    }
}

static void before(void)
{
    no_gates();
    add_gate(4, 5, 1, 0, 0);
    add_gate(4, 6, 2, 1, 0);
    add_gate(4, 1, 3, 2, 0);
    add_gate(6, 1, 3, 1, 3);
    add_gate(7, 0, 0, 0, 0);
    add_gate(6, 2, 3, 3, 4);
    add_all_inputs();
}

/* After these gates, this one is refused, whatever follows it: nothing, a gate that keeps the rules, one that breaks
 * them. */
static void breaks(uint32_t kind, uint32_t a, uint32_t b, uint32_t c, uint32_t d)
{
    before();
    add_gate(kind, a, b, c, d);
    EXPECT_REFUSED(21, TRIED);
    add_gate(7, 0, 0, 0, 0);
    EXPECT_REFUSED(21, TRIED);
    add_gate(0, 0, 0, 0, 0);
    EXPECT_REFUSED(21, TRIED);
}

/* After these gates, this one is accepted, and the next gate that breaks the rules is the one refused. */
static void keeps(uint32_t kind, uint32_t a, uint32_t b, uint32_t c, uint32_t d)
{
    before();
    add_gate(kind, a, b, c, d);
    EXPECT_ACCEPTED(kind == 7 ? NEXT : NEXT + 1, kind == 7 ? 2 : 1);
    add_gate(0, 0, 0, 0, 0);
    EXPECT_REFUSED(21, TRIED + 1);
}

/* Add or greater: it reads two wires of one sort, as wire right is. Wires wrong and worse are of the other two. */
static void both_rules(uint32_t kind, uint32_t right, uint32_t wrong, uint32_t worse)
{
    keeps(kind, right, right, NEXT, 0);
    breaks(kind, NEXT, right, NEXT, 0); /* a wire that is not made yet */
    breaks(kind, right, NEXT, NEXT, 0);
    breaks(kind, most, right, NEXT, 0);
    breaks(kind, right, most, NEXT, 0);
    breaks(kind, right, 2147483648, NEXT, 0);
    breaks(kind, wrong, right, NEXT, 0); /* a wire of another sort */
    breaks(kind, worse, right, NEXT, 0);
    breaks(kind, right, wrong, NEXT, 0);
    breaks(kind, right, worse, NEXT, 0);
    breaks(kind, wrong, wrong, NEXT, 0);
    breaks(kind, worse, worse, NEXT, 0);
    breaks(kind, right, right, NEXT - 1, 0); /* not the next number */
    breaks(kind, right, right, NEXT + 1, 0);
    breaks(kind, right, right, 0, 0);
    breaks(kind, right, right, NEXT, 1); /* an unlisted word */
    breaks(kind, right, right, NEXT, most);
}

static void add_rules(void)
{
    keeps(1, 0, 3, NEXT, 0);
    both_rules(1, 0, 1, 2);
}

static void greater_rules(void)
{
    both_rules(3, 1, 0, 2);
}

static void mux_rules(void)
{
    keeps(2, 2, 1, 1, NEXT);
    keeps(2, 4, 2, 4, NEXT);
    keeps(2, 2, 2, 2, NEXT);
    breaks(2, NEXT, 1, 1, NEXT); /* a wire that is not made yet */
    breaks(2, 2, NEXT, 1, NEXT);
    breaks(2, 2, 1, NEXT, NEXT);
    breaks(2, most, 1, 1, NEXT);
    breaks(2, 2, NEXT, NEXT, NEXT);
    breaks(2, 0, 1, 1, NEXT); /* a guard of another sort */
    breaks(2, 1, 1, 1, NEXT);
    breaks(2, 2, 0, 0, NEXT); /* wires of sort 1 */
    breaks(2, 2, 0, 1, NEXT);
    breaks(2, 2, 1, 0, NEXT);
    breaks(2, 2, 0, 2, NEXT);
    breaks(2, 2, 2, 0, NEXT);
    breaks(2, 2, 1, 2, NEXT); /* one of sort 2, one of sort 3 */
    breaks(2, 2, 2, 1, NEXT);
    breaks(2, 2, 1, 1, NEXT - 1); /* not the next number */
    breaks(2, 2, 1, 1, NEXT + 1);
}

static void constant_rules(void)
{
    const uint32_t no_bool[] = {2, 256, 257, 65536, 65537, most}, no_sort[] = {0, 4, 257, 259, 65537, 65539, most};
    keeps(4, 0, 1, NEXT, 0);
    keeps(4, most, 1, NEXT, 0);
    keeps(4, most, 2, NEXT, 0);
    keeps(4, 0, 3, NEXT, 0);
    keeps(4, 1, 3, NEXT, 0);
    for (size_t i = 0; i < COUNT(no_bool); i++)
        breaks(4, no_bool[i], 3, NEXT, 0);
    for (uint32_t value = 0; value < 3; value++)
        for (size_t i = 0; i < COUNT(no_sort); i++)
            breaks(4, value, no_sort[i], NEXT, 0);
    breaks(4, 1, 1, NEXT - 1, 0); /* not the next number */
    breaks(4, 1, 1, NEXT + 1, 0);
    breaks(4, 1, 1, NEXT, 1); /* an unlisted word */
}

static void convert_rules(void)
{
    const uint32_t no_sort[] = {0, 4, 5, 257, 258, 65537, 65538, most};
    keeps(5, 0, 2, NEXT, 0);
    keeps(5, 1, 1, NEXT, 0);
    breaks(5, NEXT, 1, NEXT, 0); /* a wire that is not made yet */
    breaks(5, NEXT, 2, NEXT, 0);
    breaks(5, most, 2, NEXT, 0);
    breaks(5, 0, 1, NEXT, 0); /* 1 to 1, 2 to 2 */
    breaks(5, 1, 2, NEXT, 0);
    breaks(5, 0, 3, NEXT, 0); /* to or from 3 */
    breaks(5, 1, 3, NEXT, 0);
    breaks(5, 2, 1, NEXT, 0);
    breaks(5, 2, 2, NEXT, 0);
    breaks(5, 2, 3, NEXT, 0);
    for (uint32_t wire = 0; wire < 3; wire++) /* from each sort */
        for (size_t i = 0; i < COUNT(no_sort); i++)
            breaks(5, wire, no_sort[i], NEXT, 0);
    breaks(5, 0, 2, NEXT - 1, 0); /* not the next number */
    breaks(5, 0, 2, NEXT + 1, 0);
    breaks(5, 0, 2, NEXT, 1); /* an unlisted word */
}

static void input_rules(void)
{
    const uint32_t no_desk[] = {0, 3, 4, 257, 258, 65537, 65538, most};
    const uint32_t no_number[] = {64, 128, 256, 65536, 2147483648, most};
    const uint32_t no_sort[] = {0, 2, 4, 257, 259, 65537, 65539, most};
    for (uint32_t sort = 1; sort <= 3; sort += 2)
        for (size_t i = 0; i < COUNT(no_desk); i++)
            breaks(6, no_desk[i], 0, sort, NEXT);
    for (uint32_t desk = 1; desk <= 2; desk++) {
        for (uint32_t sort = 1; sort <= 3; sort += 2) {
            keeps(6, desk, 0, sort, NEXT);
            keeps(6, desk, 63, sort, NEXT);
            for (size_t i = 0; i < COUNT(no_number); i++)
                breaks(6, desk, no_number[i], sort, NEXT);
        }
        for (size_t i = 0; i < COUNT(no_sort); i++)
            breaks(6, desk, 0, no_sort[i], NEXT);
    }
    breaks(6, 1, 0, 1, NEXT - 1); /* not the next number */
    breaks(6, 1, 0, 1, NEXT + 1);
}

/* "One desk and number has one sort in a circuit": the later gate fails. */
static void one_input_has_one_sort(void)
{
    keeps(6, 1, 3, 1, NEXT); /* read again at its sort */
    keeps(6, 2, 3, 3, NEXT);
    breaks(6, 1, 3, 3, NEXT); /* desk one's input 3 was read at sort 1 */
    breaks(6, 2, 3, 1, NEXT); /* desk two's at sort 3 */
    keeps(6, 1, 4, 3, NEXT); /* another number */
    keeps(6, 2, 2, 1, NEXT);
    keeps(6, 1, 19, 3, NEXT);
    keeps(6, 1, 35, 3, NEXT);
}

/* Two inputs, read at different sorts, are no clash. The first one read again at the other's sort is. */
static void told_apart(uint32_t desk, uint32_t number, uint32_t other_desk, uint32_t other_number)
{
    for (uint32_t sort = 1; sort <= 3; sort += 2) {
        no_gates();
        add_all_inputs();
        add_gate(6, desk, number, sort, 0);
        add_gate(6, other_desk, other_number, 4 - sort, 1);
        EXPECT_ACCEPTED(2, 0);
        add_gate(6, desk, number, 4 - sort, 2);
        EXPECT_REFUSED(21, 2);
    }
}

/* Every number of both desks, and the same number of the other desk. */
static void every_input_has_one_sort(void)
{
    for (uint32_t desk = 1; desk <= 2; desk++)
        for (uint32_t number = 0; number < 64; number++)
            told_apart(desk, number, 3 - desk, number);
}

/* Inputs that a list of both desks' inputs could take for one. */
static void inputs_at_the_ends_are_told_apart(void)
{
    told_apart(1, 32, 2, 0);
    told_apart(2, 0, 1, 32);
    told_apart(1, 63, 2, 0);
    told_apart(2, 0, 1, 63);
    told_apart(1, 0, 2, 63);
    told_apart(2, 63, 1, 0);
    told_apart(1, 0, 1, 63);
    told_apart(2, 0, 2, 63);
}

/* All 128 inputs, one of them at the other sort: no clash. Then that one at the sort of the rest fails. */
static void all_inputs_are_told_apart(void)
{
    for (uint32_t odd = 0; odd < 128; odd++) {
        no_gates();
        add_all_inputs();
        for (uint32_t k = 0; k < 128; k++)
            add_gate(6, 1 + k / 64, k % 64, k == odd ? 3 : 1, k);
        EXPECT_ACCEPTED(128, 0);
        add_gate(6, 1 + odd / 64, odd % 64, 1, 128);
        EXPECT_REFUSED(21, 128);
    }
}

/* An input of desk two at one gate, constants before and after, and as the last gate the input again, at a sort. */
static void call_read_again(uint32_t first, uint32_t last, uint32_t sort)
{
    no_gates();
    add_all_inputs();
    for (uint32_t k = 0; k < last; k++)
        if (k == first)
            add_gate(6, 2, 5, 1, k);
        else
            add_gate(4, 5, 1, k, 0);
    add_gate(6, 2, 5, sort, last);
}

/* However many gates lie between. The last gate of all is 2999. */
static void a_clash_far_apart(void)
{
    const uint32_t gates[][2] = {{0, 1}, {0, 130}, {0, 1030}, {0, 2500}, {0, 2999}, {1500, 2999}, {2998, 2999}};
    for (size_t i = 0; i < COUNT(gates); i++) {
        uint32_t first = gates[i][0], last = gates[i][1];
        call_read_again(first, last, 1);
        EXPECT_ACCEPTED(last + 1, 0);
        call_read_again(first, last, 3);
        EXPECT_REFUSED(21, last);
    }
}

/* A gate that breaks a rule itself does not fail later ones: the lowest gate is named. */
static void the_lowest_gate_is_named(void)
{
    before();
    add_gate(6, 1, 3, 3, NEXT);
    add_gate(6, 1, 3, 1, NEXT);
    add_gate(1, 0, 0, 0, 0);
    EXPECT_REFUSED(21, TRIED);
    for (uint32_t bad = 0; bad < 40; bad++) {
        no_gates();
        for (uint32_t i = 0; i < 40; i++)
            add_gate(i == bad || i == 39 ? 8 : 4, 1, 1, i, 0);
        EXPECT_REFUSED(21, bad);
    }
}

static void out_rules(void)
{
    for (uint32_t wire = 0; wire < NEXT; wire++)
        keeps(7, wire, 0, 0, 0);
    breaks(7, NEXT, 0, 0, 0); /* a wire that is not made yet */
    breaks(7, most, 0, 0, 0);
    breaks(7, 0, 1, 0, 0); /* an unlisted word */
    breaks(7, 0, 0, 1, 0);
    breaks(7, 0, 0, 0, 1);
    breaks(7, 0, NEXT, 0, 0);
    breaks(7, 0, 0, 0, NEXT);
}

static void kinds(void)
{
    breaks(0, 0, 0, 0, 0);
    breaks(8, 0, 0, 0, 0);
    breaks(most, 0, 0, 0, 0);
    breaks(0, 0, 0, NEXT, 0);
    breaks(8, 0, 0, NEXT, 0);
    breaks(257, 0, 3, NEXT, 0); /* add, were its kind one byte */
    breaks(65537, 0, 3, NEXT, 0);
    breaks(2147483655, 0, 0, 0, 0);
}

/* The first gate has no wires to read. */
static void the_first_gate(void)
{
    const uint32_t gates[][5] = {
        {1, 0, 0, 0, 0}, {2, 0, 0, 0, 0}, {3, 0, 0, 0, 0}, {5, 0, 1, 0, 0}, {5, 0, 2, 0, 0}, {7, 0, 0, 0, 0},
        {0, 0, 0, 0, 0}, {4, 0, 1, 1, 0}, {6, 1, 0, 1, 1},
    };
    for (size_t i = 0; i < COUNT(gates); i++) {
        no_gates();
        add_words(CIRCUIT, 5, gates[i]);
        EXPECT_REFUSED(21, 0);
    }
}

/* Wires, gates and outputs are told apart: after outs the next wire is still the next number. */
static void outs_make_no_wire(void)
{
    no_gates();
    add_gate(4, 1, 1, 0, 0);
    add_gate(7, 0, 0, 0, 0);
    add_gate(7, 0, 0, 0, 0);
    add_gate(4, 1, 1, 1, 0);
    EXPECT_ACCEPTED(2, 2);
    add_gate(7, 2, 0, 0, 0);
    EXPECT_REFUSED(21, 4);
}

void rules_of_gates(void)
{
    const struct test tests[] = {
        TEST(add_rules),
        TEST(mux_rules),
        TEST(greater_rules),
        TEST(constant_rules),
        TEST(convert_rules),
        TEST(input_rules),
        TEST(one_input_has_one_sort),
        TEST(every_input_has_one_sort),
        TEST(inputs_at_the_ends_are_told_apart),
        TEST(all_inputs_are_told_apart),
        TEST(a_clash_far_apart),
        TEST(the_lowest_gate_is_named),
        TEST(out_rules),
        TEST(kinds),
        TEST(the_first_gate),
        TEST(outs_make_no_wire),
    };
    RUN_GROUP("rules of gates, 21", tests);
}
