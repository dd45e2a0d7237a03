/* The cases of document 01 that are evaluations, and what each gate computes. */
#include "harness.h"

#include <stdio.h>
#include <string.h>

/* Case sum: "inputs 7 and 5, tape 10, 20, 30: desk one 10, 20, 30; desk two 4294967293, 4294967281, 4294967278; output
 * 12" */
static void sum(void)
{
    call_sum();
    EXPECT_ACCEPTED(3, 1);
    EXPECT_WORDS(SHARES1, 10, 20, 30);
    EXPECT_WORDS(SHARES2, 4294967293, 4294967281, 4294967278);
    EXPECT_WORDS(OUTPUTS, 12);
}

/* The call that desk.h gives as its example, taken from there, and what its last line says of it. */
static void example_of_the_header(void)
{
    char found[200];
#include "example.inc"
    snprintf(found, sizeof found, "r is {%u, %u, %u, %u}, shares1 %u, %u, %u, shares2 %u, %u, %u, output %u",
        r.number, r.place, r.wires, r.outputs, shares1[0], shares1[1], shares1[2], shares2[0], shares2[1], shares2[2],
        output);
    EXPECT(strcmp(found, said) == 0);
}

/* "out of (desk one's input > desk two's): 6 gates, 5 wires" */
static void call_greater(uint32_t one, uint32_t two, const uint32_t *tape)
{
    no_call();
    add_gate(6, 1, 0, 1, 0);
    add_gate(5, 0, 2, 1, 0);
    add_gate(6, 2, 0, 1, 2);
    add_gate(5, 2, 2, 3, 0);
    add_gate(3, 1, 3, 4, 0);
    add_gate(7, 4, 0, 0, 0);
    add_word(INPUTS1, one);
    add_word(INPUTS2, two);
    add_words(TAPE, 5, tape);
    lend_words(5, 1);
}

static void greater(void)
{
    const uint32_t tape[] = {10, 4294967295, 30, 40, 51};
    call_greater(7, 5, tape);
    EXPECT_ACCEPTED(5, 1);
    EXPECT_WORDS(SHARES1, 10, 4294967295, 30, 40, 1);
    EXPECT_WORDS(SHARES2, 4294967293, 4294967288, 4294967271, 45, 0);
    EXPECT_WORDS(OUTPUTS, 1);
}

static void greater_is_strict_and_unsigned(void)
{
    const uint32_t tape[] = {1, 2, 3, 4, 5};
    const uint32_t pairs[][3] = {
        {5, 5, 0}, {4, 5, 0}, {6, 5, 1}, {0, 0, 0}, {4294967295, 0, 1}, {0, 4294967295, 0}, {2147483648, 2147483647, 1},
        {2147483647, 2147483648, 0}, {4294967295, 4294967294, 1}, {4294967295, 4294967295, 0},
    };
    for (size_t i = 0; i < COUNT(pairs); i++) {
        call_greater(pairs[i][0], pairs[i][1], tape);
        EXPECT_ACCEPTED(5, 1);
        EXPECT_WORDS(OUTPUTS, pairs[i][2]);
    }
}

/* "with 7 or 9 against 5, partner tapes differ by +2 in word 0 and by xor 14 in word 1": desk two's shares are the same. */
static void greater_partners_look_the_same_to_desk_two(void)
{
    const uint32_t tapes[][5] = {
        {10, 4294967295, 30, 40, 51}, {0, 0, 0, 0, 0}, {4294967295, 4294967294, 4294967293, 4294967292, 4294967291},
        {0x12345678, 0x9abcdef0, 0x0fedcba9, 0x87654321, 0xdeadbeef},
    };
    for (size_t i = 0; i < COUNT(tapes); i++) {
        const uint32_t *t = tapes[i];
        uint8_t two[20];
        call_greater(7, 5, t);
        EXPECT_ACCEPTED(5, 1);
        memcpy(two, after[SHARES2], sizeof two);
        call_greater(9, 5, (const uint32_t[]){t[0] + 2, t[1] ^ 14, t[2], t[3], t[4]});
        EXPECT_ACCEPTED(5, 1);
        EXPECT(memcmp(two, after[SHARES2], sizeof two) == 0);
        /* not so with the tape itself */
        call_greater(9, 5, t);
        EXPECT_ACCEPTED(5, 1);
        EXPECT(memcmp(two, after[SHARES2], sizeof two) != 0);
    }
}

/* Demand 3, of desk one: its shares are those of the tape, whatever the inputs are. */
static void greater_looks_the_same_to_desk_one(void)
{
    const uint32_t tape[] = {10, 4294967295, 30, 40, 51}, inputs[][2] = {{7, 5}, {9, 5}, {0, 4294967295}, {5, 5}};
    for (size_t i = 0; i < COUNT(inputs); i++) {
        call_greater(inputs[i][0], inputs[i][1], tape);
        EXPECT_ACCEPTED(5, 1);
        EXPECT_WORDS(SHARES1, 10, 4294967295, 30, 40, 1);
    }
}

/* "addition wraps at 2^32" */
static void add_wraps(void)
{
    call_sum();
    call.length[INPUTS1] = call.length[INPUTS2] = 0;
    add_word(INPUTS1, 4294967295);
    add_word(INPUTS2, 3);
    EXPECT_ACCEPTED(3, 1);
    EXPECT_WORDS(OUTPUTS, 2);
    EXPECT_WORDS(SHARES2, 4294967285, 4294967279, 4294967268);
}

/* A constant of each sort: what each desk gets of 6, 6 and 1 with tape words that are odd and even. */
static void shares_of_each_sort(void)
{
    no_call();
    add_gate(4, 6, 1, 0, 0);
    add_gate(4, 6, 2, 1, 0);
    add_gate(4, 1, 3, 2, 0);
    add_gate(4, 1, 3, 3, 0);
    add_gate(4, 0, 3, 4, 0);
    ADD_WORDS(TAPE, 9, 9, 9, 8, 9);
    lend_words(5, 0);
    EXPECT_ACCEPTED(5, 0);
    EXPECT_WORDS(SHARES1, 9, 9, 1, 0, 1);
    EXPECT_WORDS(SHARES2, 4294967293, 15, 0, 1, 1);
}

/* A mux of uints and one of bools: the first wire where the guard is 1, the second where it is 0. */
static void mux_picks(void)
{
    for (uint32_t guard = 0; guard < 2; guard++) {
        no_gates();
        add_gate(4, guard, 3, 0, 0);
        add_gate(4, 11, 2, 1, 0);
        add_gate(4, 22, 2, 2, 0);
        add_gate(2, 0, 1, 2, 3);
        add_gate(6, 1, 0, 3, 4);
        add_gate(6, 1, 1, 3, 5);
        add_gate(2, 0, 4, 5, 6);
        add_gate(7, 3, 0, 0, 0);
        add_gate(7, 6, 0, 0, 0);
        ADD_WORDS(INPUTS1, 1, 0);
        EXPECT_ACCEPTED(7, 2);
        EXPECT_WORDS(OUTPUTS, guard ? 11 : 22, guard);
    }
}

/* There and back, a value stays as it is; every wire is shared with its own tape word. */
static void converts_keep_the_value(void)
{
    no_call();
    add_gate(4, 3000000000, 1, 0, 0);
    add_gate(5, 0, 2, 1, 0);
    add_gate(5, 1, 1, 2, 0);
    add_outs(3);
    ADD_WORDS(TAPE, 4000000000, 1, 3000000001);
    lend_words(3, 3);
    EXPECT_ACCEPTED(3, 3);
    EXPECT_WORDS(SHARES1, 4000000000, 1, 3000000001);
    EXPECT_WORDS(SHARES2, 3294967296, 3000000001, 4294967295);
    EXPECT_WORDS(OUTPUTS, 3000000000, 3000000000, 3000000000);
}

/* "Outputs are in order", a wire as often as it is put out, and each as soon as its wire is made. */
static void outputs_in_order(void)
{
    no_gates();
    add_gate(4, 100, 1, 0, 0);
    add_gate(7, 0, 0, 0, 0);
    add_gate(4, 200, 2, 1, 0);
    add_gate(4, 1, 3, 2, 0);
    add_gate(7, 2, 0, 0, 0);
    add_gate(7, 1, 0, 0, 0);
    add_gate(7, 0, 0, 0, 0);
    EXPECT_ACCEPTED(3, 4);
    EXPECT_WORDS(OUTPUTS, 100, 1, 200, 100);
}

/* Desk one's input 63 and desk two's, the last that there are. */
static void inputs_of_both_desks(void)
{
    no_gates();
    add_gate(6, 1, 63, 1, 0);
    add_gate(6, 2, 63, 1, 1);
    add_gate(6, 2, 0, 3, 2);
    add_outs(3);
    for (uint32_t n = 0; n < 64; n++) {
        add_word(INPUTS1, 1000 + n);
        add_word(INPUTS2, n == 0 ? 1 : 2000 + n);
    }
    EXPECT_ACCEPTED(3, 3);
    EXPECT_WORDS(OUTPUTS, 1063, 2063, 1);
}

void cases(void)
{
    const struct test tests[] = {
        TEST(sum),
        TEST(example_of_the_header),
        TEST(greater),
        TEST(greater_is_strict_and_unsigned),
        TEST(greater_partners_look_the_same_to_desk_two),
        TEST(greater_looks_the_same_to_desk_one),
        TEST(add_wraps),
        TEST(shares_of_each_sort),
        TEST(mux_picks),
        TEST(converts_keep_the_value),
        TEST(outputs_in_order),
        TEST(inputs_of_both_desks),
    };
    RUN_GROUP("cases and gates", tests);
}
