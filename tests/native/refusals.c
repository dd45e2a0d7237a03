/* Refusals 20 and 22 to 25 with their places, and the order of all. (21 has a file of its own, rules.c.) */
#include "harness.h"

/* A circuit of so many constant gates, and of so many words after them, with memory enough. */
static void call_constants(uint32_t gates, uint32_t words)
{
    no_gates();
    for (uint32_t k = 0; k < gates; k++)
        add_gate(4, k, 1, k, 0);
    for (uint32_t k = 0; k < words; k++)
        add_word(CIRCUIT, 0);
}

/* 20: "circuit words not a multiple of 5" */
static void words_not_five_to_a_gate(void)
{
    for (uint32_t words = 1; words < 5; words++) {
        call_constants(0, words);
        EXPECT_REFUSED(20, 0);
        call_constants(3, words);
        EXPECT_REFUSED(20, 0);
        call_constants(2999, words);
        EXPECT_REFUSED(20, 0);
    }
}

/* 20: "Bytes that aren't whole words" */
static void bytes_not_whole_words(void)
{
    for (size_t odd = 1; odd < 4; odd++) {
        call_constants(0, 0);
        call.length[CIRCUIT] += odd;
        EXPECT_REFUSED(20, 0);
        call_constants(3, 0);
        call.length[CIRCUIT] += odd;
        EXPECT_REFUSED(20, 0);
        call_constants(3, 0);
        call.length[CIRCUIT] -= odd;
        EXPECT_REFUSED(20, 0);
        call_constants(3000, 0);
        call.length[CIRCUIT] += odd;
        EXPECT_REFUSED(20, 0);
    }
}

/* 20: "over 15,000" */
static void fifteen_thousand_words(void)
{
    call_constants(3000, 0);
    EXPECT_ACCEPTED(3000, 0);
    EXPECT(word_after(SHARES1, 2999) + word_after(SHARES2, 2999) == 2999);
    for (uint32_t words = 1; words <= 5; words++) {
        call_constants(3000, words);
        EXPECT_REFUSED(20, 0);
    }
    call_constants(3001, 0);
    EXPECT_REFUSED(20, 0);
    call_constants(3040, 0);
    EXPECT_REFUSED(20, 0);
}

static void three_thousand_outs_but_one(void)
{
    no_gates();
    add_gate(4, 77, 2, 0, 0);
    for (uint32_t k = 1; k < 3000; k++)
        add_gate(7, 0, 0, 0, 0);
    EXPECT_ACCEPTED(1, 2999);
    EXPECT(word_after(OUTPUTS, 0) == 77 && word_after(OUTPUTS, 2998) == 77);
}

/* A constant, and then an input of each desk: number 2 of desk one, a uint, and number 1 of desk two, a bool. */
static void call_inputs(size_t words1, size_t words2)
{
    no_gates();
    add_gate(4, 9, 1, 0, 0);
    add_gate(6, 1, 2, 1, 1);
    add_gate(7, 1, 0, 0, 0);
    add_gate(6, 2, 1, 3, 2);
    for (size_t n = 0; n < words1; n++)
        add_word(INPUTS1, 100);
    for (size_t n = 0; n < words2; n++)
        add_word(INPUTS2, 1);
}

/* 22: "an input read lies past the end of that desk's inputs" */
static void input_past_the_end(void)
{
    call_inputs(3, 2);
    EXPECT_ACCEPTED(3, 1);
    call_inputs(2, 2);
    EXPECT_REFUSED(22, 1);
    call_inputs(3, 1);
    EXPECT_REFUSED(22, 3);
    call_inputs(2, 1);
    EXPECT_REFUSED(22, 1);
    call_inputs(0, 2);
    EXPECT_REFUSED(22, 1);
    call_inputs(3, 0);
    EXPECT_REFUSED(22, 3);
    call_inputs(0, 0);
    EXPECT_REFUSED(22, 1);
}

/* Desk one's inputs are no help where desk two's end, nor the other way. */
static void the_other_desks_inputs_do_not_help(void)
{
    call_inputs(64, 1);
    EXPECT_REFUSED(22, 3);
    call_inputs(2, 64);
    EXPECT_REFUSED(22, 1);
}

/* A last word that is short of a byte is no word. */
static void input_short_of_a_byte(void)
{
    for (size_t odd = 1; odd < 4; odd++) {
        call_inputs(3, 2);
        call.length[INPUTS1] -= odd;
        EXPECT_REFUSED(22, 1);
        call_inputs(3, 2);
        call.length[INPUTS2] -= odd;
        EXPECT_REFUSED(22, 3);
    }
}

/* Three bool inputs: desk one's 0, desk two's 0 and desk one's 1, at gates 0, 2 and 3. */
static void call_bools(uint32_t one, uint32_t two, uint32_t other)
{
    no_gates();
    add_gate(6, 1, 0, 3, 0);
    add_gate(7, 0, 0, 0, 0);
    add_gate(6, 2, 0, 3, 1);
    add_gate(6, 1, 1, 3, 2);
    ADD_WORDS(INPUTS1, one, other);
    ADD_WORDS(INPUTS2, two);
}

/* 23: "a bool input read is neither 0 nor 1" */
static void bool_neither_0_nor_1(void)
{
    const uint32_t bad[] = {2, 3, 256, 257, 65536, 2147483649, 4294967295};
    for (uint32_t i = 0; i < 8; i++) {
        call_bools(i & 1, i >> 1 & 1, i >> 2);
        EXPECT_ACCEPTED(3, 1);
    }
    for (size_t i = 0; i < COUNT(bad); i++) {
        call_bools(bad[i], 1, 0);
        EXPECT_REFUSED(23, 0);
        call_bools(0, bad[i], 1);
        EXPECT_REFUSED(23, 2);
        call_bools(1, 0, bad[i]);
        EXPECT_REFUSED(23, 3);
        call_bools(1, bad[i], 2);
        EXPECT_REFUSED(23, 2);
        call_bools(2, bad[i], 2);
        EXPECT_REFUSED(23, 0);
    }
}

/* A uint input may be any word, and an input that no gate reads may too. */
static void other_inputs_may_be_any_word(void)
{
    call_inputs(0, 0);
    ADD_WORDS(INPUTS1, 2, 4294967295, 4294967295, 2);
    ADD_WORDS(INPUTS2, 2, 1, 4294967295);
    EXPECT_ACCEPTED(3, 1);
    EXPECT_WORDS(OUTPUTS, 4294967295);
}

/* 22 at a higher gate comes before 23 at a lower one. */
static void past_the_end_comes_before_bools(void)
{
    call_bools(2, 0, 0);
    call.length[INPUTS1] = 4;
    EXPECT_REFUSED(22, 3);
    call_bools(2, 0, 0);
    call.length[INPUTS2] = 0;
    EXPECT_REFUSED(22, 2);
}

/* 24: "tape has fewer words than the circuit has wires" */
static void tape_too_short(void)
{
    call_sum();
    call.length[TAPE] -= 4;
    EXPECT_REFUSED(24, 0);
    call.length[TAPE] = 0;
    EXPECT_REFUSED(24, 0);
    call_constants(3000, 0);
    call.length[TAPE] = 11996;
    EXPECT_REFUSED(24, 0);
}

/* 25: "either share memory or the output memory is too short" */
static void lent_memory_too_short(void)
{
    for (enum memory m = SHARES1; m <= OUTPUTS; m++) {
        call_sum();
        call.length[m] -= 4;
        EXPECT_REFUSED(25, 0);
        call_sum();
        call.length[m] = 0;
        EXPECT_REFUSED(25, 0);
    }
    call_sum();
    call.length[SHARES1] = call.length[SHARES2] = call.length[OUTPUTS] = 0;
    EXPECT_REFUSED(25, 0);
}

/* A circuit with all faults at once, of which those up to a number are mended: the next one is the answer. */
static void call_faults(uint32_t mended)
{
    no_call();
    add_gate(6, 1, 0, 3, 0);
    add_gate(6, 2, 1, 3, 1);
    add_gate(7, 1, 0, 0, 0);
    add_gate(mended < 21 ? 9 : 4, 1, 1, 2, 0);
    add_word(INPUTS1, mended < 23 ? 2 : 1);
    add_words(INPUTS2, mended < 22 ? 1 : 2, (const uint32_t[]){0, 0});
    call.length[CIRCUIT] += mended < 20 ? 4 : 0;
    lend(TAPE, mended < 24 ? 8 : 12);
    lend(SHARES1, mended < 25 ? 8 : 12);
    lend(SHARES2, mended < 25 ? 0 : 12);
    lend(OUTPUTS, mended < 25 ? 3 : 4);
}

static void the_first_number_is_the_answer(void)
{
    call_faults(0);
    EXPECT_REFUSED(20, 0);
    call_faults(20);
    EXPECT_REFUSED(21, 3);
    call_faults(21);
    EXPECT_REFUSED(22, 1);
    call_faults(22);
    EXPECT_REFUSED(23, 0);
    call_faults(23);
    EXPECT_REFUSED(24, 0);
    call_faults(24);
    EXPECT_REFUSED(25, 0);
    call_faults(25);
    EXPECT_ACCEPTED(3, 1);
}

void refusals(void)
{
    const struct test tests[] = {
        TEST(words_not_five_to_a_gate),
        TEST(bytes_not_whole_words),
        TEST(fifteen_thousand_words),
        TEST(three_thousand_outs_but_one),
        TEST(input_past_the_end),
        TEST(the_other_desks_inputs_do_not_help),
        TEST(input_short_of_a_byte),
        TEST(bool_neither_0_nor_1),
        TEST(other_inputs_may_be_any_word),
        TEST(past_the_end_comes_before_bools),
        TEST(tape_too_short),
        TEST(lent_memory_too_short),
        TEST(the_first_number_is_the_answer),
    };
    RUN_GROUP("refusals and their order", tests);
}
