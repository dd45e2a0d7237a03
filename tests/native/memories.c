/* Lengths of memories, odd last bytes, the empty circuit and addresses. That no byte is written but those that are to be is
 * expected of every call. */
#include "harness.h"

/* What each of the tape and the lent memories is refused with where it is too short. */
static uint32_t number_of(enum memory m)
{
    return m == TAPE ? 24 : 25;
}

static void expect_sum(void)
{
    EXPECT_ACCEPTED(3, 1);
    EXPECT_WORDS(SHARES1, 10, 20, 30);
    EXPECT_WORDS(SHARES2, 4294967293, 4294967281, 4294967278);
    EXPECT_WORDS(OUTPUTS, 12);
}

/* Case sum with one memory shorter by some bytes. */
static void shorter(enum memory m, size_t bytes)
{
    call_sum();
    call.length[m] -= bytes;
    EXPECT_REFUSED(number_of(m), 0);
}

static void short_of_one_word(void)
{
    for (enum memory m = TAPE; m <= OUTPUTS; m++)
        shorter(m, 4);
}

static void short_of_one_byte(void)
{
    for (enum memory m = TAPE; m <= OUTPUTS; m++)
        for (size_t bytes = 1; bytes < 4; bytes++)
            shorter(m, bytes);
}

static void just_long_enough(void)
{
    call_sum();
    expect_sum();
}

/* Odd last bytes, and words more than are needed: accepted, and what is not needed is left alone. */
static void longer_by_bytes(void)
{
    for (enum memory m = INPUTS1; m <= OUTPUTS; m++)
        for (size_t bytes = 1; bytes <= 9; bytes++) {
            call_sum();
            for (size_t i = 0; i < bytes; i++)
                call.bytes[m][call.length[m]++] = (uint8_t)(0xe1 + i);
            expect_sum();
        }
}

static void all_longer_by_bytes(void)
{
    for (size_t bytes = 1; bytes <= 9; bytes++) {
        call_sum();
        for (enum memory m = INPUTS1; m <= OUTPUTS; m++)
            for (size_t i = 0; i < bytes; i++)
                call.bytes[m][call.length[m]++] = (uint8_t)(0xe1 + i);
        expect_sum();
    }
}

/* "The empty circuit is accepted." */
static void empty_circuit(void)
{
    no_call();
    EXPECT_ACCEPTED(0, 0);
}

static void empty_circuit_and_longer_memories(void)
{
    no_call();
    for (enum memory m = INPUTS1; m <= OUTPUTS; m++)
        lend(m, 17 + m);
    EXPECT_ACCEPTED(0, 0);
    for (size_t bytes = 1; bytes < 5; bytes++) {
        no_call();
        for (enum memory m = INPUTS1; m <= OUTPUTS; m++)
            lend(m, bytes);
        EXPECT_ACCEPTED(0, 0);
    }
}

/* With length 0 a pointer is not followed: null pointers will do. */
static void empty_memories_at_null(void)
{
    no_call();
    call.nulls = true;
    EXPECT_ACCEPTED(0, 0);
    for (enum memory m = INPUTS1; m <= OUTPUTS; m++) {
        call_sum();
        call.nulls = true;
        call.length[m] = 0;
        EXPECT_REFUSED(m == INPUTS1 || m == INPUTS2 ? 22 : number_of(m), m == INPUTS2 ? 1 : 0);
    }
    no_call(); /* a circuit that reads no input and puts nothing out */
    add_gate(4, 5, 1, 0, 0);
    add_word(TAPE, 2);
    lend_words(1, 0);
    call.nulls = true;
    EXPECT_ACCEPTED(1, 0);
    EXPECT_WORDS(SHARES2, 3);
}

static void odd_addresses(void)
{
    for (size_t shift = 1; shift < 16; shift += 2) {
        call_sum();
        for (enum memory m = CIRCUIT; m < MEMORIES; m++)
            call.shift[m] = shift;
        expect_sum();
    }
}

/* Each memory at another address past a multiple of 16. */
static void mixed_addresses(void)
{
    for (size_t shift = 0; shift < 16; shift++) {
        call_sum();
        for (enum memory m = CIRCUIT; m < MEMORIES; m++)
            call.shift[m] = (shift + 3 * m) % 16;
        expect_sum();
    }
}

static void refusals_at_odd_addresses(void)
{
    for (enum memory m = TAPE; m <= OUTPUTS; m++) {
        call_sum();
        for (enum memory k = CIRCUIT; k < MEMORIES; k++)
            call.shift[k] = 2 * k + 1;
        call.length[m] -= 1;
        EXPECT_REFUSED(number_of(m), 0);
    }
}

/* What is only read may overlap: both desks' inputs, and the tape, in one memory. */
static void what_is_read_may_overlap(void)
{
    const uint32_t circuit[] = {6, 1, 0, 1, 0, 6, 2, 0, 1, 1, 1, 0, 1, 2, 0, 7, 2, 0, 0, 0}, read[] = {40, 50, 60};
    uint32_t shares1[3], shares2[3], output;
    const uint8_t *bytes = (const uint8_t *)read;
    desk_evaluated r = desk_evaluate((const uint8_t *)circuit, sizeof circuit, bytes, 4, bytes, 4, bytes, 12,
        (uint8_t *)shares1, 12, (uint8_t *)shares2, 12, (uint8_t *)&output, 4);
    EXPECT(r.number == 0 && r.place == 0 && r.wires == 3 && r.outputs == 1 && output == 80);
    EXPECT(shares2[0] == 0 && shares2[1] == 4294967286 && shares2[2] == 20);
}

void memories(void)
{
    const struct test tests[] = {
        TEST(short_of_one_word),
        TEST(short_of_one_byte),
        TEST(just_long_enough),
        TEST(longer_by_bytes),
        TEST(all_longer_by_bytes),
        TEST(empty_circuit),
        TEST(empty_circuit_and_longer_memories),
        TEST(empty_memories_at_null),
        TEST(odd_addresses),
        TEST(mixed_addresses),
        TEST(refusals_at_odd_addresses),
        TEST(what_is_read_may_overlap),
    };
    RUN_GROUP("memories", tests);
}
