#include "harness.h"

#include "plain.h"

#include <stdio.h>
#include <string.h>

enum { GUARD = 64, LINE = 16 };

struct call call;
uint8_t after[MEMORIES][ROOM];

static int passed, failed;
static const char *running;
static bool holding;

void run_group(const char *name, const struct test *tests, size_t count)
{
    size_t kept = 0;
    for (size_t i = 0; i < count; i++) {
        running = tests[i].name;
        holding = true;
        tests[i].run();
        kept += holding;
    }
    passed += (int)kept;
    failed += (int)(count - kept);
    printf("%s: %zu passed, %zu failed\n", name, kept, count - kept);
}

int report(void)
{
    printf("%d passed, %d failed\n", passed, failed);
    return passed == 0 || failed > 0;
}

void expect(bool holds, const char *what, const char *file, int line)
{
    if (holds)
        return;
    if (holding) /* the first of a test is enough to say */
        printf("FAILED %s: %s:%d: %s\n", running, file, line, what);
    holding = false;
}

bool fails(void)
{
    return !holding;
}

/* A byte of what lent memories are filled with, and of what lies around all memories. */
static uint8_t pattern(size_t i)
{
    return (uint8_t)(0x5a ^ i * 37);
}

static uint8_t guard(size_t i)
{
    return (uint8_t)(0xc3 + i * 11);
}

void no_call(void)
{
    memset(call.length, 0, sizeof call.length);
    memset(call.shift, 0, sizeof call.shift);
    call.nulls = false;
}

void lend(enum memory m, size_t bytes)
{
    for (size_t i = 0; i < bytes; i++)
        call.bytes[m][i] = pattern(i + m);
    call.length[m] = bytes;
}

void lend_words(size_t wires, size_t outputs)
{
    lend(SHARES1, 4 * wires);
    lend(SHARES2, 4 * wires);
    lend(OUTPUTS, 4 * outputs);
}

void no_gates(void)
{
    no_call();
    for (enum memory m = TAPE; m < MEMORIES; m++)
        lend(m, ENOUGH);
}

void add_word(enum memory m, uint32_t word)
{
    for (size_t k = 0; k < 4; k++)
        call.bytes[m][call.length[m]++] = (uint8_t)(word >> 8 * k);
}

void add_words(enum memory m, size_t count, const uint32_t *words)
{
    for (size_t i = 0; i < count; i++)
        add_word(m, words[i]);
}

void add_gate(uint32_t kind, uint32_t a, uint32_t b, uint32_t c, uint32_t d)
{
    ADD_WORDS(CIRCUIT, kind, a, b, c, d);
}

void add_outs(uint32_t wires)
{
    for (uint32_t k = 0; k < wires; k++)
        add_gate(7, k, 0, 0, 0);
}

/* The memories as the call has them: each in a place of its own, with guard bytes before and after. */
struct placed {
    uint8_t place[MEMORIES][LINE + GUARD + LINE + ROOM + GUARD];
    uint8_t *start[MEMORIES];
};

static void place(struct placed *p)
{
    for (enum memory m = CIRCUIT; m < MEMORIES; m++) {
        size_t past = (uintptr_t)p->place[m] % LINE;
        p->start[m] = p->place[m] + GUARD + LINE - past + call.shift[m];
        memcpy(p->start[m], call.bytes[m], call.length[m]);
        for (size_t i = 0; i < GUARD; i++) {
            p->start[m][call.length[m] + i] = guard(i);
            (p->start[m] - GUARD)[i] = guard(i);
        }
    }
}

static bool guards_stand(const struct placed *p, enum memory m)
{
    for (size_t i = 0; i < GUARD; i++)
        if (p->start[m][call.length[m] + i] != guard(i) || (p->start[m] - GUARD)[i] != guard(i))
            return false;
    return true;
}

/* The bytes of a memory from here on are as they were before the call. */
static bool stays(const struct placed *p, enum memory m, size_t from)
{
    return from <= call.length[m] && memcmp(p->start[m] + from, call.bytes[m] + from, call.length[m] - from) == 0;
}

static bool same_memory(const struct placed *p, const struct placed *q, enum memory m)
{
    return memcmp(p->start[m], q->start[m], call.length[m]) == 0;
}

static uint8_t *pointer(const struct placed *p, enum memory m)
{
    return call.nulls && call.length[m] == 0 ? NULL : p->start[m];
}

#define MEMORY(p, m) pointer(p, m), call.length[m]
#define ARGUMENTS(p) \
    MEMORY(p, CIRCUIT), MEMORY(p, INPUTS1), MEMORY(p, INPUTS2), MEMORY(p, TAPE), MEMORY(p, SHARES1), MEMORY(p, SHARES2), \
        MEMORY(p, OUTPUTS)

desk_evaluated make_call(void)
{
    static struct placed desk, plain;
    place(&desk);
    place(&plain);
    desk_evaluated answer = desk_evaluate(ARGUMENTS(&desk));
    struct plain_answer reading = plain_evaluate(ARGUMENTS(&plain));

    for (enum memory m = CIRCUIT; m < MEMORIES; m++) {
        EXPECT(guards_stand(&desk, m));
        EXPECT(same_memory(&desk, &plain, m));
        memcpy(after[m], desk.start[m], call.length[m]);
    }
    for (enum memory m = CIRCUIT; m <= TAPE; m++)
        EXPECT(stays(&desk, m, 0));
    /* of a refusal the counts are 0, so every lent byte stays */
    EXPECT(answer.number == 0 || (answer.wires == 0 && answer.outputs == 0));
    EXPECT(stays(&desk, SHARES1, 4 * (size_t)answer.wires));
    EXPECT(stays(&desk, SHARES2, 4 * (size_t)answer.wires));
    EXPECT(stays(&desk, OUTPUTS, 4 * (size_t)answer.outputs));
    EXPECT(answer.number == reading.number);
    EXPECT(answer.place == reading.place);
    EXPECT(answer.wires == reading.wires);
    EXPECT(answer.outputs == reading.outputs);
    return answer;
}

void expect_answer(uint32_t number, uint32_t place, uint32_t wires, uint32_t outputs, const char *file, int line)
{
    desk_evaluated answer = make_call();
    expect(answer.number == number, "the number", file, line);
    expect(answer.place == place, "the place", file, line);
    expect(answer.wires == wires, "the count of wires", file, line);
    expect(answer.outputs == outputs, "the count of outputs", file, line);
}

uint32_t word_after(enum memory m, size_t i)
{
    const uint8_t *b = after[m] + 4 * i;
    return b[0] + b[1] * 256u + b[2] * 65536u + b[3] * 16777216u;
}

void expect_words(enum memory m, size_t count, const uint32_t *words, const char *file, int line)
{
    expect(4 * count <= call.length[m], "the memory has the words", file, line);
    for (size_t i = 0; i < count; i++)
        expect(word_after(m, i) == words[i], "the word", file, line);
}

void call_sum(void)
{
    no_call();
    add_gate(6, 1, 0, 1, 0);
    add_gate(6, 2, 0, 1, 1);
    add_gate(1, 0, 1, 2, 0);
    add_gate(7, 2, 0, 0, 0);
    add_word(INPUTS1, 7);
    add_word(INPUTS2, 5);
    ADD_WORDS(TAPE, 10, 20, 30);
    lend_words(3, 1);
}
