/* What the tests of evaluate are written with: one call that is built up, made, and looked at. */
#ifndef HARNESS_H
#define HARNESS_H

#include "../../include/desk.h"

#include <stdbool.h>
#include <stddef.h>
#include <stdint.h>

/* The memories of a call, in the order of its arguments. The last three are lent to be written. */
enum memory { CIRCUIT, INPUTS1, INPUTS2, TAPE, SHARES1, SHARES2, OUTPUTS, MEMORIES };

enum {
    ROOM = 61000, /* the longest memory of a test, in bytes */
    ENOUGH = 12000 /* what is always enough for a tape, shares and outputs */
};

/* The call: what each memory holds before it, its length in bytes, and how far its address lies past a multiple of 16. A
 * memory of length 0 is a null pointer where nulls is set. */
struct call {
    uint8_t bytes[MEMORIES][ROOM];
    size_t length[MEMORIES];
    size_t shift[MEMORIES];
    bool nulls;
};
extern struct call call;

/* What each memory holds after the call was made. */
extern uint8_t after[MEMORIES][ROOM];

#define COUNT(array) (sizeof(array) / sizeof(array)[0])

/* A test is a named function, and a group is a list of them. */
struct test {
    const char *name;
    void (*run)(void);
};
#define TEST(function) {#function, function}

void run_group(const char *name, const struct test *tests, size_t count);
#define RUN_GROUP(name, tests) run_group(name, tests, COUNT(tests))

/* Says how many passed and failed; the exit status of the program. */
int report(void);

/* The test at hand fails, and says what and where, if this does not hold. */
#define EXPECT(holds) expect(holds, #holds, __FILE__, __LINE__)
void expect(bool holds, const char *what, const char *file, int line);
bool fails(void); /* it has failed */

/* Building the call. None: every memory empty, all at even addresses. Lent: a memory filled with a pattern to be
 * overwritten. No gates: none yet, and no inputs; the tape and the lent memories are always enough. */
void no_call(void);
void lend(enum memory m, size_t bytes);
void lend_words(size_t wires, size_t outputs); /* the shares and the outputs: just long enough for these counts */
void no_gates(void);
void add_word(enum memory m, uint32_t word);
void add_words(enum memory m, size_t count, const uint32_t *words);
void add_gate(uint32_t kind, uint32_t a, uint32_t b, uint32_t c, uint32_t d);
void add_outs(uint32_t wires); /* of each of the wires below this one */
#define ADD_WORDS(m, ...) add_words(m, COUNT(((uint32_t[]){__VA_ARGS__})), (const uint32_t[]){__VA_ARGS__})

/* Makes the call. Expects, of every call: no byte outside the memories is written, what is only read stays as it is, a
 * refusal has zero counts and leaves every lent byte, acceptance leaves the bytes after the words that it counts, and the
 * plain reading of the rules answers and writes the same. */
desk_evaluated make_call(void);

/* Makes the call and expects this of its answer. */
#define EXPECT_REFUSED(number, place) expect_answer(number, place, 0, 0, __FILE__, __LINE__)
#define EXPECT_ACCEPTED(wires, outputs) expect_answer(0, 0, wires, outputs, __FILE__, __LINE__)
void expect_answer(uint32_t number, uint32_t place, uint32_t wires, uint32_t outputs, const char *file, int line);

/* Expects these words from the start of a memory, after the call. */
#define EXPECT_WORDS(m, ...) \
    expect_words(m, COUNT(((uint32_t[]){__VA_ARGS__})), (const uint32_t[]){__VA_ARGS__}, __FILE__, __LINE__)
void expect_words(enum memory m, size_t count, const uint32_t *words, const char *file, int line);
uint32_t word_after(enum memory m, size_t i);

/* Case sum of document 01, with inputs 7 and 5, tape 10, 20, 30, and memories that are just long enough. */
void call_sum(void);

/* The groups. */
void cases(void);
void refusals(void);
void rules_of_gates(void);
void memories(void);
void random_circuits(void);

#endif
