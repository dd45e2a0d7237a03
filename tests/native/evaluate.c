/* The tests of evaluate, as C calls it. Each group says how many of its tests passed; the last line counts all. */
#include "harness.h"

#include <stdio.h>

int main(void)
{
    setvbuf(stdout, NULL, _IOLBF, 0); /* should a call crash, what was printed before stands */
    cases();
    refusals();
    rules_of_gates();
    memories();
    random_circuits();
    return report();
}
