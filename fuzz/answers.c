#include "answers.h"

#include <stdio.h>
#include <stdlib.h>

enum { ANSWERS = SEDDOLKI_VALUATION_DAY + 1 };

/* Each call, ground and block; of a call that is done, whether the book's length changes. */
KEPT reached[CALLS][ANSWERS][16];

/* How often each call gave each answer, over all inputs. */
static uint64_t answers[CALLS][ANSWERS];

/* A line for a call that was tried, and how often it was. */
static uint64_t print_call(const char *name, const uint64_t times[ANSWERS]) {
    uint64_t all = 0;
    for (int number = 0; number < ANSWERS; number++) {
        if (!times[number]) continue;
        if (!all) fprintf(stderr, "%s answered", name);
        fprintf(stderr, " %d: %llu", number, (unsigned long long)times[number]);
        all += times[number];
    }
    if (all) fprintf(stderr, "\n");
    return all;
}

__attribute__((destructor)) static void print_answers(void) {
    static const char *names[CALLS] = {"check", "margin",        "append",    "preview",  "strike",
                                       "read",  "present value", "bootstrap", "statement"};
    uint64_t all = 0;
    for (int call = 0; call < CALLS; call++) all += print_call(names[call], answers[call]);
    fprintf(stderr, "%llu calls\n", (unsigned long long)all);
}

void expect(int holds, const char *promise) {
    if (holds) return;
    fprintf(stderr, "broken: %s\n", promise);
    abort();
}

seddolki_answer seen(int call, seddolki_answer answer) {
    expect(answer.number < ANSWERS, "a number is 0 or a ground's");
    int names_block = answer.number >= SEDDOLKI_CHECK && answer.number <= SEDDOLKI_FLOW_LIMIT;
    expect(answer.number == 0 || names_block || answer.value == 0, "grounds 1 and 13 on: block 0");
    expect(!names_block || answer.value <= 128, "a block is 0 to 128");
    reached[call][answer.number][answer.number ? answer.value % 16 : 0] = 1;
    answers[call][answer.number]++;
    return answer;
}

void note_length(int call, size_t before, size_t after) { reached[call][0][1] = before != after; }

int same(seddolki_answer a, seddolki_answer b) {
    return a.number == b.number && a.value == b.value;
}
