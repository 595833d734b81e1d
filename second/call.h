// A call of one of the two entries, its answer, and the ways to run a program on calls.
#ifndef CALL_H
#define CALL_H

#include "unify.h"

#include <stdio.h>

typedef struct {
    bool is_fit;
    uint32_t mode; // this and the next two are 0 for the fit test
    uint32_t room;
    uint32_t work;
    Words first;
    Words second;
} Call;

void call_free(Call *call);

// Makes the call; the outcome of a fit test has a number alone.
Outcome call_run(const Call *call);

// Prints the call as one line of the batch format.
void call_print(const Call *call, FILE *to);

// Prints a call of unification as one line that `meet` reads; the sizes of the areas are left out.
void meet_print(const Call *call, FILE *to);

// Prints words parted by single spaces.
void words_print(const Words *words, FILE *to);

// Reads digits parted by spaces and newlines, which may also stand at both ends.
bool parse_numbers(const char *text, size_t length, Words *numbers);

// Reads both inputs of a call alone, each a count and so many words; the call is freed in both cases.
bool parse_inputs(const char *text, size_t length, Call *call);

// Reads a call of `meet` from standard input; false for bad input. The call is freed in both cases.
bool meet_read(Call *call);

// Makes a call and prints its answer as `meet` does; the outcome comes without the words of the
// result.
Outcome answer_meet(const Call *call);

// The text interface of `meet`: one call from standard input, answered on standard output.
int run_meet(void);

// One call a line from standard input, one answer a line.
int run_batch(void);

#endif
