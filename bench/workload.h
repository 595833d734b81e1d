// The calls that are timed, and their files in the input format of `meet`.
#ifndef WORKLOAD_H
#define WORKLOAD_H

#include "engines.h"

enum { LONGEST_NAME = 48 };

typedef struct {
    char name[LONGEST_NAME];
    Call call;
    Answer answer;             // after the check: what both engines gave
    double time[ENGINE_COUNT]; // after timing: nanoseconds a call
} Workload;

// Names a workload, and gives it a call in a mode on two empty inputs.
void workload_start(Workload *workload, const char *name, uint32_t mode);

// Reads a file; its name without folder and ending is the workload's. Where that starts with W6
// the two inputs are a structure and a description for the fit test. False for another form.
bool workload_read(Workload *workload, const char *path);

// Writes a file into a folder, named by a prefix, the workload's name and `.in`.
bool workload_write(const Workload *workload, const char *folder, const char *prefix);

// Runs both engines once; false, after a line that says so, where their answers differ.
bool workload_check(Workload *workload);

// The words of both inputs.
size_t workload_words(const Workload *workload);

#endif
