// Timing the inputs made to be slow, and keeping the worst of them as files.
#include "worst.h"

#include "adverse.h"
#include "measure.h"
#include "table.h"

#include <stdio.h>
#include <stdlib.h>

enum { MOST_ADVERSE = 64, KEPT = 3 };

// No input in mode 0 or 1 should take longer than so many times W2 whole.
static const double GOAL = 20;

static Workload made[MOST_ADVERSE];
static size_t made_count;

// A refusal would say nothing of speed: the inputs must be well formed and within the limits.
static bool runs(const Workload *workload) {
    uint32_t number = workload->answer.number;
    if (number == SUCCESS || number == CLASH) {
        return true;
    }
    printf("%s: refused with %u\n", workload->name, (unsigned)number);
    return false;
}

bool worst_check(void) {
    bool good = adverse_count() <= MOST_ADVERSE;
    for (made_count = 0; good && made_count < adverse_count(); made_count++) {
        adverse_make(&made[made_count], made_count);
        good = workload_check(&made[made_count]) && runs(&made[made_count]);
    }
    return good;
}

static int by_falling_time(const void *left, const void *right) {
    double first = ((const Workload *)left)->time[LIBRARY];
    double second = ((const Workload *)right)->time[LIBRARY];
    return first > second ? -1 : first < second;
}

static void print_made(double whole, double empty) {
    static Table table;
    static const char *const headings[] = {"Input",     "Mode",     "Words", "Answer",
                                           "ns a call", "Times W2", "Net",   NULL};
    table_start(&table, headings);
    for (size_t index = 0; index < made_count; index++) {
        double time = made[index].time[LIBRARY];
        table_text(&table, made[index].name);
        table_whole(&table, made[index].call.mode);
        table_whole(&table, (double)workload_words(&made[index]));
        table_whole(&table, made[index].answer.number);
        table_whole(&table, time);
        table_decimal(&table, time / whole);
        table_decimal(&table, (time - empty) / (whole - empty));
    }
    table_print(&table);
}

void worst_print(double whole, double empty) {
    size_t above = 0;
    size_t above_net = 0;
    for (size_t index = 0; index < made_count; index++) {
        double time = measure(LIBRARY, &made[index].call);
        made[index].time[LIBRARY] = time;
        above += time > GOAL * whole;
        above_net += time - empty > GOAL * (whole - empty);
    }
    qsort(made, made_count, sizeof *made, by_falling_time);
    puts("Inputs made to be slow, the worst first:\n");
    print_made(whole, empty);
    printf("%zu of %zu take over %.0f times W2 whole; net, %zu do.\n\n", above, made_count, GOAL,
           above_net);
}

bool worst_keep(const char *folder) {
    bool good = true;
    for (size_t index = 0; index < KEPT; index++) {
        good = good && workload_write(&made[index], folder, "X_");
    }
    return good;
}
