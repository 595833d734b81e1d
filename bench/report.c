// Tables and the picture of a timed suite.
#include "report.h"

#include "measure.h"
#include "nodes.h"
#include "picture.h"
#include "table.h"

#include <stdio.h>

static Table table;

static void add_workload(const Workload *workload) {
    table_text(&table, workload->name);
    if (workload->call.is_fit) {
        table_text(&table, "fit");
    } else {
        table_whole(&table, workload->call.mode);
    }
    table_whole(&table, (double)workload_words(workload));
    table_whole(&table, workload->answer.number);
    table_whole(&table, workload->answer.length);
    table_whole(&table, workload->answer.readings);
    table_whole(&table, workload->time[LIBRARY]);
    table_whole(&table, workload->time[SECOND]);
    table_decimal(&table, workload->time[SECOND] / workload->time[LIBRARY]);
}

void report_workloads(const Suite *suite) {
    static const char *const headings[] = {"Input",    "Mode",      "Words",     "Answer", "Result",
                                           "Readings", "ns a call", "Second ns", "Ratio",  NULL};
    table_start(&table, headings);
    for (size_t index = 0; index < suite->count; index++) {
        if (!suite_smaller(suite, &suite->workloads[index])) {
            add_workload(&suite->workloads[index]);
        }
    }
    puts("Workloads:\n");
    table_print(&table);
}

// What mode 2 takes longer than mode 1 on the same inputs.
static double added_time(const Workload *workload) {
    Call quick = workload->call;
    quick.mode = MODE_QUICK;
    return workload->time[LIBRARY] - measure(LIBRARY, &quick);
}

static void add_search(const Workload *workload, uint32_t nodes) {
    table_text(&table, workload->name);
    table_whole(&table, nodes);
    table_whole(&table, workload->answer.readings);
    table_whole(&table, workload->time[LIBRARY]);
    table_decimal(&table, workload->time[LIBRARY] / nodes);
    table_decimal(&table, added_time(workload) / nodes);
    table_decimal(&table, workload->time[SECOND] / nodes);
}

// Adds the search of a workload, if there is one; false where it comes to other readings.
static bool search_workload(const Workload *workload) {
    if (workload->call.mode != MODE_FULL) {
        return true;
    }
    Search search = count_search(&workload->call);
    if (search.nodes > 0) {
        add_search(workload, search.nodes);
    }
    return search.readings == workload->answer.readings;
}

bool report_searches(const Suite *suite) {
    static const char *const headings[] = {
        "Input",     "Nodes",           "Readings",         "ns a call",
        "ns a node", "Added ns a node", "Second ns a node", NULL};
    bool good = true;
    table_start(&table, headings);
    for (size_t index = 0; index < suite->count; index++) {
        good = search_workload(&suite->workloads[index]) && good;
    }
    puts("The search of mode 2:\n");
    table_print(&table);
    return good;
}

static void add_scaled(const Workload *workload, double empty) {
    double words = (double)workload_words(workload);
    double time = workload->time[LIBRARY];
    table_text(&table, workload->name);
    table_whole(&table, words);
    table_whole(&table, time);
    table_decimal(&table, time / words);
    table_decimal(&table, (time - empty) / words);
    table_whole(&table, workload->time[SECOND]);
    table_decimal(&table, workload->time[SECOND] / words);
}

void report_scaling(const Suite *suite) {
    static const char *const headings[] = {
        "Input",         "Words",     "ns a call",        "ns a word",
        "Net ns a word", "Second ns", "Second ns a word", NULL};
    table_start(&table, headings);
    for (size_t index = 0; index < SCALED * SIZES; index++) {
        add_scaled(suite_scaled(suite, index / SIZES, index % SIZES), suite_empty_time(suite));
    }
    puts("Scaling:\n");
    table_print(&table);
}

static void trace_curve(const Suite *suite, size_t scaled, Engine engine, Curve *curve) {
    curve->point_count = SIZES;
    for (size_t size = 0; size < SIZES; size++) {
        const Workload *workload = suite_scaled(suite, scaled, size);
        curve->words[size] = (double)workload_words(workload);
        curve->time[size] = workload->time[engine];
    }
}

bool draw_scaling(const Suite *suite, const char *path, bool emulated) {
    Curve curves[ENGINE_COUNT * SCALED] = {
        {.label = "W1, join: library", .colour = "#1f5fa8"},
        {.label = "W2, quick: library", .colour = "#b3541e"},
        {.label = "W1, join: second program", .colour = "#1f5fa8", .dashed = true},
        {.label = "W2, quick: second program", .colour = "#b3541e", .dashed = true},
    };
    for (size_t curve = 0; curve < ENGINE_COUNT * SCALED; curve++) {
        Engine engine = curve < SCALED ? LIBRARY : SECOND;
        trace_curve(suite, curve % SCALED, engine, &curves[curve]);
    }
    const char *note = emulated ? "Timed under an emulator: the times count only relative to each "
                                  "other."
                                : "Timed on x86-64; a time is the least of many rounds.";
    return picture_write(path, curves, ENGINE_COUNT * SCALED, note);
}
