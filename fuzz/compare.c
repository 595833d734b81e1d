// The comparison: random calls of the library for C beside the second program, in one process.
// Number, length, readings, node and every word of both areas must be what the documents say; the inputs
// and the words around the areas must stay as they were.
#define _POSIX_C_SOURCE 200809L
#include "bublastyr.h"
#include "draw.h"

#include <inttypes.h>
#include <stdlib.h>
#include <string.h>
#include <time.h>

enum {
    MARGIN = 32,           // words before and after each area, which nothing may touch
    POOL = 1 << 17,        // random words with which the areas are filled
    NUMBERS = 12,          // the numbers that come back, 0 to 11
    COLUMNS = 5,           // modes 0, 1 and 2, modes above, the fit test
    PROGRESS_EVERY = 50000 // calls between two lines of progress
};

// An area between its margins, and what it must hold after the call.
typedef struct {
    uint32_t now[MARGIN + MOST_WORK + MARGIN];
    uint32_t expected[MARGIN + MOST_WORK + MARGIN];
    size_t count; // with both margins
} Area;

typedef struct {
    Random random;
    uint32_t *pool;
    Area result;
    Area working;
    Words last; // the last result
    uint64_t calls;
    uint64_t counts[NUMBERS][COLUMNS];
    uint64_t words_compared;
    uint64_t longest_result;
} Comparison;

// Fills an area of so many words, and its margins, with random words.
static void area_fill(Comparison *comparison, Area *area, size_t count) {
    area->count = MARGIN + count + MARGIN;
    uint32_t start = random_below(&comparison->random, (uint32_t)(POOL - area->count));
    memcpy(area->now, comparison->pool + start, area->count * sizeof(uint32_t));
    memcpy(area->expected, comparison->pool + start, area->count * sizeof(uint32_t));
}

// Says where an area differs from what is expected of it; true when it does not.
static bool area_holds(const Area *area, const char *name) {
    if (memcmp(area->now, area->expected, area->count * sizeof(uint32_t)) == 0) {
        return true;
    }
    size_t index = 0;
    while (area->now[index] == area->expected[index]) {
        index++;
    }
    printf("difference: word %td of the %s area is %" PRIu32 " and not %" PRIu32 "\n",
           (ptrdiff_t)index - MARGIN, name, area->now[index], area->expected[index]);
    return false;
}

// What document 01 says of both areas after a call that has this outcome.
static void expect_areas(Comparison *comparison, const Outcome *outcome) {
    if (outcome->number == SUCCESS) {
        memcpy(comparison->result.expected + MARGIN, outcome->result.at,
               outcome->result.count * sizeof(uint32_t));
    }
    if (outcome->number == SUCCESS || outcome->number >= CLASH) {
        memset(comparison->working.expected + MARGIN, 0, WORKING_NEEDED * sizeof(uint32_t));
    }
}

// A copy of exactly the words; a null pointer for none.
static uint32_t *copy_of(const Words *words) {
    uint32_t *copy = zeroed(words->count, sizeof *copy);
    if (words->count > 0) {
        memcpy(copy, words->at, words->count * sizeof *copy);
    }
    return copy;
}

// Frees the copy; says whether it still holds the words.
static bool still_holds(uint32_t *copy, const Words *words, const char *name) {
    bool same = words->count == 0 || memcmp(copy, words->at, words->count * sizeof *copy) == 0;
    if (!same) {
        printf("difference: the %s input was written to\n", name);
    }
    free(copy);
    return same;
}

static bool told_holds(const char *name, uint32_t told, uint32_t expected) {
    if (told != expected) {
        printf("difference: the %s is %" PRIu32 " and not %" PRIu32 "\n", name, told, expected);
    }
    return told == expected;
}

static bool compare_unify(Comparison *comparison, const Call *call, const Outcome *outcome,
                          uint32_t *first, uint32_t *second) {
    Area *result = &comparison->result;
    Area *working = &comparison->working;
    uint64_t bits = random_next(&comparison->random);
    uint32_t told[3] = {(uint32_t)bits, (uint32_t)(bits >> 32), (uint32_t)(bits >> 16)};
    area_fill(comparison, result, call->room);
    area_fill(comparison, working, call->work);
    expect_areas(comparison, outcome);
    uint32_t number =
        bublastyr_unify(call->mode, first, call->first.count, second, call->second.count,
                        result->now + MARGIN, call->room, working->now + MARGIN, call->work, told);
    comparison->words_compared += result->count + working->count;
    return told_holds("number", number, outcome->number) &&
           told_holds("length", told[0], outcome->length) &&
           told_holds("number of readings", told[1], outcome->readings) &&
           told_holds("node", told[2], outcome->node) && area_holds(result, "result") &&
           area_holds(working, "working");
}

static bool compare_call(Comparison *comparison, const Call *call, const Outcome *outcome) {
    uint32_t *first = copy_of(&call->first);
    uint32_t *second = copy_of(&call->second);
    bool same;
    if (call->is_fit) {
        uint32_t number = bublastyr_fit(first, call->first.count, second, call->second.count);
        same = told_holds("number", number, outcome->number);
    } else {
        same = compare_unify(comparison, call, outcome, first, second);
    }
    same &= still_holds(first, &call->first, "first");
    same &= still_holds(second, &call->second, "second");
    return same;
}

static void count_call(Comparison *comparison, const Call *call, const Outcome *outcome) {
    uint32_t mode = call->mode > MODE_FULL ? MODE_FULL + 1 : call->mode;
    comparison->counts[outcome->number][call->is_fit ? COLUMNS - 1 : mode]++;
    comparison->calls++;
    if (outcome->length > comparison->longest_result && outcome->number == SUCCESS) {
        comparison->longest_result = outcome->length;
    }
    if (comparison->calls % PROGRESS_EVERY == 0) {
        fprintf(stderr, "compare: %" PRIu64 " calls alike so far\n", comparison->calls);
    }
}

// Draws a call and makes it in both programs; prints it and returns false when they differ.
static bool compare_next(Comparison *comparison) {
    Call call = draw_call(&comparison->random, &comparison->last);
    Outcome outcome = call_run(&call);
    bool same = compare_call(comparison, &call, &outcome);
    if (same) {
        count_call(comparison, &call, &outcome);
    } else {
        printf("call %" PRIu64 ": ", comparison->calls);
        call_print(&call, stdout);
    }
    if (outcome.result.count > 0) {
        words_free(&comparison->last);
        comparison->last = outcome.result;
    }
    call_free(&call);
    return same;
}

static uint64_t sum_of(const uint64_t *counts) {
    uint64_t sum = 0;
    for (int column = 0; column < COLUMNS; column++) {
        sum += counts[column];
    }
    return sum;
}

static void print_counts(const Comparison *comparison) {
    puts("| Number | Mode 0 | Mode 1 | Mode 2 | Modes above | Fit test | All |");
    puts("|---|---|---|---|---|---|---|");
    for (int number = 0; number < NUMBERS; number++) {
        printf("| %d |", number);
        for (int column = 0; column < COLUMNS; column++) {
            printf(" %" PRIu64 " |", comparison->counts[number][column]);
        }
        printf(" %" PRIu64 " |\n", sum_of(comparison->counts[number]));
    }
    printf("%" PRIu64 " calls alike, %" PRIu64 " words of areas compared, longest result %" PRIu64
           " words\n",
           comparison->calls, comparison->words_compared, comparison->longest_result);
}

static void fill_pool(Comparison *comparison) {
    comparison->pool = zeroed(POOL, sizeof(uint32_t));
    for (size_t index = 0; index < POOL; index++) {
        comparison->pool[index] = (uint32_t)random_next(&comparison->random);
    }
}

static void print_time(time_t start) {
    double processor = (double)clock() / CLOCKS_PER_SEC;
    printf("%.0f s of wall time, %.1f s of processor time\n", difftime(time(NULL), start),
           processor);
}

// Compares until so many calls or seconds are over; 0 stands for no bound.
static int run(uint64_t count, uint64_t seconds, uint64_t seed) {
    static Comparison comparison;
    time_t start = time(NULL);
    bool same = true;
    comparison.random.state = seed;
    fill_pool(&comparison);
    while (same && (count == 0 || comparison.calls < count) &&
           (seconds == 0 || difftime(time(NULL), start) < (double)seconds)) {
        same = compare_next(&comparison);
    }
    print_counts(&comparison);
    print_time(start);
    words_free(&comparison.last);
    free(comparison.pool);
    return same ? 0 : 1;
}

// Reads a number with the given ending.
static bool number_of(const char *text, const char *ending, uint64_t *number) {
    char *end;
    *number = strtoull(text, &end, 10);
    return end != text && strcmp(end, ending) == 0;
}

int main(int argument_count, char **arguments) {
    uint64_t number;
    uint64_t seed;
    if (argument_count == 3 && number_of(arguments[2], "", &seed)) {
        if (number_of(arguments[1], "s", &number) && number > 0) {
            return run(0, number, seed);
        }
        if (number_of(arguments[1], "", &number) && number > 0) {
            return run(number, 0, seed);
        }
    }
    fputs("usage: compare COUNT|SECONDSs SEED\n", stderr);
    return 2;
}
