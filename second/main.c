// The program `second`: chooses the way to run by its arguments.
#include "call.h"
#include "check.h"
#include "clash_text.h"
#include "explain.h"
#include "formula_call.h"
#include "formula_texts.h"
#include "generate.h"
#include "library_text.h"
#include "library_texts.h"
#include "suite_spell.h"
#include "suite_text.h"

#include <inttypes.h>
#include <string.h>

static int usage(void) {
    fputs("usage: second\n"
          "       second batch\n"
          "       second formula\n"
          "       second formulas\n"
          "       second explain\n"
          "       second told\n"
          "       second causes\n"
          "       second nodes\n"
          "       second suite [FILE]\n"
          "       second suites\n"
          "       second library\n"
          "       second known\n"
          "       second check SEED COUNT\n"
          "       second generate SEED COUNT\n"
          "       second texts SEED COUNT\n"
          "       second broken SEED COUNT\n"
          "       second clashing SEED COUNT\n"
          "       second suite_texts SEED COUNT\n"
          "       second library_texts SEED COUNT\n"
          "       second vectors SEED COUNT "
          "calls|fits|reading|faults|joins|nodes|formula|suites|libraries|changes "
          "[COUNT KIND ..]\n",
          stderr);
    return 2;
}

static bool number_of(const char *text, uint64_t *number) {
    char surplus;
    return sscanf(text, "%" SCNu64 "%c", number, &surplus) == 1;
}

// Stored vectors of one kind after the other, each from the seed.
static int run_vectors(uint64_t seed, char **parts) {
    for (; parts[0] != NULL; parts += 2) {
        uint64_t count;
        if (!number_of(parts[0], &count) || !put_vectors(seed, count, parts[1])) {
            return usage();
        }
    }
    end_vectors();
    return 0;
}

static int run_checks(uint64_t seed, uint64_t count) {
    int failures = run_check(seed, count);
    failures += run_check_formulas(seed, count);
    failures += run_check_causes(seed, count);
    failures += run_check_suites(seed, count / 20);
    failures += run_check_nodes(seed, count);
    failures += run_check_libraries(seed, count / 4);
    return failures > 0;
}

static int run_all_known(void) {
    int failures = run_known() + run_known_formulas() + run_short_texts();
    failures += run_known_causes() + run_short_words() + run_known_suites();
    failures += run_known_nodes() + run_small_pairs();
    failures += run_known_libraries();
    return failures > 0;
}

typedef struct {
    const char *name;
    int (*run)(void);
} PlainWay;

// The ways without further arguments.
static const PlainWay plain_ways[] = {
    {"batch", run_batch},     {"formula", run_formula}, {"formulas", run_formulas},
    {"explain", run_explain}, {"told", run_told},       {"causes", run_causes},
    {"nodes", run_nodes},     {"suite", run_suite},     {"suites", run_suites},
    {"library", run_library}, {"known", run_all_known},
};

typedef struct {
    const char *name;
    void (*print)(Random *random);
} PrintingWay;

// The ways that print so many random lines from a seed.
static const PrintingWay printing_ways[] = {
    {"generate", print_call},          {"texts", print_formula_call},
    {"broken", print_broken},          {"clashing", print_clashing},
    {"suite_texts", print_suite_text}, {"library_texts", print_library_text},
};

static int run_plain(const char *name) {
    for (size_t index = 0; index < sizeof plain_ways / sizeof *plain_ways; index++) {
        if (strcmp(name, plain_ways[index].name) == 0) {
            return plain_ways[index].run();
        }
    }
    return usage();
}

static int print_lines(void (*print)(Random *random), uint64_t seed, uint64_t count) {
    Random random = {seed};
    for (uint64_t line = 0; line < count; line++) {
        print(&random);
    }
    return 0;
}

static int run_seeded(const char *name, uint64_t seed, uint64_t count) {
    if (strcmp(name, "check") == 0) {
        return run_checks(seed, count);
    }
    for (size_t index = 0; index < sizeof printing_ways / sizeof *printing_ways; index++) {
        if (strcmp(name, printing_ways[index].name) == 0) {
            return print_lines(printing_ways[index].print, seed, count);
        }
    }
    return usage();
}

int main(int argument_count, char **arguments) {
    uint64_t seed;
    uint64_t count;
    if (argument_count == 1) {
        return run_meet();
    }
    if (argument_count == 2) {
        return run_plain(arguments[1]);
    }
    if (argument_count == 3 && strcmp(arguments[1], "suite") == 0) {
        return run_suite_file(arguments[2]);
    }
    if (argument_count < 4 || !number_of(arguments[2], &seed) || !number_of(arguments[3], &count)) {
        return usage();
    }
    if (argument_count % 2 == 1 && strcmp(arguments[1], "vectors") == 0) {
        return run_vectors(seed, arguments + 3);
    }
    return argument_count == 4 ? run_seeded(arguments[1], seed, count) : usage();
}
