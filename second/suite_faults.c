// Random faults of suites.
#include "suite_faults.h"

enum { MOST_STORED = 100 };

// A place that ends after an area of so many words; the sum of 32 bits is often small.
static Place place_beyond(Random *random, uint32_t area) {
    uint32_t start = random_below(random, area + 1);
    uint32_t few = random_below(random, 10);
    switch (random_below(random, 8)) {
    case 0:
        return (Place){area + 1, 0};
    case 1:
        return (Place){area, 1};
    case 2:
        return (Place){start, area - start + 1};
    case 3:
        return (Place){0, area + 1};
    case 4:
        return (Place){UINT32_MAX, 1};
    case 5:
        return (Place){UINT32_MAX - few, start};
    case 6:
        return (Place){start, UINT32_MAX - few};
    default:
        return (Place){UINT32_C(1) << 31, UINT32_C(1) << 31};
    }
}

static void put_beyond(Random *random, Test *test, uint32_t area) {
    uint32_t which = random_below(random, 3);
    if (which != 0) {
        test->first = place_beyond(random, area);
    }
    if (which != 1) {
        test->second = place_beyond(random, area);
    }
}

static void put_unknown(Random *random, Test *test) {
    static const uint32_t modes[] = {3, 3, 4, 65536, UINT32_MAX};
    static const uint32_t numbers[] = {12, 12, 13, 30, UINT32_MAX};
    uint32_t which = random_below(random, 3);
    if (which != 0) {
        test->mode = modes[random_below(random, 5)];
    }
    if (which != 1) {
        test->number = numbers[random_below(random, 5)];
    }
}

// Puts a fault into one test: 0 beyond the area, 1 unknown, 2 both.
static void put_fault(Random *random, Suite *suite, uint32_t kind) {
    Test *test = &suite->tests[random_below(random, (uint32_t)suite->count)];
    if (kind != 1) {
        put_beyond(random, test, (uint32_t)suite->words.count);
    }
    if (kind != 0) {
        put_unknown(random, test);
    }
}

// Tests are repeated until there are too many.
static void put_many(Random *random, Suite *suite) {
    static const uint32_t counts[] = {65, 65, 65, 66, 67, 80, 96, MOST_STORED};
    uint32_t count = counts[random_below(random, 8)];
    while (suite->count < count) {
        suite_add(suite, suite->tests[random_below(random, (uint32_t)suite->count)]);
    }
}

void perhaps_spoil_suite(Random *random, Suite *suite) {
    uint32_t kind = random_below(random, 27);
    if (kind > 9) {
        return;
    }
    if (suite->count == 0) {
        suite_add(suite, (Test){0});
    }
    bool many = kind < 3;
    if (many) {
        put_many(random, suite);
    }
    if (many && random_one_in(random, 2)) {
        return;
    }
    uint32_t faults = 1 + random_below(random, 4);
    for (uint32_t fault = 0; fault < faults; fault++) {
        put_fault(random, suite, kind < 6 ? random_below(random, 3) : kind % 2);
    }
}
