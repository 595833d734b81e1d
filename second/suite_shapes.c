// Random suites: tests over a stock of descriptions, then what is expected of them.
#include "suite_shapes.h"

#include "faults.h"
#include "shapes.h"
#include "suite_faults.h"

enum {
    MOST_PAIRS = 12,
    MOST_AREA = 4096,   // words in the word area
    LONGEST_USUAL = 150 // words of a pair, over which most are left out
};

// Where two descriptions stand that were made for each other.
typedef struct {
    Place first;
    Place second;
    bool many; // about or over 4,096 choices
} PlacedPair;

typedef struct {
    PlacedPair pairs[MOST_PAIRS];
    uint32_t count;
} Stock;

// Puts the words of a description, now and then spoilt, at the end of the area.
static Place put_description(Random *random, const Description *description, Words *area) {
    Words words = {0};
    if (random_one_in(random, 14)) {
        words = malformed_words(random, description);
    } else {
        description_write(description, &words);
    }
    Place place = {(uint32_t)area->count, (uint32_t)words.count};
    words_add_all(area, words.at, words.count);
    words_free(&words);
    return place;
}

// Puts a pair into the stock; what would make the area too long is taken back.
static void put_pair(Random *random, Stock *stock, Words *area) {
    size_t before = area->count;
    PlacedPair placed = {.many = random_one_in(random, 10)};
    Pair pair = placed.many ? random_many_choices(random) : random_pair(random);
    placed.first = put_description(random, &pair.first, area);
    placed.second = put_description(random, &pair.second, area);
    description_free(&pair.first);
    description_free(&pair.second);
    bool usual = placed.many || area->count - before <= LONGEST_USUAL || random_one_in(random, 12);
    if (usual && area->count <= MOST_AREA) {
        stock->pairs[stock->count++] = placed;
    } else {
        area->count = before;
    }
}

// A few pairs, and now and then more words than an input may have.
static Stock random_stock(Random *random, Words *area) {
    Stock stock = {0};
    uint32_t wanted = 1 + random_below(random, random_one_in(random, 4) ? MOST_PAIRS : 4);
    while (stock.count < wanted) {
        put_pair(random, &stock, area);
    }
    if (random_one_in(random, 12) && area->count < MOST_AREA / 2) {
        static const uint32_t lengths[] = {1024, 1025, 1026, 1500, 2048};
        Description description = random_of_length(random, lengths[random_below(random, 5)]);
        stock.pairs[0].second = put_description(random, &description, area);
        description_free(&description);
    }
    return stock;
}

static Place random_stocked(Random *random, const Stock *stock) {
    const PlacedPair *pair = &stock->pairs[random_below(random, stock->count)];
    return random_one_in(random, 2) ? pair->first : pair->second;
}

// A place with a few words more or fewer at either end, as far as the area goes.
static Place moved(Random *random, Place place, uint32_t area) {
    uint32_t end = place.start + place.words + random_below(random, 3);
    uint32_t start = place.start + random_below(random, 3);
    end = end > area ? area : end;
    start = start > end ? end : start;
    return (Place){start, end - start};
}

// A place within the area that is not that of one description.
static Place random_place(Random *random, const Stock *stock, uint32_t area) {
    uint32_t start = random_below(random, area + 1);
    switch (random_below(random, 6)) {
    case 0:
        return (Place){start, 0};
    case 1:
        return (Place){area, 0};
    case 2:
        return (Place){start, area - start};
    case 3:
        return (Place){0, area};
    default:
        return moved(random, random_stocked(random, stock), area);
    }
}

// A test of a mode and two places; nothing is expected of it yet.
static Test random_test(Random *random, const Stock *stock, uint32_t area) {
    const PlacedPair *pair = &stock->pairs[random_below(random, stock->count)];
    Test test = {random_below(random, MODES), 0, 0, pair->first, pair->second};
    if (pair->many && random_one_in(random, 2)) {
        test.mode = MODE_FULL;
    }
    switch (random_below(random, 12)) {
    case 0:
        test.first = pair->second;
        test.second = pair->first;
        break;
    case 1:
        test.second = pair->first;
        break;
    case 2:
        test.first = random_stocked(random, stock);
        break;
    case 3:
        test.second = random_stocked(random, stock);
        break;
    case 4:
        test.first = random_place(random, stock, area);
        break;
    case 5:
        test.second = random_place(random, stock, area);
        break;
    default:
        break;
    }
    return test;
}

static uint32_t random_count(Random *random) {
    uint32_t kind = random_below(random, 32);
    if (kind < 2) {
        return 0;
    }
    if (kind < 6) {
        return 1;
    }
    if (kind < 9) {
        return MOST_TESTS - random_below(random, 2);
    }
    return 1 + random_below(random, kind < 13 ? MOST_TESTS : 10);
}

static Suite random_tests(Random *random) {
    Suite suite = {0};
    Stock stock = random_stock(random, &suite.words);
    uint32_t count = random_count(random);
    while (suite.count < count) {
        suite_add(&suite, random_test(random, &stock, (uint32_t)suite.words.count));
    }
    if (count == 0 && random_one_in(random, 2)) {
        suite.words.count = 0;
    }
    return suite;
}

void expect_otherwise(Random *random, Test *test) {
    static const uint32_t readings[] = {1, 2, 4096, UINT32_MAX};
    uint32_t kind = random_below(random, 3);
    if (kind != 0) {
        test->number = (test->number + 1 + random_below(random, NUMBERS - 1)) % NUMBERS;
    }
    if (kind != 1) {
        test->readings += readings[random_below(random, 4)];
    }
}

// Expects what comes; then of no test, of one, or of some, something else.
static void expect_all(Random *random, Suite *suite, uint32_t room, uint32_t work) {
    Outcome *outcomes = suite_outcomes(suite, room, work);
    uint32_t kind = random_below(random, 4);
    uint32_t odd = suite->count == 0 ? 0 : random_below(random, (uint32_t)suite->count);
    for (uint32_t index = 0; index < suite->count; index++) {
        Test *test = &suite->tests[index];
        test->number = outcomes[index].number;
        test->readings = outcomes[index].readings;
        if ((kind == 1 && index == odd) || (kind > 1 && random_one_in(random, 2 * kind))) {
            expect_otherwise(random, test);
        }
    }
    outcomes_free(outcomes, suite->count);
}

// The words that the result of one of the calls needs; 0 when there is none.
static uint32_t needed_by_one(Random *random, const Suite *suite) {
    uint32_t length = 0;
    if (suite->count > 0) {
        Outcome *outcomes = suite_outcomes(suite, MOST_AREA, WORKING_NEEDED);
        length = outcomes[random_below(random, (uint32_t)suite->count)].length;
        outcomes_free(outcomes, suite->count);
    }
    return length;
}

// The room is large, enough for one of the results, a word short for it, or something else.
static uint32_t random_room(Random *random, const Suite *suite) {
    uint32_t kind = random_below(random, 8);
    if (kind < 4) {
        return 2048;
    }
    if (kind == 4) {
        return random_below(random, 40);
    }
    uint32_t needed = needed_by_one(random, suite);
    return needed == 0 ? 2048 : needed - (kind == 5);
}

static uint32_t random_work(Random *random) {
    static const uint32_t small[] = {0, 1, 16383, 16383};
    static const uint32_t large[] = {16385, 20000};
    if (random_one_in(random, 16)) {
        return small[random_below(random, 4)];
    }
    return random_one_in(random, 5) ? large[random_below(random, 2)] : WORKING_NEEDED;
}

SuiteCall random_suite_call(Random *random) {
    SuiteCall call = {.suite = random_tests(random)};
    call.work = random_work(random);
    call.room = random_room(random, &call.suite);
    expect_all(random, &call.suite, call.room, call.work);
    perhaps_spoil_suite(random, &call.suite);
    return call;
}

static bool all_within(const Suite *suite) {
    bool within = true;
    for (size_t index = 0; within && index < suite->count; index++) {
        const Test *test = &suite->tests[index];
        within = !is_beyond(test->first, &suite->words) && !is_beyond(test->second, &suite->words);
    }
    return within;
}

Suite random_suite_within(Random *random, uint32_t room, uint32_t work) {
    for (;;) {
        Suite suite = random_tests(random);
        expect_all(random, &suite, room, work);
        perhaps_spoil_suite(random, &suite);
        if (all_within(&suite)) {
            return suite;
        }
        suite_free(&suite);
    }
}
