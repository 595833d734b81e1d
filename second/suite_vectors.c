// Stored suites: what is lent, the answer, and what stands in all that was lent afterwards.
#include "suite_vectors.h"

#include "lent.h"
#include "stored.h"
#include "suite_shapes.h"

static void put_place(Place place) {
    put_word(place.start);
    put_word(place.words);
}

static void put_tests(const Suite *suite) {
    put_word((uint32_t)suite->count);
    for (size_t index = 0; index < suite->count; index++) {
        const Test *test = &suite->tests[index];
        put_word(test->mode);
        put_word(test->number);
        put_word(test->readings);
        put_place(test->first);
        put_place(test->second);
    }
}

// The report, the words of the result area that changed, and whether the working area was cleared.
static void put_lent(const Lent *lent) {
    Words report = report_words(&lent->report);
    Words changed = lent->result;
    changed.count = words_changed(&lent->result);
    put_words(&report);
    put_counted(&changed);
    put_word(is_cleared(&lent->working));
    words_free(&report);
}

void put_random_suite(Random *random) {
    SuiteCall call = random_suite_call(random);
    Lent lent = lent_before(call.room, call.work);
    put_tests(&call.suite);
    put_counted(&call.suite.words);
    put_word(call.room);
    put_word(call.work);
    put_word(suite_run(&call.suite, &lent.result, &lent.working, &lent.report));
    put_lent(&lent);
    lent_free(&lent);
    suite_free(&call.suite);
}
