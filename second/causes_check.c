// The self-check of causes: what is found is held to the reader of words, which knows no causes,
// and to what becomes of the words when others are put in their place.
#include "causes_check.h"

#include "call.h"
#include "causes_words.h"
#include "check.h"
#include "complete.h"

#include <inttypes.h>

enum { LONGEST_COMPLETED = 4000, MOST_STARTS = 40 };

static void demand(CauseCheck *check, bool holds, const char *failure) {
    if (!holds && check->failure == NULL) {
        check->failure = failure;
    }
}

static bool reads(const Words *words) {
    Description description;
    bool well_formed = description_read(words->at, words->count, &description);
    if (well_formed) {
        description_free(&description);
    }
    return well_formed;
}

static Finding found_in(const Words *words) {
    return find_cause(words->at, words->count, NULL);
}

static bool same_finding(Finding left, Finding right) {
    return left.cause == right.cause && left.data == right.data && left.place == right.place &&
           left.expected.role == right.expected.role &&
           left.expected.least == right.expected.least &&
           left.expected.most == right.expected.most && left.expected.node == right.expected.node;
}

// The first so many of the words.
static Words start_of(const Words *words, size_t count) {
    Words start = {0};
    words_add_all(&start, words->at, count);
    return start;
}

// Words are malformed exactly when there is a cause, and end too early exactly where the place is
// their end.
static void check_verdict(CauseCheck *check, const Words *words, Finding finding) {
    demand(check, reads(words) == (finding.cause == CAUSE_NONE),
           "malformed words without a cause, or well-formed ones with one");
    demand(check, finding.place <= words->count, "a place after the end");
    bool ends = finding.cause == CAUSE_WORDS_END || finding.cause == CAUSE_NONE;
    demand(check, ends == (finding.place == words->count), "the words end at another place");
}

// Cut at a place before the one that is found, the words end there.
static void check_starts(CauseCheck *check, const Words *words, size_t place) {
    size_t step = 1 + place / MOST_STARTS;
    for (size_t cut = place % step; cut < place; cut += step) {
        Finding finding = find_cause(words->at, cut, NULL);
        demand(check, finding.cause == CAUSE_WORDS_END && finding.place == cut,
               "a word breaks a rule before the first that does");
    }
}

// Other words after the place, or none, change nothing.
static void check_tail(CauseCheck *check, const Words *words, Finding finding) {
    Words other = start_of(words, finding.place + 1);
    demand(check, same_finding(found_in(&other), finding), "cut after the place, another cause");
    uint32_t count = 1 + random_below(&check->random, 6);
    for (uint32_t added = 0; added < count; added++) {
        words_add(&other, random_word(&check->random));
        demand(check, same_finding(found_in(&other), finding),
               "words after the place change cause or place");
    }
    demand(check, !reads(&other), "words with a cause go on to a description");
    words_free(&other);
}

// The words before the place go on to a description, unless a node cannot be met any more or the
// features have run out; with the word at the place they do not.
static void check_completed(CauseCheck *check, const Words *words, Finding finding) {
    Words whole;
    Words start = start_of(words, finding.place);
    Completion state = complete(&start, LONGEST_COMPLETED, &whole);
    bool nothing_fits =
        finding.expected.role != ROLE_END && finding.expected.least > finding.expected.most;
    demand(check, state != COMPLETED || reads(&whole), "the words before the place do not go on");
    demand(check, state != COMPLETED || !nothing_fits, "they go on where nothing could stand");
    check->completed += state == COMPLETED;
    check->stuck += state == STUCK;
    words_free(&whole);
    if (finding.place < words->count) {
        words_add(&start, words->at[finding.place]);
        state = complete(&start, LONGEST_COMPLETED, &whole);
        demand(check, state != COMPLETED || !reads(&whole), "the word at the place can stand");
        words_free(&whole);
    }
    words_free(&start);
}

// Whether the words up to the place with another word there break a rule at the place.
static bool breaks_with(const Words *words, size_t place, uint32_t word) {
    Words other = start_of(words, place);
    words_add(&other, word);
    Finding finding = found_in(&other);
    words_free(&other);
    return finding.place == place;
}

// Exactly the words within the bounds could stand at the place.
static void check_bounds(CauseCheck *check, const Words *words, Finding finding) {
    uint32_t least = finding.expected.least;
    uint32_t most = finding.expected.most;
    if (least > most) {
        demand(check, breaks_with(words, finding.place, random_word(&check->random)),
               "a word stands where none could");
        return;
    }
    uint32_t within =
        least + (uint32_t)(random_next(&check->random) % (most - least + UINT64_C(1)));
    demand(check,
           !breaks_with(words, finding.place, least) && !breaks_with(words, finding.place, most) &&
               !breaks_with(words, finding.place, within),
           "a word within the bounds breaks a rule");
    demand(check, least == 0 || breaks_with(words, finding.place, least - 1),
           "a word under the least breaks no rule");
    demand(check, most == UINT32_MAX || breaks_with(words, finding.place, most + 1),
           "a word over the most breaks no rule");
}

// What is told of two inputs, of which one is well formed, is what is told of the one.
static void check_inputs(CauseCheck *check, const Words *words, Finding finding) {
    uint32_t nothing[] = {1, 0, 0};
    Words sound = {nothing, 3, 3};
    bool long_input = words->count > LONGEST_INPUT;
    bool broken = finding.cause != CAUSE_NONE && !long_input;
    Malformed first = find_malformed(words, &sound);
    Malformed second = find_malformed(&sound, words);
    Malformed both = find_malformed(words, words);
    uint32_t otherwise = long_input ? INPUT_LONG : SUCCESS;
    demand(check, first.number == (broken ? FIRST_MALFORMED : otherwise), "4 at the wrong time");
    demand(check, second.number == (broken ? SECOND_MALFORMED : otherwise), "5 at the wrong time");
    demand(check, both.number == first.number && same_finding(both.finding, first.finding),
           "of two malformed inputs not the first is told");
    demand(check, !broken || same_finding(first.finding, finding), "another cause of the first");
    demand(check, !broken || same_finding(second.finding, finding), "another cause of the second");
    demand(check, broken || (first.finding.cause == CAUSE_NONE && first.finding.data == 0),
           "a cause without 4 and 5");
    demand(check, broken || (first.finding.place == words->count && second.finding.place == 3),
           "the part is not the empty end of the first input");
}

void check_cause(CauseCheck *check, const Words *words) {
    Finding finding = found_in(words);
    check_verdict(check, words, finding);
    check_starts(check, words, finding.place);
    check_bounds(check, words, finding);
    check_completed(check, words, finding);
    check_inputs(check, words, finding);
    if (finding.place < words->count) {
        check_tail(check, words, finding);
    }
    check->found[finding.cause]++;
    if (finding.cause == CAUSE_WORDS_END) {
        check->ends[finding.expected.role]++;
    }
}

// Prints what went wrong first, and the words of which it is so.
static void report(const CauseCheck *check, const Words *words) {
    if (check->failure != NULL) {
        printf("difference: %s: ", check->failure);
        words_print(words, stdout);
        putchar('\n');
    }
}

// A description's words with one word at random; before that word they break no rule.
static void check_changed(CauseCheck *check) {
    Words words = random_sound_words(&check->random);
    uint32_t changed = random_below(&check->random, (uint32_t)words.count);
    words.at[changed] = random_word(&check->random);
    demand(check, found_in(&words).place >= changed, "a rule is broken before the word changed");
    check_cause(check, &words);
    report(check, &words);
    words_free(&words);
}

static void check_random(CauseCheck *check) {
    Words words = random_words_with_cause(&check->random);
    check_cause(check, &words);
    report(check, &words);
    words_free(&words);
}

static void print_counts(const char *before, const uint64_t *counts, size_t first, size_t last) {
    fputs(before, stdout);
    for (size_t index = first; index <= last; index++) {
        printf(" %" PRIu64, counts[index]);
    }
}

int run_check_causes(uint64_t seed, uint64_t count) {
    CauseCheck check = {.random = {seed}};
    for (uint64_t done = 0; done < count && check.failure == NULL; done++) {
        if (done % 2 == 0) {
            check_random(&check);
        } else {
            check_changed(&check);
        }
    }
    printf("self-check seed %" PRIu64 ": words well formed %" PRIu64, seed, check.found[0]);
    print_counts(", malformed by cause", check.found, CAUSE_WORDS_END, CAUSE_TOO_DEEP);
    print_counts(", ending before", check.ends, ROLE_NODE_COUNT, ROLE_ALTERNATIVES);
    printf("; %" PRIu64 " starts completed, %" PRIu64 " stuck\n", check.completed, check.stuck);
    return check.failure == NULL ? 0 : 1;
}
