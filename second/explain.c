// Sentences about calls, and the numbers that they are made of.
#include "explain.h"

#include "bytes.h"
#include "call.h"
#include "causes.h"
#include "explain_clash.h"

#include <inttypes.h>

// What words are, by their role; they end before no other.
static const char *const names[] = {
    [ROLE_NODE_COUNT] = "node count",
    [ROLE_HEAD] = "head",
    [ROLE_FEATURE] = "feature",
    [ROLE_TARGET] = "target",
    [ROLE_DISJUNCTIONS] = "number of disjunctions",
    [ROLE_ALTERNATIVES] = "number of alternatives",
};

static void say_success(const Outcome *outcome) {
    printf("number 0: unified; the result has %" PRIu32 " words", outcome->length);
    if (outcome->readings > 0) {
        printf(" and %" PRIu32 " reading%s", outcome->readings, outcome->readings == 1 ? "" : "s");
    }
    putchar('\n');
}

static void say_number(const Outcome *outcome) {
    static const char *const sentences[] = {
        [UNKNOWN_MODE] = "refused; the mode is above 2",
        [WORKING_SMALL] = "refused; the working area has fewer than 16384 words",
        [INPUT_LONG] = "refused; an input has more than 1024 words",
        [FIRST_MALFORMED] = "refused; the first input is malformed",
        [SECOND_MALFORMED] = "refused; the second input is malformed",
        [CLASH] = "a clash; the definite graphs clash",
        [CHOICES_MANY] = "refused; the quick step leaves more than 4096 choices",
        [QUICK_FAILS] =
            "a clash; the definite graphs agree, but in the quick step a disjunction has "
            "no alternative left, or folding clashes",
        [NO_CHOICE] = "a clash; the quick step does not fail, but no choice is consistent",
    };
    if (outcome->number == SUCCESS) {
        say_success(outcome);
    } else if (outcome->number == RESULT_LONG) {
        printf("number 8: refused; the result has %" PRIu32 " words, more than the result area\n",
               outcome->length);
    } else {
        printf("number %" PRIu32 ": %s\n", outcome->number, sentences[outcome->number]);
    }
}

// What is wrong with the word that stands there.
static void say_fault(const Finding *finding, uint32_t word) {
    const char *name = names[finding->expected.role];
    switch (finding->cause) {
    case CAUSE_LEFT_OVER:
        printf("%" PRIu32 " is left over", word);
        break;
    case CAUSE_NO_NODES:
        printf("%s %" PRIu32 " leaves no nodes", name, word);
        break;
    case CAUSE_BAD_HEAD:
        printf("%s %" PRIu32 " is too large", name, word);
        break;
    case CAUSE_BAD_FEATURE:
        printf("%s %" PRIu32 " %s", name, word,
               word < FEATURE_END ? "does not rise" : "is out of range");
        break;
    case CAUSE_BAD_TARGET:
        printf("%s %" PRIu32 " is out of turn", name, word);
        break;
    case CAUSE_NOT_MET:
        printf("%s %" PRIu32 " is of node %" PRIu32 ", which is not yet met", name, word,
               finding->expected.node);
        break;
    case CAUSE_FEW_ALTERNATIVES:
        printf("%s %" PRIu32 " is too small", name, word);
        break;
    default:
        printf("%s %" PRIu32 " nests too deep", name, word);
    }
}

// What could stand there where nothing could.
static void say_nothing_could(const Expected *expected) {
    switch (expected->role) {
    case ROLE_HEAD:
        printf("; here no head can stand until an arc leads to node %" PRIu32 "\n", expected->node);
        break;
    case ROLE_FEATURE:
        puts("; here no feature can stand, since the one before is 65535");
        break;
    default:
        puts("; after the end nothing can stand");
    }
}

static void say_bounds(const Expected *expected) {
    printf("; here a %s is ", names[expected->role]);
    if (expected->role == ROLE_FEATURE) {
        printf("from %" PRIu32 " to %" PRIu32 "\n", expected->least, expected->most);
    } else if (expected->most == UINT32_MAX) {
        printf("at least %" PRIu32 "\n", expected->least);
    } else if (expected->role == ROLE_DISJUNCTIONS) {
        printf("%" PRIu32 "\n", expected->most);
    } else {
        printf("at most %" PRIu32 "\n", expected->most);
    }
}

static void say_malformed(const char *input, const Words *words) {
    Finding finding = find_cause(words->at, words->count, NULL);
    const Expected *expected = &finding.expected;
    printf("%s input, word %zu: ", input, finding.place);
    if (finding.cause == CAUSE_WORDS_END) {
        printf("the words end; here a %s was to come\n", names[expected->role]);
        return;
    }
    say_fault(&finding, words->at[finding.place]);
    if (expected->most < expected->least) {
        say_nothing_could(expected);
    } else {
        say_bounds(expected);
    }
}

// Where the definite graphs of the inputs, which are well formed, clash.
static void say_clash(const Call *call, uint32_t node) {
    Description first;
    Description second;
    if (description_read(call->first.at, call->first.count, &first)) {
        if (description_read(call->second.at, call->second.count, &second)) {
            say_where(&first.graph, &second.graph, node);
            description_free(&second);
        }
        description_free(&first);
    }
}

static void explain(const Call *call) {
    Outcome outcome = call_run(call);
    say_number(&outcome);
    if (outcome.number == CLASH) {
        say_clash(call, outcome.node);
    } else if (outcome.number == FIRST_MALFORMED) {
        say_malformed("first", &call->first);
    } else if (outcome.number == SECOND_MALFORMED) {
        say_malformed("second", &call->second);
    }
    words_free(&outcome.result);
}

int run_explain(void) {
    Call call;
    if (meet_read(&call)) {
        explain(&call);
    } else {
        puts("bad input: a call is a mode and two inputs, each a word count and so many words");
    }
    call_free(&call);
    return 0;
}

// The one number that a sentence needs beside the cause, the place and the word.
static uint32_t hint_of(const Finding *finding) {
    switch (finding->cause) {
    case CAUSE_WORDS_END:
        return finding->expected.role;
    case CAUSE_BAD_FEATURE:
        return finding->expected.least;
    case CAUSE_BAD_TARGET:
        return finding->expected.most;
    case CAUSE_NOT_MET:
        return finding->expected.node;
    default:
        return 0;
    }
}

static void tell_malformed(const Words *words) {
    Finding finding = find_cause(words->at, words->count, NULL);
    uint32_t word = finding.place < words->count ? words->at[finding.place] : 0;
    printf("cause %d word %zu stands %" PRIu32 " hint %" PRIu32 "\n", finding.cause, finding.place,
           word, hint_of(&finding));
}

static void tell(const Call *call) {
    Outcome outcome = answer_meet(call);
    if (outcome.number == CLASH) {
        printf("node %" PRIu32 "\n", outcome.node);
    } else if (outcome.number == FIRST_MALFORMED) {
        tell_malformed(&call->first);
    } else if (outcome.number == SECOND_MALFORMED) {
        tell_malformed(&call->second);
    }
}

int run_told(void) {
    Call call;
    if (meet_read(&call)) {
        tell(&call);
    } else {
        puts("bad input");
    }
    call_free(&call);
    return 0;
}

static void tell_cause(const Words *words) {
    Finding finding = find_cause(words->at, words->count, NULL);
    printf("cause %d data %" PRIu32 " word %zu hint %" PRIu32 "\n", finding.cause, finding.data,
           finding.place, hint_of(&finding));
}

int run_causes(void) {
    Bytes line = {0};
    while (line_next(&line)) {
        Words words = {0};
        if (parse_numbers(line.at, line.count, &words)) {
            tell_cause(&words);
        } else {
            puts("bad input");
        }
        words_free(&words);
    }
    bytes_free(&line);
    return 0;
}
