// Times formulas: an ordinary text of each length, and texts made to be slow. Prints a table in Markdown.
#define _POSIX_C_SOURCE 199309L
#include "bublastyr.h"

#include <stdarg.h>
#include <stdio.h>
#include <string.h>
#include <time.h>

enum {
    TEXT_LIMIT = 4096,
    RESULT_LIMIT = 1024,
    ROUNDS = 9,
    ROUND_TIME = 2000000,    // nanoseconds that a round takes at the least
    LONGEST_TIME = 900000000 // nanoseconds after which no further round begins
};

typedef struct {
    char text[TEXT_LIMIT + 64];
    size_t length;
} Text;

static double now(void) {
    struct timespec time;
    clock_gettime(CLOCK_PROCESS_CPUTIME_ID, &time);
    return (double)time.tv_sec * 1e9 + (double)time.tv_nsec;
}

// Puts a piece at the end, if the text stays short enough.
static int put(Text *text, size_t most, const char *form, ...) {
    char piece[64];
    va_list given;
    va_start(given, form);
    int length = vsnprintf(piece, sizeof piece, form, given);
    va_end(given);
    if (text->length + (size_t)length > most) {
        return 0;
    }
    memcpy(text->text + text->length, piece, (size_t)length);
    text->length += (size_t)length;
    return 1;
}

// The same piece as often as it fits.
static void fill(Text *text, size_t most, const char *piece) {
    while (put(text, most, "%s", piece)) {
    }
}

// What grammar writers type: values, a shared path and an alternative, feature after feature.
static void ordinary(Text *text, size_t most) {
    put(text, most, "f1:a1");
    for (int f = 2; put(text, most, "&f%d:(f1:a%d&f2:a%d)", f, f, f + 1) &&
                    put(text, most, "&f%d:(a%d|a%d)", f + 1, f, f + 1) &&
                    put(text, most, "&[<f%d f1>,<f%d>]", f, f + 2);
         f += 3) {
    }
}

// The same without alternatives.
static void definite(Text *text, size_t most) {
    put(text, most, "f1:a1");
    for (int f = 2; put(text, most, "&f%d:(f1:a%d&f2:a%d)", f, f, f + 1) &&
                    put(text, most, "&[<f%d f1>,<f%d>]", f, f + 1);
         f += 2) {
    }
}

// Two cycles of coprime lengths, which come to one node.
static void cycles(Text *text, size_t most) {
    size_t long_one = (most - 14) / 4;
    put(text, most, "[<");
    for (size_t i = 0; i < long_one; i++) {
        put(text, most, "f1");
    }
    put(text, most, ">,<>]&[<");
    for (size_t i = 0; i + 1 < long_one; i++) {
        put(text, most, "f1");
    }
    put(text, most, ">,<>]");
}

// Paths of one feature that are shared with the root one by one, the longest first.
static void loops(Text *text, size_t most) {
    int first = 1;
    for (int n = 60; n > 0; n--) {
        Text loop = {.length = 0};
        put(&loop, TEXT_LIMIT, first ? "[<" : "&[<");
        for (int i = 0; i < n; i++) {
            put(&loop, TEXT_LIMIT, "f1");
        }
        put(&loop, TEXT_LIMIT, ">,<>]");
        if (text->length + loop.length > most) {
            continue;
        }
        memcpy(text->text + text->length, loop.text, loop.length);
        text->length += loop.length;
        first = 0;
    }
}

// A long path, and alternatives at its end: each has the whole path.
static void trail(Text *text, size_t most) {
    while (text->length < most / 2 && put(text, most, "f1:")) {
    }
    put(text, most, "(a1");
    fill(text, most - 1, "|a1");
    put(text, most, ")");
}

// As many alternatives as there can be.
static void alternatives(Text *text, size_t most) {
    put(text, most, "a1");
    fill(text, most, "|a1");
}

// One node with as many features as there can be.
static void star(Text *text, size_t most) {
    put(text, most, "[<f0>");
    for (int f = 1; put(text, most - 1, ",<f%d>", f); f++) {
    }
    put(text, most, "]");
}

// Stars in alternatives beside each other.
static void stars(Text *text, size_t most) {
    for (int first = 1;; first = 0) {
        Text one = {.length = 0};
        put(&one, TEXT_LIMIT, first ? "[<f0>" : "|[<f0>");
        for (int f = 1; f < 40; f++) {
            put(&one, TEXT_LIMIT, ",<f%d>", f);
        }
        put(&one, TEXT_LIMIT, "]");
        if (text->length + one.length > most) {
            break;
        }
        memcpy(text->text + text->length, one.text, one.length);
        text->length += one.length;
    }
}

// A path beside alternatives, shared with the root, so that every alternative is closed by many sweeps.
static void cycles_in_alternatives(Text *text, size_t most) {
    for (int first = 1;; first = 0) {
        Text one = {.length = 0};
        put(&one, TEXT_LIMIT, first ? "[<" : "|[<");
        for (int i = 0; i < 40; i++) {
            put(&one, TEXT_LIMIT, "f1");
        }
        put(&one, TEXT_LIMIT, ">,<>]&[<");
        for (int i = 0; i < 39; i++) {
            put(&one, TEXT_LIMIT, "f1");
        }
        put(&one, TEXT_LIMIT, ">,<>]");
        if (text->length + one.length > most) {
            break;
        }
        memcpy(text->text + text->length, one.text, one.length);
        text->length += one.length;
    }
}

// Parentheses around nothing.
static void parentheses(Text *text, size_t most) {
    size_t half = (most - 3) / 2;
    for (size_t i = 0; i < half; i++) {
        put(text, most, "(");
    }
    put(text, most, "NIL");
    for (size_t i = 0; i < half; i++) {
        put(text, most, ")");
    }
}

// Two equal halves, so that each arc of the one meets its like of the other.
static void twice(Text *text, size_t most) {
    for (int half = 0; half < 2; half++) {
        put(text, most, half == 0 ? "f0:" : "&f0:");
        while (text->length < (most / 2) * (size_t)(half + 1) - 8 && put(text, most - 4, "f1:")) {
        }
        put(text, most, "NIL");
    }
}

typedef struct {
    const char *name;
    void (*make)(Text *text, size_t most);
} Kind;

static const Kind kinds[] = {
    {"ordinary", ordinary},
    {"definite", definite},
    {"parentheses", parentheses},
    {"cycles", cycles},
    {"loops", loops},
    {"trail", trail},
    {"alternatives", alternatives},
    {"star", star},
    {"stars", stars},
    {"cycles_in_alternatives", cycles_in_alternatives},
    {"twice", twice},
};

// The processor time of a call in nanoseconds: the least of some rounds.
static double measure(const Text *text, uint32_t *number, uint32_t *length) {
    static uint32_t result[RESULT_LIMIT];
    uint32_t told[2];
    double least = 1e300;
    double spent = 0;
    uint32_t calls = 1;
    for (int round = 0; round < ROUNDS && spent < LONGEST_TIME; round++) {
        double start = now();
        for (uint32_t i = 0; i < calls; i++) {
            *number = bublastyr_formula((const uint8_t *)text->text, text->length, result,
                                        RESULT_LIMIT, told);
        }
        double time = now() - start;
        spent += time;
        if (time / calls < least) {
            least = time / calls;
        }
        if (time < ROUND_TIME) {
            calls *= 2;
            round--;
        }
    }
    *length = told[0];
    return least;
}

int main(void) {
    static const size_t lengths[] = {60, 512, TEXT_LIMIT};
    printf("| Text | Bytes | Number | Words | ns a call | ns a byte | Times the ordinary one |\n");
    printf("|---|---|---|---|---|---|---|\n");
    for (size_t l = 0; l < sizeof lengths / sizeof lengths[0]; l++) {
        double usual = 0;
        for (size_t k = 0; k < sizeof kinds / sizeof kinds[0]; k++) {
            static Text text;
            text.length = 0;
            kinds[k].make(&text, lengths[l]);
            if (text.length == 0) {
                continue;
            }
            uint32_t number;
            uint32_t length;
            double time = measure(&text, &number, &length);
            if (k == 0) {
                usual = time;
            }
            printf("| %s | %zu | %u | %u | %.0f | %.0f | %.1f |\n", kinds[k].name, text.length,
                   number, length, time, time / (double)text.length, time / usual);
            fflush(stdout);
        }
    }
    return 0;
}
