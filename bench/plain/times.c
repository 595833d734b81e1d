// Times both engines in mode 2 on files in the form of `meet`: the least of nine rounds each, a round being as many calls as
// fill some milliseconds. Prints a table in Markdown; exits with 1 where the engines answer differently.
#define _POSIX_C_SOURCE 200809L
#include "bublastyr.h"

#include <stdio.h>
#include <string.h>
#include <time.h>

enum { MOST = 1024, ROUNDS = 9 };
#define ROUND_NS 5e6

struct call {
    uint32_t first[MOST], second[MOST];
    size_t first_len, second_len;
};

struct answer {
    uint32_t number, told[3], result[BUBLASTYR_LONGEST_RESULT];
};

static uint32_t working[BUBLASTYR_WORKING];

// Reads a word count and so many words.
static int read_words(FILE *file, uint32_t *words, size_t *count) {
    if (fscanf(file, "%zu", count) != 1 || *count > MOST)
        return 0;
    for (size_t i = 0; i < *count; i++)
        if (fscanf(file, "%u", &words[i]) != 1)
            return 0;
    return 1;
}

// Reads a call; its mode is left out of account.
static int read_call(const char *path, struct call *call) {
    FILE *file = fopen(path, "r");
    uint32_t mode;
    if (file == NULL)
        return 0;
    int good = fscanf(file, "%u", &mode) == 1 && read_words(file, call->first, &call->first_len) &&
               read_words(file, call->second, &call->second_len);
    fclose(file);
    return good;
}

static void run(int plainly, const struct call *call, struct answer *answer) {
    if (plainly)
        answer->number = bublastyr_plain(call->first, call->first_len, call->second,
                                         call->second_len, answer->result, BUBLASTYR_LONGEST_RESULT,
                                         working, BUBLASTYR_WORKING, answer->told);
    else
        answer->number = bublastyr_unify(2, call->first, call->first_len, call->second,
                                         call->second_len, answer->result, BUBLASTYR_LONGEST_RESULT,
                                         working, BUBLASTYR_WORKING, answer->told);
}

static double now(void) {
    struct timespec time;
    clock_gettime(CLOCK_PROCESS_CPUTIME_ID, &time);
    return 1e9 * (double)time.tv_sec + (double)time.tv_nsec;
}

// The time of a call in nanoseconds.
static double measure(int plainly, const struct call *call, struct answer *answer) {
    double best = 0;
    for (int round = 0; round < ROUNDS; round++) {
        double start = now(), end = start;
        int calls = 0;
        while (end - start < ROUND_NS) {
            run(plainly, call, answer);
            calls++;
            end = now();
        }
        if (round == 0 || (end - start) / calls < best)
            best = (end - start) / calls;
    }
    return best;
}

int main(int count, char **paths) {
    puts("| Input | Answer | Readings | Fast, ns | Plain, ns | Times |");
    puts("|---|---:|---:|---:|---:|---:|");
    for (int i = 1; i < count; i++) {
        static struct call call;
        static struct answer fast, plain;
        const char *name = strrchr(paths[i], '/') == NULL ? paths[i] : strrchr(paths[i], '/') + 1;
        memset(&fast, 0, sizeof fast);
        memset(&plain, 0, sizeof plain);
        if (!read_call(paths[i], &call)) {
            fprintf(stderr, "bench: %s is no call\n", paths[i]);
            return 2;
        }
        double one = measure(0, &call, &fast), other = measure(1, &call, &plain);
        if (memcmp(&fast, &plain, sizeof fast) != 0) {
            fprintf(stderr, "bench: the engines differ on %s\n", paths[i]);
            return 1;
        }
        printf("| %.*s | %u | %u | %.0f | %.0f | %.1f |\n", (int)strcspn(name, "."), name,
               fast.number, fast.told[1], one, other, other / one);
    }
    return 0;
}
