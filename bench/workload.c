// Workloads: reading and writing their files, and holding both engines' answers together.
#include "workload.h"

#include <inttypes.h>
#include <stdio.h>
#include <string.h>

enum { LARGEST_COUNT = 2048, LONGEST_PATH = 1024 };

void workload_start(Workload *workload, const char *name, uint32_t mode) {
    *workload = (Workload){0};
    snprintf(workload->name, LONGEST_NAME, "%s", name);
    workload->call.mode = mode;
    workload->call.room = BUBLASTYR_LONGEST_RESULT;
    workload->call.work = BUBLASTYR_WORKING;
}

// Starts a workload under the name of a file, without its folder and its ending.
static void start_under(Workload *workload, const char *path) {
    const char *slash = strrchr(path, '/');
    workload_start(workload, slash == NULL ? path : slash + 1, 0);
    char *ending = strstr(workload->name, ".in");
    if (ending != NULL) {
        *ending = '\0';
    }
    workload->call.is_fit = strncmp(workload->name, "W6", 2) == 0;
}

static bool read_number(FILE *file, uint32_t *number) {
    return fscanf(file, "%" SCNu32, number) == 1;
}

static bool read_counted(FILE *file, Words *words) {
    uint32_t count;
    if (!read_number(file, &count) || count > LARGEST_COUNT) {
        return false;
    }
    for (uint32_t index = 0; index < count; index++) {
        uint32_t word;
        if (!read_number(file, &word)) {
            return false;
        }
        words_add(words, word);
    }
    return true;
}

bool workload_read(Workload *workload, const char *path) {
    start_under(workload, path);
    FILE *file = fopen(path, "r");
    if (file == NULL) {
        return false;
    }
    uint32_t surplus;
    bool good = read_number(file, &workload->call.mode) &&
                read_counted(file, &workload->call.first) &&
                read_counted(file, &workload->call.second) && !read_number(file, &surplus);
    fclose(file);
    return good;
}

static void write_counted(FILE *file, const Words *words) {
    fprintf(file, " %zu ", words->count);
    words_print(words, file);
}

bool workload_write(const Workload *workload, const char *folder, const char *prefix) {
    char path[LONGEST_PATH];
    snprintf(path, sizeof path, "%s/%s%s.in", folder, prefix, workload->name);
    FILE *file = fopen(path, "w");
    if (file == NULL) {
        return false;
    }
    fprintf(file, "%" PRIu32, workload->call.mode);
    write_counted(file, &workload->call.first);
    write_counted(file, &workload->call.second);
    fputc('\n', file);
    return fclose(file) == 0;
}

static void print_answer(const char *whose, const Answer *answer) {
    printf("    %s: answer %" PRIu32 " words %" PRIu32 " readings %" PRIu32 " node %" PRIu32 "\n",
           whose, answer->number, answer->length, answer->readings, answer->node);
}

// Tells two answers that differ, and how many of their words are equal.
static void print_difference(const Workload *workload, const Answer *library,
                             const Answer *second) {
    uint32_t equal = 0;
    while (equal < library->length && equal < second->length && equal < BUBLASTYR_LONGEST_RESULT &&
           library->result[equal] == second->result[equal]) {
        equal++;
    }
    printf("%s: the answers differ\n", workload->name);
    print_answer("library", library);
    print_answer("second program", second);
    printf("    equal words at the start: %" PRIu32 "\n", equal);
}

bool workload_check(Workload *workload) {
    static Answer second;
    engine_run(LIBRARY, &workload->call, &workload->answer);
    engine_run(SECOND, &workload->call, &second);
    bool alike = answers_alike(&workload->answer, &second);
    if (!alike) {
        print_difference(workload, &workload->answer, &second);
    }
    return alike;
}

size_t workload_words(const Workload *workload) {
    return workload->call.first.count + workload->call.second.count;
}
