// Calls: making them and printing them.
#include "call.h"

#include <inttypes.h>

void call_free(Call *call) {
    words_free(&call->first);
    words_free(&call->second);
}

Outcome call_run(const Call *call) {
    const Words *first = &call->first;
    const Words *second = &call->second;
    if (call->is_fit) {
        return (Outcome){.number = fit(first->at, first->count, second->at, second->count)};
    }
    return unify(call->mode, first->at, first->count, second->at, second->count, call->room,
                 call->work);
}

void words_print(const Words *words, FILE *to) {
    for (size_t index = 0; index < words->count; index++) {
        fprintf(to, index == 0 ? "%" PRIu32 : " %" PRIu32, words->at[index]);
    }
}

static void print_counted(const Words *words, FILE *to) {
    fprintf(to, words->count == 0 ? " %zu" : " %zu ", words->count);
    words_print(words, to);
}

void meet_print(const Call *call, FILE *to) {
    fprintf(to, "%" PRIu32, call->mode);
    print_counted(&call->first, to);
    print_counted(&call->second, to);
    fputc('\n', to);
}

void call_print(const Call *call, FILE *to) {
    if (call->is_fit) {
        fputs("fit", to);
    } else {
        fprintf(to, "unify %" PRIu32 " %" PRIu32 " %" PRIu32, call->mode, call->room, call->work);
    }
    print_counted(&call->first, to);
    print_counted(&call->second, to);
    fputc('\n', to);
}
