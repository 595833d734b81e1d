// Unification: the checks in the order of the table, then the step the mode asks for.
#include "unify.h"

#include "clash_node.h"
#include "full.h"
#include "join.h"
#include "tidy.h"

static void add_disjunctions(Description *description, const Description *from) {
    for (uint32_t index = 0; index < from->disjunction_count; index++) {
        description_add(description, disjunction_copy(&from->disjunctions[index]));
    }
}

// The joined description of mode 0; false on a clash, and then nothing is to be freed.
static bool join_descriptions(const Description *first, const Description *second,
                              Description *joined) {
    *joined = (Description){0};
    if (!graphs_join_two(&first->graph, &second->graph, &joined->graph)) {
        return false;
    }
    add_disjunctions(joined, first);
    add_disjunctions(joined, second);
    return true;
}

bool is_clash(uint32_t number) {
    return number == CLASH || number == QUICK_FAILS || number == NO_CHOICE;
}

static Outcome refusal(uint32_t number) {
    return (Outcome){.number = number};
}

// The definite graphs clash, at some node.
static Outcome refusal_at_node(const Description *first, const Description *second) {
    Outcome outcome = refusal(CLASH);
    clash_node(&first->graph, &second->graph, &outcome.node);
    return outcome;
}

// Writes a description, which is consumed, if the result area has room for it.
static Outcome deliver(Description *description, uint32_t readings, size_t result_room) {
    Outcome outcome = {.number = SUCCESS, .readings = readings};
    description_write(description, &outcome.result);
    description_free(description);
    outcome.length = (uint32_t)outcome.result.count;
    if (outcome.result.count > result_room) {
        words_free(&outcome.result);
        outcome.number = RESULT_LONG;
        outcome.readings = 0;
    }
    return outcome;
}

// Mode 2, once the quick result is known to have few enough choices.
static Outcome run_full(Description *joined, size_t result_room) {
    Description result;
    uint32_t readings = full(joined, &result);
    if (readings == 0) {
        return refusal(NO_CHOICE);
    }
    return deliver(&result, readings, result_room);
}

// Modes 1 and 2 on the joined description.
static Outcome run_tidied(uint32_t mode, Description *joined, size_t result_room) {
    Description quick;
    if (!tidy_whole(joined, &quick)) {
        return refusal(QUICK_FAILS);
    }
    if (mode == MODE_QUICK) {
        return deliver(&quick, 0, result_room);
    }
    uint32_t choices = count_choices(&quick);
    description_free(&quick);
    return choices > MOST_CHOICES ? refusal(CHOICES_MANY) : run_full(joined, result_room);
}

static Outcome run_mode(uint32_t mode, const Description *first, const Description *second,
                        size_t result_room) {
    Description joined;
    if (!join_descriptions(first, second, &joined)) {
        return refusal_at_node(first, second);
    }
    if (mode == MODE_JOIN) {
        return deliver(&joined, 0, result_room);
    }
    Outcome outcome = run_tidied(mode, &joined, result_room);
    description_free(&joined);
    return outcome;
}

// Checks 3 to 5, for both entries; both trees are filled when it returns 0.
static uint32_t read_both(const uint32_t *first_words, size_t first_length,
                          const uint32_t *second_words, size_t second_length, Description *first,
                          Description *second) {
    if (first_length > LONGEST_INPUT || second_length > LONGEST_INPUT) {
        return INPUT_LONG;
    }
    if (!description_read(first_words, first_length, first)) {
        return FIRST_MALFORMED;
    }
    if (!description_read(second_words, second_length, second)) {
        description_free(first);
        return SECOND_MALFORMED;
    }
    return SUCCESS;
}

Outcome unify(uint32_t mode, const uint32_t *first_words, size_t first_length,
              const uint32_t *second_words, size_t second_length, size_t result_room,
              size_t working_room) {
    if (mode > MODE_FULL) {
        return refusal(UNKNOWN_MODE);
    }
    if (working_room < WORKING_NEEDED) {
        return refusal(WORKING_SMALL);
    }
    Description first;
    Description second;
    uint32_t number =
        read_both(first_words, first_length, second_words, second_length, &first, &second);
    if (number != SUCCESS) {
        return refusal(number);
    }
    Outcome outcome = run_mode(mode, &first, &second, result_room);
    description_free(&first);
    description_free(&second);
    return outcome;
}

uint32_t fit(const uint32_t *structure_words, size_t structure_length,
             const uint32_t *description_words, size_t description_length) {
    Description structure;
    Description description;
    uint32_t number = read_both(structure_words, structure_length, description_words,
                                description_length, &structure, &description);
    if (number != SUCCESS) {
        return number;
    }
    if (structure.disjunction_count > 0) {
        number = STRUCTURE_DISJUNCTIVE;
    } else {
        number = satisfies(&structure.graph, &description) ? SUCCESS : CLASH;
    }
    description_free(&structure);
    description_free(&description);
    return number;
}
