// Mode 2: every choice of the joined description is expanded and joined from scratch.
//
// A description may have very many choices and yet a quick result with few, so the expansion
// looks ahead first. An alternative is excluded when the graphs that no choice through it can
// avoid clash: its own, those of the descriptions around it, and, in all of these, the graphs of
// alternatives that are the only ones left of their disjunction. It is also excluded when one of
// its disjunctions has nothing left.
//
// Why this loses no consistent choice: say that no alternative excluded so far stands in a
// consistent choice. A consistent choice through an alternative takes its graph, the graphs
// around it and, where one alternative is left, that one, for it takes none of the excluded
// ones; so all those graphs can be joined. Hence an alternative whose unavoidable graphs clash
// stands in none. This is another way to the exclusions of the quick step, which the
// self-check compares with it; it shares no code with tidying.
#include "full.h"

#include "join.h"

#include <stdlib.h>

static uint32_t capped(uint64_t count) {
    return count > MOST_CHOICES ? MOST_CHOICES + 1 : (uint32_t)count;
}

static uint32_t count_alternatives(const Disjunction *disjunction) {
    uint32_t sum = 0;
    for (uint32_t index = 0; index < disjunction->alternative_count; index++) {
        sum = capped((uint64_t)sum + count_choices(&disjunction->alternatives[index]));
    }
    return sum;
}

uint32_t count_choices(const Description *description) {
    uint32_t product = 1;
    for (uint32_t index = 0; index < description->disjunction_count; index++) {
        uint32_t sum = count_alternatives(&description->disjunctions[index]);
        product = capped((uint64_t)product * sum);
    }
    return product;
}

// A growing list of graphs that are to be taken together.
typedef struct {
    const Graph **graphs;
    size_t count;
    size_t room;
} GraphList;

static void graph_list_add(GraphList *list, const Graph *graph) {
    if (list->count == list->room) {
        list->room = list->room == 0 ? 16 : 2 * list->room;
        list->graphs = resized(list->graphs, list->room, sizeof *list->graphs);
    }
    list->graphs[list->count++] = graph;
}

static uint32_t count_left(const Disjunction *disjunction) {
    uint32_t count = 0;
    for (uint32_t index = 0; index < disjunction->alternative_count; index++) {
        count += !disjunction->alternatives[index].excluded;
    }
    return count;
}

static Description *first_left(const Disjunction *disjunction) {
    Description *alternative = disjunction->alternatives;
    while (alternative->excluded) {
        alternative++;
    }
    return alternative;
}

// Adds the graphs that no choice through the description can avoid; false when one of its
// disjunctions has nothing left.
static bool add_unavoidable(const Description *description, GraphList *list) {
    bool alive = true;
    graph_list_add(list, &description->graph);
    for (uint32_t index = 0; index < description->disjunction_count; index++) {
        const Disjunction *disjunction = &description->disjunctions[index];
        uint32_t left = count_left(disjunction);
        if (left == 0 || (left == 1 && !add_unavoidable(first_left(disjunction), list))) {
            alive = false;
        }
    }
    return alive;
}

static bool exclude_below(Description *description, GraphList *around);

// Looks ahead at one alternative under the graphs around it; true when anything was excluded.
static bool exclude_alternative(Description *alternative, GraphList *around) {
    if (alternative->excluded) {
        return false;
    }
    size_t before = around->count;
    bool alive =
        add_unavoidable(alternative, around) && graphs_agree(around->graphs, around->count);
    bool changed = !alive;
    alternative->excluded = !alive;
    if (alive) {
        changed = exclude_below(alternative, around);
    }
    around->count = before;
    return changed;
}

static bool exclude_in_disjunction(Disjunction *disjunction, GraphList *around) {
    bool changed = false;
    for (uint32_t index = 0; index < disjunction->alternative_count; index++) {
        changed |= exclude_alternative(&disjunction->alternatives[index], around);
    }
    return changed;
}

// Looks ahead at every alternative of a description whose unavoidable graphs are in the list.
static bool exclude_below(Description *description, GraphList *around) {
    bool changed = false;
    for (uint32_t index = 0; index < description->disjunction_count; index++) {
        changed |= exclude_in_disjunction(&description->disjunctions[index], around);
    }
    return changed;
}

bool look_ahead(Description *whole) {
    GraphList around = {0};
    bool alive = true;
    bool changed = true;
    while (alive && changed) {
        around.count = 0;
        alive = add_unavoidable(whole, &around) && graphs_agree(around.graphs, around.count);
        changed = alive && exclude_below(whole, &around);
    }
    free(around.graphs);
    return alive;
}

// A choice under way: what it has taken, and the disjunctions it has met, the first `decided`
// of them decided.
typedef struct {
    GraphList taken_graphs;
    Description **taken;
    size_t taken_count;
    Disjunction **met;
    size_t met_count;
    size_t decided;
    uint32_t consistent;
} Choice;

static void choice_meet(Choice *choice, Description *description) {
    for (uint32_t index = 0; index < description->disjunction_count; index++) {
        choice->met = resized(choice->met, choice->met_count + 1, sizeof *choice->met);
        choice->met[choice->met_count++] = &description->disjunctions[index];
    }
}

static void choice_take(Choice *choice, Description *description) {
    choice->taken = resized(choice->taken, choice->taken_count + 1, sizeof *choice->taken);
    choice->taken[choice->taken_count++] = description;
    graph_list_add(&choice->taken_graphs, &description->graph);
    choice_meet(choice, description);
}

// Counts a whole choice, and marks what it takes as standing.
static void choice_complete(Choice *choice) {
    choice->consistent++;
    for (size_t index = 0; index < choice->taken_count; index++) {
        choice->taken[index]->stands = true;
    }
}

static void choice_decide(Choice *choice);

// Takes an alternative, goes on if the graphs taken so far agree, and puts it back.
static void choice_try(Choice *choice, Description *alternative) {
    size_t met_count = choice->met_count;
    choice_take(choice, alternative);
    if (graphs_agree(choice->taken_graphs.graphs, choice->taken_graphs.count)) {
        choice_decide(choice);
    }
    choice->met_count = met_count;
    choice->taken_count--;
    choice->taken_graphs.count--;
}

// Decides the next disjunction in every way.
static void choice_decide(Choice *choice) {
    if (choice->decided == choice->met_count) {
        choice_complete(choice);
        return;
    }
    Disjunction *disjunction = choice->met[choice->decided++];
    for (uint32_t index = 0; index < disjunction->alternative_count; index++) {
        if (!disjunction->alternatives[index].excluded) {
            choice_try(choice, &disjunction->alternatives[index]);
        }
    }
    choice->decided--;
}

// Expands all choices; returns how many are consistent, and marks the alternatives that stand.
static uint32_t expand_choices(Description *whole) {
    Choice choice = {0};
    choice_try(&choice, whole);
    free(choice.taken_graphs.graphs);
    free(choice.taken);
    free(choice.met);
    return choice.consistent;
}

static Description keep_standing(const Description *description);

// What stands of a disjunction.
static Disjunction keep_alternatives(const Disjunction *disjunction) {
    Disjunction kept = {0};
    for (uint32_t index = 0; index < disjunction->alternative_count; index++) {
        if (disjunction->alternatives[index].stands) {
            disjunction_add(&kept, keep_standing(&disjunction->alternatives[index]));
        }
    }
    return kept;
}

// Keeps what stands, and folds in place. Folding cannot clash here: some choice takes all that
// is folded, and its graphs agree.
static Description keep_standing(const Description *description) {
    Description result = {.graph = graph_copy(&description->graph)};
    for (uint32_t index = 0; index < description->disjunction_count; index++) {
        Disjunction kept = keep_alternatives(&description->disjunctions[index]);
        if (kept.alternative_count == 1) {
            description_fold(&result, kept.alternatives[0]);
            free(kept.alternatives);
        } else {
            description_add(&result, kept);
        }
    }
    return result;
}

static void let_the_rest_stand(Description *description);

static void let_alternatives_stand(Disjunction *disjunction) {
    for (uint32_t index = 0; index < disjunction->alternative_count; index++) {
        let_the_rest_stand(&disjunction->alternatives[index]);
    }
}

// Marks as standing whatever is not excluded.
static void let_the_rest_stand(Description *description) {
    description->stands = !description->excluded;
    for (uint32_t index = 0; index < description->disjunction_count; index++) {
        let_alternatives_stand(&description->disjunctions[index]);
    }
}

Description keep_what_is_left(const Description *whole) {
    Description marked = description_copy(whole);
    let_the_rest_stand(&marked);
    Description result = keep_standing(&marked);
    description_free(&marked);
    return result;
}

uint32_t full(Description *whole, Description *result) {
    if (!look_ahead(whole)) {
        return 0;
    }
    uint32_t consistent = expand_choices(whole);
    if (consistent > 0) {
        *result = keep_standing(whole);
    }
    return consistent;
}
