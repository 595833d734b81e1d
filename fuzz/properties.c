// The properties of a call. Each follows from document 01 and request Six alone; where the inputs are small, plain
// enumeration tells the exact outcome.
#include "properties.h"

#include "expect.h"
#include "full.h"
#include "recognise.h"

#include <stdlib.h>
#include <string.h>

enum {
    MODES = 3,
    AMPLE_ROOM = 4096,  // a result area for every result
    FEW_CHOICES = 256,  // with more, the full mode is run once only
    SMALL_INPUTS = 128, // words of both inputs that plain enumeration takes on
    FEW_WAYS = 1500     // and ways to choose
};

// A call whose inputs are read, and its outcomes in all modes with ample areas.
typedef struct {
    const Call *call;
    Outcome outcomes[MODES];
    bool few; // the quick result has few choices
} Case;

static const uint32_t NOTHING_WORDS[] = {1, 0, 0};

static Words nothing(void) {
    return (Words){.at = (uint32_t *)NOTHING_WORDS, .count = 3};
}

static void demand(const Call *call, bool holds, const char *property) {
    if (!holds) {
        fprintf(stderr, "fuzz: it does not hold that %s; the call is\n", property);
        call_print(call, stderr);
        abort();
    }
}

static bool words_equal(const Words *left, const Words *right) {
    return left->count == right->count &&
           (left->count == 0 || memcmp(left->at, right->at, left->count * sizeof *left->at) == 0);
}

static bool outcomes_equal(const Outcome *left, const Outcome *right) {
    return left->number == right->number && left->length == right->length &&
           left->readings == right->readings && left->node == right->node &&
           words_equal(&left->result, &right->result);
}

static Outcome run(uint32_t mode, const Words *first, const Words *second) {
    return unify(mode, first->at, first->count, second->at, second->count, AMPLE_ROOM,
                 WORKING_NEEDED);
}

static uint32_t run_fit(const Words *structure, const Words *description) {
    return fit(structure->at, structure->count, description->at, description->count);
}

// The number of checks 3 to 5, or 0.
static uint32_t reading_number(const Call *call) {
    if (call->first.count > LONGEST_INPUT || call->second.count > LONGEST_INPUT) {
        return INPUT_LONG;
    }
    if (!well_formed(call->first.at, call->first.count)) {
        return FIRST_MALFORMED;
    }
    return well_formed(call->second.at, call->second.count) ? SUCCESS : SECOND_MALFORMED;
}

// The number of checks 1 to 5, or 0.
static uint32_t refusal_number(const Call *call) {
    if (call->mode > MODE_FULL) {
        return UNKNOWN_MODE;
    }
    return call->work < WORKING_NEEDED ? (uint32_t)WORKING_SMALL : reading_number(call);
}

// What holds of an outcome in a mode, with ample room.
static void check_outcome(const Call *call, uint32_t mode, const Outcome *outcome) {
    const Words *result = &outcome->result;
    size_t both = call->first.count + call->second.count;
    uint32_t number = outcome->number;
    demand(call, number == SUCCESS || is_clash(number) || number == CHOICES_MANY,
           "inputs that are read are unified or clash or have too many choices");
    demand(call, number != CHOICES_MANY || mode == MODE_FULL, "7 is given in mode 2 alone");
    demand(call, number != NO_CHOICE || mode == MODE_FULL, "11 is given in mode 2 alone");
    demand(call, number != QUICK_FAILS || mode != MODE_JOIN, "10 is not given in mode 0");
    demand(call, number == CLASH || outcome->node == 0, "6 alone has a node");
    demand(call, number != CLASH || outcome->node < call->first.at[0] + call->second.at[0],
           "the node is one of the definite graphs");
    demand(call, (number == SUCCESS) == (outcome->length > 0), "0 alone has a length");
    demand(call, outcome->length == 0 || outcome->length + 3u <= both,
           "a result is three words shorter than both inputs");
    demand(call, (number == SUCCESS && mode == MODE_FULL) == (outcome->readings > 0),
           "mode 2 alone tells readings, after 0, and there is one at least");
    demand(call, outcome->readings < CHOICES_CAP, "readings are at most 4,096");
    demand(call, result->count == outcome->length, "the result is as long as the length says");
    demand(call, number != SUCCESS || well_formed(result->at, result->count),
           "a result is well formed");
}

// The numbers and choices of the three modes together.
static void check_modes(const Case *this) {
    const Call *call = this->call;
    const Outcome *join = &this->outcomes[MODE_JOIN];
    const Outcome *quick = &this->outcomes[MODE_QUICK];
    const Outcome *full = &this->outcomes[MODE_FULL];
    demand(call, join->number == SUCCESS || outcomes_equal(join, quick),
           "a clash in joining is that clash in mode 1");
    demand(call, join->number == SUCCESS || join->number == CLASH, "mode 0 clashes by 6 alone");
    demand(call, join->number != SUCCESS || (quick->number != CLASH && full->number != CLASH),
           "6 is given exactly when joining clashes");
    demand(call, quick->number == SUCCESS || outcomes_equal(quick, full),
           "a clash in mode 1 is that clash in mode 2");
    demand(call, quick->number != SUCCESS || full->number != QUICK_FAILS,
           "10 is given in both modes or in none");
    if (quick->number != SUCCESS) {
        return;
    }
    uint32_t choices = choices_of(quick->result.at);
    demand(call, choices <= choices_of(join->result.at), "tidying makes no choice");
    demand(call, (choices == CHOICES_CAP) == (full->number == CHOICES_MANY),
           "7 is given exactly for over 4,096 choices");
    if (full->number == SUCCESS) {
        uint32_t left = choices_of(full->result.at);
        demand(call, left <= choices && full->readings <= left,
               "readings are choices of the full result, and these of the quick one");
    }
}

// The room decides between 0 and 8 and changes nothing else.
static void check_room(const Case *this, uint32_t mode, size_t room) {
    const Call *call = this->call;
    const Outcome *ample = &this->outcomes[mode];
    Outcome outcome = unify(mode, call->first.at, call->first.count, call->second.at,
                            call->second.count, room, WORKING_NEEDED);
    if (ample->length > room) {
        demand(call,
               outcome.number == RESULT_LONG && outcome.length == ample->length &&
                   outcome.readings == 0 && outcome.node == 0 && outcome.result.count == 0,
               "a result longer than the room gives 8 and its length");
    } else {
        demand(call, outcomes_equal(&outcome, ample), "room that suffices changes nothing");
    }
    words_free(&outcome.result);
}

// The call's own room, the exact room, and a word less.
static void check_rooms(const Case *this, uint32_t mode) {
    uint32_t length = this->outcomes[mode].length;
    check_room(this, mode, this->call->room);
    if (length > 0) {
        check_room(this, mode, length);
        check_room(this, mode, length - 1);
    }
}

// Exchanging the inputs changes the order of the disjunctions alone.
static void check_exchanged(const Case *this, uint32_t mode) {
    const Call *call = this->call;
    const Outcome *outcome = &this->outcomes[mode];
    Outcome exchanged = run(mode, &call->second, &call->first);
    demand(call,
           exchanged.number == outcome->number && exchanged.length == outcome->length &&
               exchanged.readings == outcome->readings,
           "exchanged inputs give the same number, length and readings");
    words_free(&exchanged.result);
}

// Unifies a result with the description that says nothing; this must give the outcome.
static void check_again(const Case *this, uint32_t mode, const Words *result,
                        const Outcome *outcome, const char *property) {
    Words says_nothing = nothing();
    if (result->count > LONGEST_INPUT) {
        return;
    }
    Outcome after = run(mode, result, &says_nothing);
    Outcome before = run(mode, &says_nothing, result);
    demand(this->call, outcomes_equal(&after, outcome) && outcomes_equal(&before, outcome),
           property);
    words_free(&after.result);
    words_free(&before.result);
}

// What is tidied stays, and the full mode gives the same from the quick result.
static void check_stays(const Case *this) {
    const Outcome *quick = &this->outcomes[MODE_QUICK];
    const Outcome *full = &this->outcomes[MODE_FULL];
    for (uint32_t mode = MODE_JOIN; mode < MODES; mode++) {
        const Outcome *outcome = &this->outcomes[mode];
        if (outcome->number == SUCCESS) {
            Outcome joined = *outcome;
            joined.readings = 0;
            check_again(this, MODE_JOIN, &outcome->result, &joined, "joining nothing keeps it");
        }
    }
    if (quick->number == SUCCESS) {
        check_again(this, MODE_QUICK, &quick->result, quick, "a quick result stays");
    }
    if (quick->number == SUCCESS && this->few) {
        check_again(this, MODE_FULL, &quick->result, full, "the quick result has the full one");
    }
    if (full->number == SUCCESS && this->few) {
        Outcome tidied = *full;
        tidied.readings = 0;
        check_again(this, MODE_QUICK, &full->result, &tidied, "tidying a full result keeps it");
        check_again(this, MODE_FULL, &full->result, full, "a full result stays");
    }
}

// A structure satisfies the result exactly when it satisfies both inputs, in every mode; on a
// clash it does not satisfy both.
static void check_structure(const Case *this, const Words *structure) {
    const Call *call = this->call;
    Words says_nothing = nothing();
    uint32_t first = run_fit(structure, &call->first);
    uint32_t second = run_fit(structure, &call->second);
    bool both = first == SUCCESS && second == SUCCESS;
    demand(call, (first == SUCCESS || first == CLASH) && (second == SUCCESS || second == CLASH),
           "the fit test answers 0 or 6");
    demand(call, run_fit(structure, structure) == SUCCESS, "a structure satisfies itself");
    demand(call, run_fit(structure, &says_nothing) == SUCCESS, "every structure satisfies nothing");
    for (uint32_t mode = MODE_JOIN; mode < MODES; mode++) {
        const Outcome *outcome = &this->outcomes[mode];
        demand(call, !is_clash(outcome->number) || !both, "on a clash no structure satisfies both");
        if (outcome->number == SUCCESS && outcome->length <= LONGEST_INPUT) {
            demand(call, (run_fit(structure, &outcome->result) == SUCCESS) == both,
                   "a structure satisfies the result exactly when it satisfies both inputs");
        }
    }
}

// The definite graph of a description, as a structure.
static Words structure_of(const Words *description) {
    Words structure = {0};
    words_add_all(&structure, description->at,
                  (size_t)(graph_end(description->at) - description->at));
    words_add(&structure, 0);
    return structure;
}

static void check_structure_of(const Case *this, const Words *description) {
    Words structure = structure_of(description);
    if (structure.count <= LONGEST_INPUT) {
        check_structure(this, &structure);
    }
    words_free(&structure);
}

static void check_structures(const Case *this) {
    check_structure_of(this, &this->call->first);
    check_structure_of(this, &this->call->second);
    for (uint32_t mode = MODE_JOIN; mode < MODES; mode++) {
        if (this->outcomes[mode].number == SUCCESS) {
            check_structure_of(this, &this->outcomes[mode].result);
        }
    }
}

// The sheet of plain enumeration, opened once.
static Sheet *sheet(void) {
    static Sheet opened;
    if (opened.cells == NULL) {
        sheet_open(&opened, MOST_CELLS);
    }
    return &opened;
}

// The choices of a list whose graphs agree; the list is consumed.
static Picks consistent_of(Picks all) {
    Picks kept = {.picks = zeroed(all.count, sizeof(Pick))};
    for (size_t index = 0; index < all.count; index++) {
        if (sheet_merge_all(sheet(), &all.picks[index])) {
            kept.picks[kept.count++] = all.picks[index];
            all.picks[index] = (Pick){0};
        }
    }
    picks_free(&all);
    return kept;
}

// A reading of the joined description, taken as a structure, satisfies both inputs.
static void check_reading(const Case *this, const Pick *pick) {
    Words structure = {0};
    sheet_merge_all(sheet(), pick);
    sheet_write(sheet(), &structure);
    words_add(&structure, 0);
    demand(this->call,
           run_fit(&structure, &this->call->first) == SUCCESS &&
               run_fit(&structure, &this->call->second) == SUCCESS,
           "a reading satisfies both inputs");
    check_structure(this, &structure);
    words_free(&structure);
}

// The quick result by looking ahead at the joined description, which is another way to it.
static void check_quick_words(const Case *this, const Words *joined) {
    const Outcome *quick = &this->outcomes[MODE_QUICK];
    Description whole;
    demand(this->call, description_read(joined->at, joined->count, &whole),
           "the joined description is read");
    bool alive = look_ahead(&whole);
    demand(this->call, alive == (quick->number == SUCCESS), "mode 1 fails when looking ahead does");
    if (alive) {
        Words expected = {0};
        Description kept = keep_what_is_left(&whole);
        description_write(&kept, &expected);
        demand(this->call, words_equal(&expected, &quick->result), "mode 1 gives these words");
        description_free(&kept);
        words_free(&expected);
    }
    description_free(&whole);
}

// The full result from all consistent choices of the joined description.
static void check_full_words(const Case *this, const Words *joined, const Picks *consistent) {
    const Outcome *full = &this->outcomes[MODE_FULL];
    demand(this->call, full->readings == consistent->count, "mode 2 counts the consistent choices");
    demand(this->call, is_clash(full->number) == (consistent->count == 0),
           "mode 2 clashes exactly without a consistent choice");
    if (full->number == SUCCESS) {
        Words expected = expect_full(sheet(), joined, consistent);
        demand(this->call, words_equal(&expected, &full->result), "mode 2 gives these words");
        words_free(&expected);
    }
}

// The readings of a result are those of the joined description.
static void check_readings(const Case *this, uint32_t mode, size_t readings) {
    const Outcome *outcome = &this->outcomes[mode];
    if (outcome->number == SUCCESS) {
        Picks consistent = consistent_of(all_picks(outcome->result.at, FEW_WAYS));
        demand(this->call, consistent.count == readings, "no reading is lost or made");
        picks_free(&consistent);
    }
}

// Everything by plain enumeration, from the joined description that the words ask for.
static void check_choices(const Case *this, const Words *joined) {
    Picks all = all_picks(joined->at, FEW_WAYS);
    if (all.too_many) {
        picks_free(&all);
        return;
    }
    Picks consistent = consistent_of(all);
    check_quick_words(this, joined);
    check_full_words(this, joined, &consistent);
    check_readings(this, MODE_QUICK, consistent.count);
    check_readings(this, MODE_FULL, consistent.count);
    if (consistent.count > 0) {
        check_reading(this, &consistent.picks[0]);
        check_reading(this, &consistent.picks[consistent.count - 1]);
    }
    picks_free(&consistent);
}

static void check_by_enumeration(const Case *this) {
    const Call *call = this->call;
    const Outcome *join = &this->outcomes[MODE_JOIN];
    Words joined = {0};
    bool agree = expect_joined(sheet(), &call->first, &call->second, &joined);
    demand(call, agree == (join->number == SUCCESS), "mode 0 clashes when the graphs do");
    if (agree) {
        demand(call, words_equal(&joined, &join->result), "mode 0 gives these words");
        check_choices(this, &joined);
    }
    words_free(&joined);
}

// The call's fit test; `number` is what checks 3 to 5 say.
static void check_fit(const Call *call, uint32_t number) {
    uint32_t told = run_fit(&call->first, &call->second);
    if (number != SUCCESS) {
        demand(call, told == number, "the fit test refuses what cannot be read");
        return;
    }
    if (*graph_end(call->first.at) > 0) {
        demand(call, told == STRUCTURE_DISJUNCTIVE, "a structure has no disjunctions");
        return;
    }
    demand(call, told == SUCCESS || told == CLASH, "the fit test answers 0 or 6");
    if (call->first.count + call->second.count <= SMALL_INPUTS) {
        Pick pick = {0};
        pick_add(&pick, call->first.at);
        sheet_merge_all(sheet(), &pick);
        demand(call, (told == SUCCESS) == sheet_satisfies(sheet(), call->second.at),
               "the fit test is satisfaction");
        pick_free(&pick);
    }
}

static bool has_few_choices(const Outcome *quick) {
    return is_clash(quick->number) || choices_of(quick->result.at) <= FEW_CHOICES;
}

// All modes on two inputs that are read.
static void check_read(const Call *call) {
    Case this = {.call = call};
    for (uint32_t mode = MODE_JOIN; mode < MODES; mode++) {
        this.outcomes[mode] = run(mode, &call->first, &call->second);
        check_outcome(call, mode, &this.outcomes[mode]);
    }
    this.few = has_few_choices(&this.outcomes[MODE_QUICK]);
    check_modes(&this);
    for (uint32_t mode = MODE_JOIN; mode < MODES; mode++) {
        if (mode != MODE_FULL || this.few) {
            check_exchanged(&this, mode);
            check_rooms(&this, mode);
        }
    }
    check_stays(&this);
    check_structures(&this);
    if (call->first.count + call->second.count <= SMALL_INPUTS) {
        check_by_enumeration(&this);
    }
    for (uint32_t mode = MODE_JOIN; mode < MODES; mode++) {
        words_free(&this.outcomes[mode].result);
    }
}

// A call that is refused before its inputs are unified.
static void check_refused(const Call *call, uint32_t number) {
    Outcome outcome = call_run(call);
    demand(call,
           outcome.number == number && outcome.length == 0 && outcome.readings == 0 &&
               outcome.node == 0 && outcome.result.count == 0,
           "the first check that fails gives the number, without length, readings and node");
    words_free(&outcome.result);
}

void check_call(const Call *call) {
    uint32_t number = reading_number(call);
    check_fit(call, number);
    if (refusal_number(call) != SUCCESS) {
        check_refused(call, refusal_number(call));
    }
    if (number == SUCCESS) {
        check_read(call);
    }
}
