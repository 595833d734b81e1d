// Random words for every cause: a description's words with one word changed, or cut at a place of
// every role.
#include "causes_words.h"

#include "causes.h"
#include "faults.h"
#include "shapes.h"
#include "unify.h"

#include <stdlib.h>

// Words over which nine of ten are left out.
enum { LONGEST_USUAL = 120 };

uint32_t random_word(Random *random) {
    static const uint32_t edges[] = {65534,  65535,  65536,  65546,
                                     131071, 131072, 131073, UINT32_MAX};
    return random_one_in(random, 4) ? edges[random_below(random, 8)] : random_below(random, 6);
}

static Words words_of(Description description) {
    Words words = {0};
    description_write(&description, &words);
    description_free(&description);
    return words;
}

// Words with alternatives at every depth that is allowed. In few words there is no room for one
// level more than is asked for; in many there may be one.
static Words deep_words(Random *random) {
    bool few = random_below(random, 20) > 0;
    uint32_t length = few ? 48 + random_below(random, 20) : LONGEST_INPUT;
    return words_of(random_nested_of_length(random, length, few ? DEEPEST : DEEPEST - 1));
}

static Words shaped_words(Random *random) {
    Pair pair = random_pair(random);
    description_free(&pair.second);
    return words_of(pair.first);
}

Words random_sound_words(Random *random) {
    for (;;) {
        Words words = random_one_in(random, 4) ? deep_words(random) : shaped_words(random);
        bool usual = words.count <= LONGEST_USUAL || random_one_in(random, 10);
        if (usual && words.count <= LONGEST_INPUT) {
            return words;
        }
        words_free(&words);
    }
}

// A random place of the role among well-formed words; false when there is none. Where it is to be
// bounded, some word could not stand there.
static bool place_of(Random *random, const Words *words, Role role, bool bounded, size_t *place) {
    Expected *each = zeroed(words->count + 1, sizeof(Expected));
    find_cause(words->at, words->count, each);
    uint32_t suiting = 0;
    for (size_t index = 0; index < words->count; index++) {
        bool suits = !bounded || each[index].least > 0 || each[index].most < UINT32_MAX;
        if (each[index].role == role && suits && random_one_in(random, ++suiting)) {
            *place = index;
        }
    }
    free(each);
    return suiting > 0;
}

static uint32_t word_under(Random *random, uint32_t least) {
    return random_one_in(random, 2) ? least - 1 : random_below(random, least);
}

static uint32_t word_over(Random *random, uint32_t most) {
    switch (random_below(random, 4)) {
    case 0:
        return UINT32_MAX;
    case 1:
        return most + 1 + random_below(random, 5);
    default:
        return most + 1;
    }
}

// Puts a word that could not stand there at a place of the role; false when there is none.
static bool break_a_word(Random *random, Words *words, Role role) {
    size_t place;
    if (!place_of(random, words, role, true, &place)) {
        return false;
    }
    Expected expected = find_cause(words->at, place, NULL).expected;
    bool falls = expected.least > 0 && random_one_in(random, 2);
    falls |= expected.most == UINT32_MAX;
    words->at[place] =
        falls ? word_under(random, expected.least) : word_over(random, expected.most);
    return true;
}

// A node more than there are, or an arc bent back to the root, so that a node may not be met.
static bool leave_a_node_unmet(Random *random, Words *words) {
    size_t place;
    if (random_one_in(random, 2) && place_of(random, words, ROLE_TARGET, true, &place)) {
        words->at[place] = 0;
    } else if (place_of(random, words, ROLE_NODE_COUNT, true, &place)) {
        words->at[place] += random_one_in(random, 8) ? UINT32_MAX / 2 : 1 + random_below(random, 2);
    }
    return true;
}

// The greatest feature, after which no other can stand.
static bool use_up_features(Random *random, Words *words) {
    size_t place;
    bool found = place_of(random, words, ROLE_FEATURE, true, &place);
    if (found) {
        words->at[place] = FEATURE_END - 1;
    }
    return found;
}

static bool add_words(Random *random, Words *words) {
    uint32_t count = 1 + random_below(random, 3);
    for (uint32_t added = 0; added < count; added++) {
        words_add(words, random_word(random));
    }
    return true;
}

// Cuts the words where one of the role would stand; false when there is none.
static bool cut_words(Random *random, Words *words, Role role) {
    size_t place;
    bool found = place_of(random, words, role, false, &place);
    if (found) {
        words->count = place;
    }
    return found;
}

// Breaks a rule for the cause; words that end do so before one of the role `ending`. False when the
// words have no place for it.
static bool break_for(Random *random, Words *words, Cause cause, Role ending) {
    static const Role roles[] = {
        [CAUSE_NO_NODES] = ROLE_NODE_COUNT,           [CAUSE_BAD_HEAD] = ROLE_HEAD,
        [CAUSE_BAD_FEATURE] = ROLE_FEATURE,           [CAUSE_BAD_TARGET] = ROLE_TARGET,
        [CAUSE_FEW_ALTERNATIVES] = ROLE_ALTERNATIVES, [CAUSE_TOO_DEEP] = ROLE_DISJUNCTIONS};
    switch (cause) {
    case CAUSE_NONE:
        return use_up_features(random, words);
    case CAUSE_WORDS_END:
        return cut_words(random, words, ending);
    case CAUSE_LEFT_OVER:
        return add_words(random, words);
    case CAUSE_NOT_MET:
        return leave_a_node_unmet(random, words);
    default:
        return break_a_word(random, words, roles[cause]);
    }
}

// After the first word that breaks a rule the words stay, end, or become others.
static void change_the_rest(Random *random, Words *words) {
    size_t after = find_cause(words->at, words->count, NULL).place + 1;
    uint32_t kind = random_below(random, 3);
    if (kind == 0 || after >= words->count) {
        return;
    }
    if (kind == 1) {
        words->count = after;
    }
    for (size_t place = after; place < words->count; place++) {
        words->at[place] = random_word(random);
    }
}

// Words that the other generators make.
static Words other_words(Random *random) {
    Pair pair = random_pair(random);
    Words words = random_one_in(random, 4) ? arbitrary_words(random, &pair.first)
                                           : malformed_words(random, &pair.first);
    description_free(&pair.first);
    description_free(&pair.second);
    return words;
}

// Words that end are drawn most often, since they may end before a word of every role.
static Cause random_cause(Random *random) {
    uint32_t drawn = random_below(random, CAUSE_TOO_DEEP + 4);
    return drawn <= CAUSE_TOO_DEEP ? (Cause)drawn : CAUSE_WORDS_END;
}

// Words with a rule broken for a random cause. Deep words have a place for every cause.
static Words broken_words(Random *random) {
    Cause cause = random_cause(random);
    Role ending = (Role)(ROLE_NODE_COUNT + random_below(random, ROLE_ALTERNATIVES));
    Words words = random_sound_words(random);
    if (!break_for(random, &words, cause, ending)) {
        words_free(&words);
        words = deep_words(random);
        break_for(random, &words, cause, ending);
    }
    change_the_rest(random, &words);
    return words;
}

static Words some_words(Random *random) {
    switch (random_below(random, 12)) {
    case 0:
        return random_sound_words(random);
    case 1:
    case 2:
        return other_words(random);
    default:
        return broken_words(random);
    }
}

Words random_words_with_cause(Random *random) {
    Words words = some_words(random);
    while (words.count > LONGEST_INPUT) {
        words_free(&words);
        words = some_words(random);
    }
    return words;
}
