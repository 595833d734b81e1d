// What is malformed in a run of words, and where: request Two.
#ifndef CAUSES_H
#define CAUSES_H

#include "description.h"

// The causes, numbered in the order of the request.
typedef enum {
    CAUSE_NONE, // the words are well formed
    CAUSE_WORDS_END,
    CAUSE_LEFT_OVER,
    CAUSE_NO_NODES,
    CAUSE_BAD_HEAD,
    CAUSE_BAD_FEATURE,
    CAUSE_BAD_TARGET,
    CAUSE_NOT_MET,
    CAUSE_FEW_ALTERNATIVES,
    CAUSE_TOO_DEEP
} Cause;

// What a word is there for; the last two are made of several words.
typedef enum {
    ROLE_END, // nothing may stand there
    ROLE_NODE_COUNT,
    ROLE_HEAD,
    ROLE_FEATURE,
    ROLE_TARGET,
    ROLE_DISJUNCTIONS,
    ROLE_ALTERNATIVES,
    ROLE_ARC,
    ROLE_DESCRIPTION
} Role;

// What could stand at a place, given the words before it.
typedef struct {
    Role role;
    uint32_t least;
    uint32_t most; // under `least` where no word could stand
    uint32_t node; // whose head it is; 0 for the other roles
} Expected;

// The first word that breaks a rule, or where the words end too early or as they should.
typedef struct {
    Cause cause;
    uint32_t data; // the head of CAUSE_BAD_HEAD and the target of CAUSE_BAD_TARGET, else 0
    size_t place;  // from 0; the length where no word breaks a rule
    Expected expected;
} Finding;

// What `bublastyr_malformed` tells: 0, 3, 4 or 5, and of the malformed input what was found. With 0
// and 3 there is no cause, and the place is the length of the first input.
typedef struct {
    uint32_t number;
    Finding finding;
} Malformed;

// Finds the cause. Where `each` is not null it has room for one more than the words, and gets what
// could stand at every place up to the one that is found.
Finding find_cause(const uint32_t *words, size_t length, Expected *each);

Malformed find_malformed(const Words *first, const Words *second);

#endif
