// Inputs made to be slow: calls in modes 0 and 1 that press on one part of an engine each.
#ifndef ADVERSE_H
#define ADVERSE_H

#include "workload.h"

size_t adverse_count(void);

// Makes the call with an index below that count, the same one on every machine.
void adverse_make(Workload *workload, size_t index);

// Makers of the two inputs of a call. First those without disjunctions, for mode 0.
void make_cycles_340_339(Words *first, Words *second);
void make_cycles_340_211(Words *first, Words *second);
void make_cycles_own_features(Words *first, Words *second);
void make_path_into_loop(Words *first, Words *second);
void make_cycle_into_wide_loop(Words *first, Words *second);
void make_rungs_from_the_end(Words *first, Words *second);
void make_machines(Words *first, Words *second);
void make_star_equal(Words *first, Words *second);
void make_star_interleaved(Words *first, Words *second);
void make_star_above(Words *first, Words *second);
void make_star_below(Words *first, Words *second);
void make_leaves_equal(Words *first, Words *second);
void make_leaves_interleaved(Words *first, Words *second);

// Then those with disjunctions, for mode 1.
void make_chain_reversed(Words *first, Words *second);
void make_chain_alternating(Words *first, Words *second);
void make_chain_forward(Words *first, Words *second);
void make_chain_over_alternatives(Words *first, Words *second);
void make_chain_over_cycle(Words *first, Words *second);
void make_chain_over_wide_cycle(Words *first, Words *second);
void make_chain_over_star(Words *first, Words *second);
void make_chain_over_deep_class(Words *first, Words *second);
void make_chain_over_chains(Words *first, Words *second);
void make_chains_inside(Words *first, Words *second);
void make_nests_narrow(Words *first, Words *second);
void make_nests_broad(Words *first, Words *second);
void make_alternatives_64(Words *first, Words *second);
void make_alternatives_anew(Words *first, Words *second);
void make_alternatives_most(Words *first, Words *second);
void make_alternatives_failing(Words *first, Words *second);
void make_disjunctions_most(Words *first, Words *second);
void make_folds_at_once(Words *first, Words *second);

#endif
