// The list of the inputs made to be slow.
#include "adverse.h"

typedef struct {
    const char *name;
    uint32_t mode;
    void (*make)(Words *first, Words *second);
} Adverse;

static const Adverse ADVERSE[] = {
    {"cycles_340_339", MODE_JOIN, make_cycles_340_339},
    {"cycles_340_211", MODE_JOIN, make_cycles_340_211},
    {"cycles_own_features", MODE_JOIN, make_cycles_own_features},
    {"path_into_loop", MODE_JOIN, make_path_into_loop},
    {"cycle_into_wide_loop", MODE_JOIN, make_cycle_into_wide_loop},
    {"rungs_from_the_end", MODE_JOIN, make_rungs_from_the_end},
    {"machines", MODE_JOIN, make_machines},
    {"star_equal", MODE_JOIN, make_star_equal},
    {"star_interleaved", MODE_JOIN, make_star_interleaved},
    {"star_above", MODE_JOIN, make_star_above},
    {"star_below", MODE_JOIN, make_star_below},
    {"leaves_equal", MODE_JOIN, make_leaves_equal},
    {"leaves_interleaved", MODE_JOIN, make_leaves_interleaved},
    {"chain_reversed", MODE_QUICK, make_chain_reversed},
    {"chain_alternating", MODE_QUICK, make_chain_alternating},
    {"chain_forward", MODE_QUICK, make_chain_forward},
    {"chain_over_alternatives", MODE_QUICK, make_chain_over_alternatives},
    {"chain_over_cycle", MODE_QUICK, make_chain_over_cycle},
    {"chain_over_wide_cycle", MODE_QUICK, make_chain_over_wide_cycle},
    {"chain_over_star", MODE_QUICK, make_chain_over_star},
    {"chain_over_deep_class", MODE_QUICK, make_chain_over_deep_class},
    {"chain_over_chains", MODE_QUICK, make_chain_over_chains},
    {"chains_inside", MODE_QUICK, make_chains_inside},
    {"nests_narrow", MODE_QUICK, make_nests_narrow},
    {"nests_broad", MODE_QUICK, make_nests_broad},
    {"alternatives_64", MODE_QUICK, make_alternatives_64},
    {"alternatives_anew", MODE_QUICK, make_alternatives_anew},
    {"alternatives_most", MODE_QUICK, make_alternatives_most},
    {"alternatives_failing", MODE_QUICK, make_alternatives_failing},
    {"disjunctions_most", MODE_QUICK, make_disjunctions_most},
    {"folds_at_once", MODE_QUICK, make_folds_at_once},
};

size_t adverse_count(void) {
    return sizeof ADVERSE / sizeof *ADVERSE;
}

void adverse_make(Workload *workload, size_t index) {
    const Adverse *adverse = &ADVERSE[index];
    workload_start(workload, adverse->name, adverse->mode);
    adverse->make(&workload->call.first, &workload->call.second);
}
