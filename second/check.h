// The self-check by plain enumeration, and the known inputs.
#ifndef CHECK_H
#define CHECK_H

#include <stdint.h>

// Checks so many random cases; 0 when all hold.
int run_check(uint64_t seed, uint64_t count);

// Checks the known inputs of document 01; 0 when all hold.
int run_known(void);

// Checks so many random formulas, and half as many short texts; 0 when all hold.
int run_check_formulas(uint64_t seed, uint64_t count);

// Checks known formulas; 0 when all hold.
int run_known_formulas(void);

// Checks which short texts over small alphabets are formulas, or can become one; 0 when all hold.
int run_short_texts(void);

// Checks causes and places of so many random runs of words; 0 when all hold.
int run_check_causes(uint64_t seed, uint64_t count);

// Checks known causes and places; 0 when all hold.
int run_known_causes(void);

// Checks causes and places of all short runs of words over small stocks; 0 when all hold.
int run_short_words(void);

// Checks known suites; 0 when all hold.
int run_known_suites(void);

// Checks so many random suites, and as many texts of suites; 0 when all hold.
int run_check_suites(uint64_t seed, uint64_t count);

// Checks known libraries, and those with one byte changed, each in turn; 0 when all hold.
int run_known_libraries(void);

// Checks so many random libraries, and as many files; 0 when all hold.
int run_check_libraries(uint64_t seed, uint64_t count);

// Checks known nodes at which graphs clash; 0 when all hold.
int run_known_nodes(void);

// Checks the node of all pairs of small graphs; 0 when all hold.
int run_small_pairs(void);

// Checks the nodes of so many random pairs of graphs; 0 when all hold.
int run_check_nodes(uint64_t seed, uint64_t count);

#endif
