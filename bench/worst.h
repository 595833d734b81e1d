// Timing the inputs made to be slow.
#ifndef WORST_H
#define WORST_H

#include <stdbool.h>

// Makes all of them; false where the engines differ on one, or one is not a call that runs.
bool worst_check(void);

// Times the library on them and prints them from the worst down, against the times of W2 whole and
// of the empty call. Call it after the check.
void worst_print(double whole, double empty);

// Writes the three worst into a folder, their names after `X_`; false where that fails. Call it
// after they were printed.
bool worst_keep(const char *folder);

#endif
