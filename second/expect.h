// What modes 0 and 2 must deliver, word for word, worked out from plain enumeration.
#ifndef EXPECT_H
#define EXPECT_H

#include "brute.h"

// The joined description of two inputs; false when their definite graphs clash.
bool expect_joined(Sheet *sheet, const Words *first, const Words *second, Words *expected);

// The joined description with every alternative dropped that no list of graphs in `consistent`
// holds, and with single alternatives folded. The lists point into the words of `joined`.
Words expect_full(Sheet *sheet, const Words *joined, const Picks *consistent);

#endif
