// The picture of the scaling, as SVG.
#ifndef PICTURE_H
#define PICTURE_H

#include <stdbool.h>
#include <stddef.h>

enum { MOST_POINTS = 8 };

typedef struct {
    const char *label;
    const char *colour;
    bool dashed;
    size_t point_count;
    double words[MOST_POINTS]; // rising
    double time[MOST_POINTS];  // nanoseconds
} Curve;

// Draws curves over logarithmic axes, with a note under them; false where the file cannot be
// written.
bool picture_write(const char *path, const Curve *curves, size_t curve_count, const char *note);

#endif
