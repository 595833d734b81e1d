// Drawing curves over logarithmic axes: words along, time a call upwards.
#include "picture.h"

#include <stdio.h>
#include <stdlib.h>

enum {
    WIDTH = 820,
    HEIGHT = 540,
    LEFT = 90,
    RIGHT = 610,
    TOP = 70,
    BOTTOM = 450,
    LABEL_STEP = 18,
    MOST_CURVES = 8
};

static const double LEAST_WORDS = 200;
static const double MOST_WORDS = 2500;

// The drawing under way; the times go from one power of ten to another.
typedef struct {
    FILE *file;
    int lowest;
    int highest;
} Drawing;

static double power_of_ten(int exponent) {
    double power = 1;
    for (; exponent > 0; exponent--) {
        power *= 10;
    }
    return power;
}

// The logarithm to the base ten of a number that is at least 1: squaring it doubles the logarithm,
// so each squaring gives another binary digit. This saves linking a library of mathematics.
static double logarithm(double number) {
    double sum = 0;
    double digit = 1;
    for (; number >= 10; number /= 10) {
        sum += 1;
    }
    for (int count = 0; count < 40; count++) {
        number *= number;
        digit /= 2;
        if (number >= 10) {
            number /= 10;
            sum += digit;
        }
    }
    return sum;
}

static double lesser(double one, double other) {
    return one < other ? one : other;
}

static double greater(double one, double other) {
    return one > other ? one : other;
}

static double across(double words) {
    double share = logarithm(words / LEAST_WORDS) / logarithm(MOST_WORDS / LEAST_WORDS);
    return LEFT + share * (RIGHT - LEFT);
}

static double up(const Drawing *drawing, double time) {
    double share = (logarithm(time) - drawing->lowest) / (drawing->highest - drawing->lowest);
    return BOTTOM - share * (BOTTOM - TOP);
}

static void find_range(Drawing *drawing, const Curve *curves, size_t count) {
    double least = 1e300;
    double most = 1;
    for (size_t curve = 0; curve < count; curve++) {
        for (size_t point = 0; point < curves[curve].point_count; point++) {
            least = lesser(least, curves[curve].time[point]);
            most = greater(most, curves[curve].time[point]);
        }
    }
    drawing->lowest = (int)logarithm(least);
    drawing->highest = (int)logarithm(most) + 1;
}

static void draw_line(const Drawing *drawing, double x1, double y1, double x2, double y2,
                      const char *style) {
    fprintf(drawing->file, "<line x1=\"%.1f\" y1=\"%.1f\" x2=\"%.1f\" y2=\"%.1f\" %s/>\n", x1, y1,
            x2, y2, style);
}

static void draw_text(const Drawing *drawing, double x, double y, const char *style,
                      const char *text) {
    fprintf(drawing->file, "<text x=\"%.1f\" y=\"%.1f\" %s>%s</text>\n", x, y, style, text);
}

static const char *const GRID = "stroke=\"#d8d8d8\"";
static const char *const SLOPE = "stroke=\"#a0a0a0\" stroke-dasharray=\"1 4\"";

// The ticks of the words, and a line upwards from each.
static void draw_words_axis(const Drawing *drawing) {
    static const int ticks[] = {250, 500, 1000, 2000};
    static const char *const names[] = {"250", "500", "1,000", "2,000"};
    for (size_t tick = 0; tick < sizeof ticks / sizeof *ticks; tick++) {
        double x = across(ticks[tick]);
        draw_line(drawing, x, TOP, x, BOTTOM, GRID);
        draw_text(drawing, x, BOTTOM + 20, "text-anchor=\"middle\"", names[tick]);
    }
    draw_text(drawing, (LEFT + RIGHT) / 2.0, BOTTOM + 44, "text-anchor=\"middle\"",
              "words of both inputs");
}

// A power of ten of nanoseconds, in the unit that suits it.
static void name_time(int power, char *name, size_t room) {
    static const char *const units[] = {"ns", "µs", "ms", "s"};
    int unit = power / 3 < 3 ? power / 3 : 3;
    snprintf(name, room, "%.0f %s", power_of_ten(power - 3 * unit), units[unit]);
}

// The powers of ten of the time, a line across from each, and a slanted one along which the time
// is proportional to the words.
static void draw_time_axis(const Drawing *drawing) {
    for (int power = drawing->lowest; power <= drawing->highest; power++) {
        char name[32];
        double time = power_of_ten(power);
        name_time(power, name, sizeof name);
        draw_line(drawing, LEFT, up(drawing, time), RIGHT, up(drawing, time), GRID);
        draw_text(drawing, LEFT - 10, up(drawing, time) + 5, "text-anchor=\"end\"", name);
        double reach = lesser(MOST_WORDS, LEAST_WORDS * power_of_ten(drawing->highest - power));
        draw_line(drawing, LEFT, up(drawing, time), across(reach),
                  up(drawing, time * reach / LEAST_WORDS), SLOPE);
    }
    fprintf(drawing->file,
            "<text transform=\"translate(24 %d) rotate(-90)\" text-anchor=\"middle\">"
            "time a call</text>\n",
            (TOP + BOTTOM) / 2);
}

static void draw_curve(const Drawing *drawing, const Curve *curve) {
    fprintf(drawing->file, "<polyline fill=\"none\" stroke=\"%s\" stroke-width=\"2\"%s points=\"",
            curve->colour, curve->dashed ? " stroke-dasharray=\"7 4\"" : "");
    for (size_t point = 0; point < curve->point_count; point++) {
        fprintf(drawing->file, " %.1f,%.1f", across(curve->words[point]),
                up(drawing, curve->time[point]));
    }
    fputs("\"/>\n", drawing->file);
    for (size_t point = 0; point < curve->point_count; point++) {
        fprintf(drawing->file, "<circle cx=\"%.1f\" cy=\"%.1f\" r=\"4\" fill=\"%s\"/>\n",
                across(curve->words[point]), up(drawing, curve->time[point]), curve->colour);
    }
}

static double last_time(const Curve *curve) {
    return curve->time[curve->point_count - 1];
}

static int by_falling_end(const void *left, const void *right) {
    double first = last_time(*(const Curve *const *)left);
    double second = last_time(*(const Curve *const *)right);
    return first > second ? -1 : first < second;
}

// A label beside the end of each curve, lower where the one above would be in its way.
static void draw_labels(const Drawing *drawing, const Curve *curves, size_t count) {
    const Curve *sorted[MOST_CURVES];
    double least = TOP;
    for (size_t curve = 0; curve < count; curve++) {
        sorted[curve] = &curves[curve];
    }
    qsort(sorted, count, sizeof *sorted, by_falling_end);
    for (size_t curve = 0; curve < count; curve++) {
        char style[32];
        double y = greater(least, up(drawing, last_time(sorted[curve])) + 5);
        snprintf(style, sizeof style, "fill=\"%s\"", sorted[curve]->colour);
        draw_text(drawing, RIGHT + 10, y, style, sorted[curve]->label);
        least = y + LABEL_STEP;
    }
}

static void draw_all(const Drawing *drawing, const Curve *curves, size_t count, const char *note) {
    fprintf(drawing->file,
            "<svg xmlns=\"http://www.w3.org/2000/svg\" viewBox=\"0 0 %d %d\" width=\"%d\" "
            "height=\"%d\" font-family=\"sans-serif\" font-size=\"14\" fill=\"#222222\">\n"
            "<rect width=\"%d\" height=\"%d\" fill=\"#ffffff\"/>\n",
            WIDTH, HEIGHT, WIDTH, HEIGHT, WIDTH, HEIGHT);
    draw_text(drawing, LEFT, 32, "font-size=\"18\"", "How the time of a call grows with its words");
    draw_text(drawing, LEFT, 54, "fill=\"#666666\"",
              "both axes logarithmic; along a dotted line the time is proportional to the words");
    draw_words_axis(drawing);
    draw_time_axis(drawing);
    for (size_t curve = 0; curve < count; curve++) {
        draw_curve(drawing, &curves[curve]);
    }
    draw_labels(drawing, curves, count);
    draw_text(drawing, LEFT, HEIGHT - 16, "fill=\"#666666\"", note);
    fputs("</svg>\n", drawing->file);
}

bool picture_write(const char *path, const Curve *curves, size_t curve_count, const char *note) {
    Drawing drawing = {.file = fopen(path, "w")};
    if (drawing.file == NULL || curve_count > MOST_CURVES) {
        return false;
    }
    find_range(&drawing, curves, curve_count);
    draw_all(&drawing, curves, curve_count, note);
    return fclose(drawing.file) == 0;
}
