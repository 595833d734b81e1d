// Lending areas and a report, and looking at what has become of them.
#include "lent.h"

uint32_t word_before(size_t place) {
    return (uint32_t)(place % 4093) * 1048573 + 1;
}

static Words area_before(size_t count) {
    Words area = {zeroed(count, sizeof(uint32_t)), count, count};
    for (size_t place = 0; place < count; place++) {
        area.at[place] = word_before(place);
    }
    return area;
}

Lent lent_before(size_t result_room, size_t working_room) {
    Lent lent = {area_before(result_room), area_before(working_room), {0}};
    Report *report = &lent.report;
    report->run = word_before(0);
    report->good = word_before(1);
    report->first = word_before(2);
    for (uint32_t cell = 0; cell < MODES * NUMBERS; cell++) {
        report->counts[cell / NUMBERS][cell % NUMBERS] = word_before(cell);
    }
    return lent;
}

void lent_free(Lent *lent) {
    words_free(&lent->result);
    words_free(&lent->working);
}

size_t words_changed(const Words *area) {
    size_t count = area->count;
    while (count > 0 && area->at[count - 1] == word_before(count - 1)) {
        count--;
    }
    return count;
}

bool is_cleared(const Words *working) {
    bool cleared = words_changed(working) == WORKING_NEEDED;
    for (size_t place = 0; cleared && place < WORKING_NEEDED; place++) {
        cleared = working->at[place] == 0;
    }
    return cleared;
}

Words report_words(const Report *report) {
    Words words = {0};
    words_add(&words, report->run);
    words_add(&words, report->good);
    words_add(&words, report->first);
    for (uint32_t cell = 0; cell < MODES * NUMBERS; cell++) {
        words_add(&words, report->counts[cell / NUMBERS][cell % NUMBERS]);
    }
    return words;
}
