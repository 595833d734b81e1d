// The rules of request Eight as they stand there: bytes one by one, sums as they run, numbers of an index entry in their
// order.
#include "library_rules.h"

#include "causes.h"

#include <stddef.h>

static uint32_t byte_at(const Bytes *file, size_t place) {
    return (unsigned char)file->at[place];
}

static uint32_t pair_at(const Bytes *file, size_t place) {
    return byte_at(file, place) + 256 * byte_at(file, place + 1);
}

// "first the sum of the bytes, then the sum of the first sum's values after each byte"
static bool check_is_wrong(const Bytes *file, size_t start) {
    uint32_t first = 0;
    uint32_t second = 0;
    for (size_t index = 0; index < 508; index++) {
        first = (first + byte_at(file, start + index)) % 65535;
        second = (second + first) % 65535;
    }
    return pair_at(file, start + 508) != first || pair_at(file, start + 510) != second;
}

// "damaged when its check or its number is wrong or its unused content isn't zero"
static bool block_damaged(const Bytes *file, uint32_t block, size_t used) {
    size_t start = (size_t)512 * block;
    bool damaged = check_is_wrong(file, start) || pair_at(file, start + 506) != block;
    for (size_t index = used; !damaged && index < 506; index++) {
        damaged = byte_at(file, start + index) != 0;
    }
    return damaged;
}

// "identifier (rising), first block, words (3 to 1,024), 0", "without gaps, up to the file's end"
static bool index_breaks_a_rule(const Bytes *file) {
    uint32_t count = pair_at(file, 0);
    uint32_t next = 1;
    for (uint32_t entry = 0; count <= 60 && entry < count; entry++) {
        size_t place = 2 + 8 * (size_t)entry;
        uint32_t words = pair_at(file, place + 4);
        if (entry > 0 && pair_at(file, place) <= pair_at(file, place - 8)) {
            return true;
        }
        if (pair_at(file, place + 2) != next || words < 3 || words > 1024) {
            return true;
        }
        if (pair_at(file, place + 6) != 0) {
            return true;
        }
        next += (words + 125) / 126;
    }
    return count > 60 || (size_t)512 * next != file->count;
}

uint32_t rule_of_start(const Bytes *file) {
    if (file->count % 512 != 0 || file->count == 0) {
        return 40;
    }
    // "for a count over 60, none is unused"
    uint32_t count = pair_at(file, 0);
    if (block_damaged(file, 0, count > 60 ? 506 : 2 + 8 * count)) {
        return 41;
    }
    return index_breaks_a_rule(file) ? 42 : 0;
}

// 44 or 45 for so many words from a block on, or 0.
static uint32_t rule_of_words(const Bytes *file, uint32_t block, uint32_t count) {
    uint32_t words[1024];
    bool damaged = false;
    for (uint32_t index = 0; index < count; index++) {
        uint32_t left = count - index;
        uint32_t here = block + index / 126;
        size_t place = (size_t)512 * here + 4 * (index % 126);
        words[index] = pair_at(file, place) + 65536 * pair_at(file, place + 2);
        damaged |= index % 126 == 0 && block_damaged(file, here, 4 * (left < 126 ? left : 126));
    }
    if (damaged) {
        return 44;
    }
    return find_cause(words, count, NULL).cause == CAUSE_NONE ? 0 : 45;
}

uint32_t rule_of_read(const Bytes *file, uint32_t identifier) {
    uint32_t number = rule_of_start(file);
    if (number != 0) {
        return number;
    }
    for (size_t place = 2; place < 2 + 8 * (size_t)pair_at(file, 0); place += 8) {
        if (pair_at(file, place) == identifier) {
            return rule_of_words(file, pair_at(file, place + 2), pair_at(file, place + 4));
        }
    }
    return 43;
}

// "over 60, identifiers not rising or over 65,535, over 1,024 words", or half an entry
static bool entries_break_a_rule(const Words *entries) {
    bool broken = entries->count % 2 != 0 || entries->count / 2 > 60;
    for (size_t place = 0; !broken && place < entries->count; place += 2) {
        broken = entries->at[place] > 65535 || entries->at[place + 1] > 1024 ||
                 (place > 0 && entries->at[place] <= entries->at[place - 2]);
    }
    return broken;
}

uint32_t rule_of_write(const Words *entries, const Words *words) {
    size_t from = 0;
    if (entries_break_a_rule(entries)) {
        return 47;
    }
    for (size_t place = 1; place < entries->count; place += 2) {
        size_t count = entries->at[place];
        const uint32_t *start = words->at == NULL ? NULL : words->at + from;
        if (words->count - from < count || find_cause(start, count, NULL).cause != CAUSE_NONE) {
            return 45;
        }
        from += count;
    }
    return 0;
}
