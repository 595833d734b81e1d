// Random libraries, and those that the writer has to refuse.
#include "library_shapes.h"

#include "shapes.h"

enum { USUAL_WORDS = 200, MOST_ASKED = 61 };

void library_free(Library *library) {
    words_free(&library->entries);
    words_free(&library->words);
}

// A description of an exact length: one that fills blocks, or has a word more or less.
static Description description_of_length(Random *random) {
    static const uint32_t usual[] = {125, 126, 127, 252, 253};
    static const uint32_t rare[] = {1008, 1009, 1023, 1024};
    uint32_t length =
        random_one_in(random, 8) ? rare[random_below(random, 4)] : usual[random_below(random, 5)];
    return random_of_length(random, length);
}

static Words short_words(Random *random) {
    static const Size size = {4, 2, 3, 2};
    Words words = {.count = USUAL_WORDS};
    while (words.count >= USUAL_WORDS) {
        words_free(&words);
        Description description = random_description(random, random_vocabulary(random), size);
        description_write(&description, &words);
        description_free(&description);
    }
    return words;
}

static Words long_words(Random *random) {
    Words words = {0};
    Description description = description_of_length(random);
    description_write(&description, &words);
    description_free(&description);
    return words;
}

static void library_add(Library *library, uint32_t identifier, const Words *words) {
    words_add(&library->entries, identifier);
    words_add(&library->entries, (uint32_t)words->count);
    words_add_all(&library->words, words->at, words->count);
}

static void add_random(Random *random, Library *library, uint32_t identifier) {
    Words words = random_one_in(random, 8) ? long_words(random) : short_words(random);
    library_add(library, identifier, &words);
    words_free(&words);
}

// So many descriptions that say nothing.
static void add_smallest(Random *random, Library *library, uint32_t count) {
    static uint32_t nothing[] = {1, 0, 0};
    Words words = {nothing, 3, 3};
    uint32_t identifier = random_below(random, 1000);
    for (uint32_t index = 0; index < count; index++) {
        library_add(library, identifier, &words);
        identifier += 1 + random_below(random, 900);
    }
}

// The last identifier now and then is the greatest.
Library random_library(Random *random) {
    Library library = {0};
    if (random_one_in(random, 25)) {
        add_smallest(random, &library, MOST_ENTRIES - random_below(random, 2));
        return library;
    }
    uint32_t count = random_below(random, 5);
    uint32_t identifier = random_one_in(random, 3) ? 0 : random_below(random, 60000);
    for (uint32_t index = 0; index < count; index++) {
        bool last = index + 1 == count && random_one_in(random, 6);
        add_random(random, &library, last ? IDENTIFIER_END - 1 : identifier);
        identifier += 1 + (random_one_in(random, 2) ? 0 : random_below(random, 1000));
    }
    return library;
}

// The entry word at a place: another.
static void change_entry(Library *library, size_t place, uint32_t word) {
    if (place < library->entries.count) {
        library->entries.at[place] = word;
    }
}

// A random place of an entry's identifier; that of its number of words is the next.
static size_t random_entry(Random *random, const Library *library) {
    size_t count = library->entries.count / 2;
    return count == 0 ? 0 : 2 * (size_t)random_below(random, (uint32_t)count);
}

static void spoil_identifier(Random *random, Library *library) {
    static const uint32_t too_great[] = {65536, 65537, 131072, UINT32_MAX};
    size_t place = random_entry(random, library);
    bool great = place == 0 || random_one_in(random, 2);
    uint32_t before = great ? 0 : library->entries.at[place - 2];
    uint32_t fallen = before - (before > 0 && random_one_in(random, 2));
    change_entry(library, place, great ? too_great[random_below(random, 4)] : fallen);
}

static void spoil_count(Random *random, Library *library) {
    static const uint32_t counts[] = {0, 1, 2, 1024, 1025, 1026, 65539, UINT32_MAX};
    size_t place = random_entry(random, library) + 1;
    change_entry(library, place, counts[random_below(random, 8)]);
}

static void spoil_word(Random *random, Library *library) {
    if (library->words.count > 0) {
        uint32_t place = random_below(random, (uint32_t)library->words.count);
        library->words.at[place] ^= 1u << random_below(random, 32);
    }
}

static void cut_words(Random *random, Library *library) {
    if (library->words.count > 0) {
        library->words.count -= 1 + random_below(random, (uint32_t)library->words.count);
    }
}

// Half an entry goes, or a whole one.
static void cut_entries(Random *random, Library *library) {
    size_t count = library->entries.count;
    library->entries.count -= (count > 0) + (count > 1 && random_one_in(random, 2));
}

static void add_surplus(Random *random, Library *library) {
    words_add(&library->words, random_below(random, 5));
}

// More entries than an index has, or as many and half a one.
static void fill_up(Random *random, Library *library) {
    library_free(library);
    add_smallest(random, library, MOST_ASKED);
    library->entries.count -= random_one_in(random, 3);
}

Library random_asked(Random *random) {
    static void (*const ways[])(Random *, Library *) = {
        spoil_identifier, spoil_identifier, spoil_count, spoil_word,
        cut_words,        cut_entries,      add_surplus, fill_up};
    Library library = random_library(random);
    uint32_t times = random_below(random, 3);
    for (uint32_t time = 0; time < times; time++) {
        ways[random_below(random, sizeof ways / sizeof *ways)](random, &library);
    }
    return library;
}

uint32_t random_identifier(Random *random, const Bytes *file) {
    size_t entries = file->count < BLOCK_BYTES ? 0 : number_at(file, 0, 2);
    if (entries == 0 || random_one_in(random, 12)) {
        return random_one_in(random, 3) ? UINT32_MAX : random_below(random, IDENTIFIER_END);
    }
    size_t most = entries < MOST_ENTRIES ? entries : MOST_ENTRIES;
    uint32_t entry = random_below(random, (uint32_t)most);
    uint32_t identifier = number_at(file, 2 + 8 * (size_t)entry, 2);
    if (random_one_in(random, 10)) {
        return identifier + (random_one_in(random, 2) ? 1 : IDENTIFIER_END);
    }
    return identifier;
}
