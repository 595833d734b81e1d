// Libraries through standard input and output. The first line says what to do; what follows it is
// the file as it is or, to write one, numbers.
#include "library_text.h"

#include "call.h"

#include <inttypes.h>
#include <string.h>

// A text taken apart.
typedef struct {
    uint32_t command;
    uint32_t identifier;
    Bytes rest;    // after the first line; it points into the text
    Words entries; // to be written
    Words words;
} LibraryText;

// Adds the numbers of a line at the place, which goes on after it; false where there is no newline
// after digits and blanks.
static bool take_line(const Bytes *text, size_t *place, Words *numbers) {
    const char *from = text->at + *place;
    const char *end = *place < text->count ? memchr(from, '\n', text->count - *place) : NULL;
    if (end == NULL || !parse_numbers(from, (size_t)(end - from), numbers)) {
        return false;
    }
    *place += (size_t)(end - from) + 1;
    return true;
}

// The command and the identifier, parted by blanks; a newline stands right after the second.
static bool take_head(const Bytes *text, LibraryText *taken) {
    size_t place = 0;
    Words numbers = {0};
    bool good = true;
    while (good && numbers.count < 2) {
        good = take_line(text, &place, &numbers);
    }
    good = good && numbers.count == 2 && text->at[place - 2] != ' ';
    if (good) {
        taken->command = numbers.at[0];
        taken->identifier = numbers.at[1];
        taken->rest = (Bytes){text->at + place, text->count - place, 0};
    }
    words_free(&numbers);
    return good;
}

// Two counts, so many entry words and so many words; no number may be missing or left over.
static bool take_library(LibraryText *taken) {
    Words numbers = {0};
    bool good = parse_numbers(taken->rest.at, taken->rest.count, &numbers) && numbers.count >= 2 &&
                numbers.at[0] <= MOST_ENTRY_WORDS && numbers.at[1] <= MOST_TYPED_WORDS &&
                numbers.count == 2 + (size_t)numbers.at[0] + numbers.at[1];
    if (good) {
        words_add_all(&taken->entries, numbers.at + 2, numbers.at[0]);
        words_add_all(&taken->words, numbers.at + 2 + numbers.at[0], numbers.at[1]);
    }
    words_free(&numbers);
    return good;
}

static bool take_text(const Bytes *text, LibraryText *taken) {
    bool good = text->count < LIBRARY_TEXT_END && take_head(text, taken) &&
                COMMAND_LIST <= taken->command && taken->command <= COMMAND_WRITE;
    return good && (taken->command != COMMAND_WRITE || take_library(taken));
}

// Prints what was read, which is consumed.
static void answer_reading(Reading reading) {
    printf("answer %" PRIu32 " words %" PRIu32 "\n", reading.number, reading.told);
    if (reading.number == 0) {
        words_print(&reading.result, stdout);
        putchar('\n');
    }
    words_free(&reading.result);
}

static void answer_check(const Bytes *file) {
    Index index = {.count = 0};
    uint32_t number = index_read(file, &index);
    printf("answer %" PRIu32 "\n", number);
    for (size_t place = 0; number == 0 && place < index.count; place++) {
        const Entry *entry = &index.entries[place];
        for (uint32_t block = 0; block < blocks_of(entry->words); block++) {
            if (is_damaged(file, entry, block)) {
                printf("block %" PRIu32 " costs %" PRIu32 "\n", entry->first + block,
                       entry->identifier);
            }
        }
    }
}

static void answer_writing(const LibraryText *taken) {
    Writing writing = library_write(&taken->entries, &taken->words, SIZE_MAX);
    printf(writing.number == 0 ? "answer %" PRIu32 " bytes %" PRIu32 "\n" : "answer %" PRIu32 "\n",
           writing.number, writing.told);
    if (writing.number == 0) {
        fwrite(writing.file.at, 1, writing.file.count, stdout);
    }
    bytes_free(&writing.file);
}

static void answer_text(const LibraryText *taken) {
    const Bytes *file = &taken->rest;
    switch (taken->command) {
    case COMMAND_LIST:
        answer_reading(library_list(file, SIZE_MAX));
        break;
    case COMMAND_READ:
        answer_reading(library_read(file, taken->identifier, SIZE_MAX));
        break;
    case COMMAND_CHECK:
        answer_check(file);
        break;
    default:
        answer_writing(taken);
    }
}

// Standard input is read to its end, but no more is kept than shows that a text is too long.
int run_library(void) {
    static char text[LIBRARY_TEXT_END];
    LibraryText taken = {0};
    Bytes read = {text, fread(text, 1, sizeof text, stdin), 0};
    while (getchar() != EOF) {
    }
    if (take_text(&read, &taken)) {
        answer_text(&taken);
    } else {
        puts("bad input");
    }
    words_free(&taken.entries);
    words_free(&taken.words);
    return 0;
}
