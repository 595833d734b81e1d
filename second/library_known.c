// Known libraries: the bytes of small files, every kind of damage with its refusal, and each byte changed in turn.
#include "check.h"

#include "known.h"
#include "library_shapes.h"

#include <inttypes.h>
#include <stdio.h>
#include <string.h>

// The library of the cases: N as 7 in block 1 and A as 9 in block 2; room for both.
#define ENTRIES "7 3 9 6 "
enum { BLOCKS = 3, ROOM = 6 };

// All bytes of its file but zeros, each after its place; worked out by hand.
static const char file_bytes[] =
    "0 2  2 7  4 1  6 3  10 9  12 2  14 6  508 30  510 158  511 58  "
    "512 1  1018 1  1020 2  1022 254  1023 1  "
    "1024 2  1028 1  1032 1  1036 1  1040 10  1042 1  1530 2  1532 18  "
    "1534 250  1535 30 ";

typedef struct {
    const char *name;
    const char *bytes;  // that are changed, each after its place
    const char *sealed; // blocks whose check is made anew after that, each before its number
    uint32_t length;
    uint32_t list;
    uint32_t seven; // the number of reading it
    uint32_t nine;
} KnownDamage;

static const KnownDamage cases[] = {
    {"none", "", "", 1536, 0, 0, 0},
    {"all sealed again", "", "0 0 1 1 2 2", 1536, 0, 0, 0},
    {"no bytes", "", "", 0, 40, 40, 40},
    {"a byte", "", "", 1, 40, 40, 40},
    {"a byte short", "", "", 1535, 40, 40, 40},
    {"a byte more", "", "", 1537, 40, 40, 40},
    {"40 before 41", "0 9", "", 1025, 40, 40, 40},
    {"a block short", "", "", 1024, 42, 42, 42},
    {"a block more", "", "", 2048, 42, 42, 42},
    {"index alone", "", "", 512, 42, 42, 42},
    {"first sum of block 0", "508 31", "", 1536, 41, 41, 41},
    {"second sum of block 0", "511 59", "", 1536, 41, 41, 41},
    {"number of block 0", "", "0 1", 1536, 41, 41, 41},
    {"unused content of block 0", "18 1", "0 0", 1536, 41, 41, 41},
    {"last content of block 0", "505 1", "0 0", 1536, 41, 41, 41},
    {"41 before 42", "2 10", "", 1536, 41, 41, 41},
    {"count 1, the entry is unused", "0 1", "0 0", 1536, 41, 41, 41},
    {"count 0", "0 0", "0 0", 1536, 41, 41, 41},
    {"count 3, an entry of zeros", "0 3", "0 0", 1536, 42, 42, 42},
    {"count 60", "0 60", "0 0", 1536, 42, 42, 42},
    {"count 61", "0 61", "0 0", 1536, 42, 42, 42},
    {"count 61, nothing is unused", "0 61 505 1", "0 0", 1536, 42, 42, 42},
    {"count 61, number wrong", "0 61", "0 1", 1536, 41, 41, 41},
    {"count 258", "1 1", "0 0", 1536, 42, 42, 42},
    {"identifiers equal", "10 7", "0 0", 1536, 42, 42, 42},
    {"identifiers fall", "10 6", "0 0", 1536, 42, 42, 42},
    {"identifiers 65,535 and 9", "2 255 3 255", "0 0", 1536, 42, 42, 42},
    {"other identifiers", "2 0 10 255 11 255", "0 0", 1536, 0, 43, 43},
    {"first block 0", "4 0", "0 0", 1536, 42, 42, 42},
    {"first block 2", "4 2", "0 0", 1536, 42, 42, 42},
    {"first blocks equal", "12 1", "0 0", 1536, 42, 42, 42},
    {"first blocks exchanged", "4 2 12 1", "0 0", 1536, 42, 42, 42},
    {"a block left out", "12 3", "0 0", 2048, 42, 42, 42},
    {"2 words", "6 2", "0 0", 1536, 42, 42, 42},
    {"no words", "6 0", "0 0", 1536, 42, 42, 42},
    {"1,025 words", "14 1 15 4", "0 0", 5632, 42, 42, 42},
    {"1,024 words, blocks missing", "14 0 15 4", "0 0", 1536, 42, 42, 42},
    {"1,024 words, blocks of zeros", "14 0 15 4", "0 0", 5632, 0, 0, 44},
    {"126 words, most of them zero", "14 126", "0 0", 1536, 0, 0, 45},
    {"127 words", "14 127", "0 0", 1536, 42, 42, 42},
    {"fourth number 1", "8 1", "0 0", 1536, 42, 42, 42},
    {"fourth number 256", "17 1", "0 0", 1536, 42, 42, 42},
    {"a word fewer, which is zero", "14 5", "0 0", 1536, 0, 0, 45},
    {"a word more, which is zero", "14 7", "0 0", 1536, 0, 0, 45},
    {"two words fewer", "14 4", "0 0", 1536, 0, 0, 44},
    {"first sum of block 1", "1020 3", "", 1536, 0, 44, 0},
    {"second sum of block 2", "1535 31", "", 1536, 0, 0, 44},
    {"number of block 1", "", "1 2", 1536, 0, 44, 0},
    {"number of block 2", "", "2 0", 1536, 0, 0, 44},
    {"both numbers", "", "1 2 2 1", 1536, 0, 44, 44},
    {"a word of block 1", "512 0", "", 1536, 0, 44, 0},
    {"a word of block 1, sealed", "512 0", "1 1", 1536, 0, 45, 0},
    {"a word of block 2, sealed", "1040 11", "2 2", 1536, 0, 0, 0},
    {"a bad word of block 2, sealed", "1043 1", "2 2", 1536, 0, 0, 45},
    {"unused content of block 1", "524 1", "1 1", 1536, 0, 44, 0},
    {"last content of block 1", "1017 1", "1 1", 1536, 0, 44, 0},
    {"44 before 45", "512 0 524 1", "1 1", 1536, 0, 44, 0},
    {"block 0 and block 1", "2 8 524 1", "1 1", 1536, 41, 41, 41},
};

enum { CASES = sizeof cases / sizeof *cases };

static Bytes zeros(size_t count) {
    Bytes bytes = {0};
    while (bytes.count < count) {
        bytes_add(&bytes, 0);
    }
    return bytes;
}

// Puts bytes to their places; those behind the end are left out.
static void put_bytes(Bytes *file, const char *text) {
    Words words = words_from(text);
    for (size_t index = 0; index < words.count; index += 2) {
        if (words.at[index] < file->count) {
            file->at[words.at[index]] = (char)words.at[index + 1];
        }
    }
    words_free(&words);
}

static Bytes known_file(uint32_t length) {
    Bytes file = zeros(length);
    put_bytes(&file, file_bytes);
    return file;
}

static Writing write_from(const char *entries, const char *words, size_t room) {
    Words entry_words = words_from(entries);
    Words description_words = words_from(words);
    Writing writing = library_write(&entry_words, &description_words, room);
    words_free(&entry_words);
    words_free(&description_words);
    return writing;
}

static uint32_t read_number(const Bytes *file, uint32_t identifier, size_t room) {
    Reading reading = library_read(file, identifier, room);
    words_free(&reading.result);
    return reading.number;
}

static uint32_t list_number(const Bytes *file, size_t room) {
    Reading list = library_list(file, room);
    words_free(&list.result);
    return list.number;
}

static bool numbers_are(const Bytes *file, uint32_t list, uint32_t seven, uint32_t nine) {
    return list_number(file, ROOM) == list && read_number(file, 7, ROOM) == seven &&
           read_number(file, 9, ROOM) == nine;
}

static bool known_holds(const KnownDamage *known) {
    Bytes file = known_file(known->length);
    Words sealed = words_from(known->sealed);
    put_bytes(&file, known->bytes);
    for (size_t index = 0; index < sealed.count; index += 2) {
        block_seal(&file, sealed.at[index], sealed.at[index + 1]);
    }
    bool same = numbers_are(&file, known->list, known->seven, known->nine);
    if (!same) {
        printf("known damage %s: list %" PRIu32 " read %" PRIu32 " and %" PRIu32 "\n", known->name,
               list_number(&file, ROOM), read_number(&file, 7, ROOM), read_number(&file, 9, ROOM));
    }
    words_free(&sealed);
    bytes_free(&file);
    return same;
}

// Each byte changed in turn, in its lowest bit, in its highest and in all.
static bool each_byte_holds(void) {
    static const int changes[] = {1, 128, 255};
    static const uint32_t numbers[BLOCKS][3] = {{41, 41, 41}, {0, 44, 0}, {0, 0, 44}};
    bool all = true;
    for (size_t turn = 0; turn < 3 * BLOCKS * BLOCK_BYTES; turn++) {
        Bytes file = known_file(BLOCKS * BLOCK_BYTES);
        size_t place = turn / 3;
        const uint32_t *expected = numbers[place / BLOCK_BYTES];
        file.at[place] = (char)(file.at[place] ^ changes[turn % 3]);
        if (!numbers_are(&file, expected[0], expected[1], expected[2])) {
            printf("known library with byte %zu changed differs\n", place);
            all = false;
        }
        bytes_free(&file);
    }
    return all;
}

typedef struct {
    const char *name;
    const char *entries;
    const char *words;
    uint32_t room;
    uint32_t number;
    uint32_t told;
} KnownWriting;

static const KnownWriting writings[] = {
    {"no entries", "", "", 512, 0, 512},
    {"no entries, surplus words", "", "1 2 3", 512, 0, 512},
    {"no entries, no room", "", "", 511, 46, 512},
    {"no entries, no bytes", "", "", 0, 46, 512},
    {"two", ENTRIES, N A, 1536, 0, 1536},
    {"two, surplus words", ENTRIES, N A "5", 2000, 0, 1536},
    {"two, a byte short", ENTRIES, N A, 1535, 46, 1536},
    {"least and greatest identifier", "0 3 65535 3", N N, 1536, 0, 1536},
    {"half an entry", "7", N, 1536, 47, 0},
    {"an entry and a half", "7 3 9", N A, 1536, 47, 0},
    {"equal", "7 3 7 6", N A, 1536, 47, 0},
    {"falling", "9 3 7 6", N A, 1536, 47, 0},
    {"65,536", "65536 3", N, 1536, 47, 0},
    {"65,543 is not 7", "9 3 65543 3", N N, 1536, 47, 0},
    {"1,025 words", "7 1025", N, 1536, 47, 0},
    {"1,024 words that are not there", "7 1024", N, 1536, 45, 0},
    {"most words", "7 4294967295", N, 1536, 47, 0},
    {"47 before 45", "7 3 7 3", "0 0 0 0 0 0", 0, 47, 0},
    {"45 before 46", "7 3", "0 0 0", 0, 45, 0},
    {"no words", "7 0", N, 1536, 45, 0},
    {"two words", "7 2", N, 1536, 45, 0},
    {"a word fewer", "7 5 9 3", A N, 1536, 45, 0},
    {"a word more", "7 4 9 3", N A, 1536, 45, 0},
    {"cut short", ENTRIES, N "2 1 1 1 65546", 1536, 45, 0},
    {"no words at all", ENTRIES, "", 1536, 45, 0},
    {"the second malformed", "7 3 9 3", N "1 131072 0", 1536, 45, 0},
};

enum { WRITINGS = sizeof writings / sizeof *writings };

static bool writing_holds(const KnownWriting *known) {
    Writing writing = write_from(known->entries, known->words, known->room);
    bool same = writing.number == known->number && writing.told == known->told &&
                writing.file.count == (known->number == 0 ? known->told : 0);
    if (!same) {
        printf("known writing %s: number %" PRIu32 " told %" PRIu32 "\n", known->name,
               writing.number, writing.told);
    }
    bytes_free(&writing.file);
    return same;
}

static bool same_bytes(const Bytes *left, const Bytes *right) {
    return left->count == right->count && memcmp(left->at, right->at, left->count) == 0;
}

// The bytes of the known files, and what is read and told with other rooms and identifiers.
static bool files_hold(void) {
    Bytes known = known_file(BLOCKS * BLOCK_BYTES);
    Bytes none = zeros(BLOCK_BYTES);
    Writing written = write_from(ENTRIES, N A, SIZE_MAX);
    Writing empty = write_from("", "", SIZE_MAX);
    bool same = same_bytes(&known, &written.file) && same_bytes(&none, &empty.file);
    same &= list_number(&none, 0) == 0 && read_number(&none, 0, 0) == 43;
    same &= read_number(&known, 8, 0) == 43 && read_number(&known, 7 + 65536, ROOM) == 43;
    same &= read_number(&known, 9, 5) == 46 && read_number(&known, 7, 3) == 0;
    same &= list_number(&known, 3) == 46 && list_number(&known, 4) == 0;
    // a sum of 0 is never told as 65,535
    put_bytes(&none, "508 255 509 255");
    same &= list_number(&none, 0) == 41;
    if (!same) {
        puts("known files differ");
    }
    bytes_free(&known);
    bytes_free(&none);
    bytes_free(&written.file);
    bytes_free(&empty.file);
    return same;
}

// So many descriptions that say nothing, each in a block of its own.
static bool many_hold(uint32_t count, uint32_t number) {
    Library library = {0};
    for (uint32_t index = 0; index < count; index++) {
        words_add(&library.entries, index);
        words_add(&library.entries, 3);
        words_add(&library.words, 1);
        words_add(&library.words, 0);
        words_add(&library.words, 0);
    }
    Writing writing = library_write(&library.entries, &library.words, SIZE_MAX);
    bool same = writing.number == number && writing.told == (number == 0 ? 512 * (count + 1) : 0);
    same &= number != 0 || read_number(&writing.file, count - 1, 3) == 0;
    if (!same) {
        printf("known library of %" PRIu32 " differs\n", count);
    }
    bytes_free(&writing.file);
    library_free(&library);
    return same;
}

int run_known_libraries(void) {
    bool all = files_hold() & each_byte_holds();
    for (size_t index = 0; index < CASES; index++) {
        all &= known_holds(&cases[index]);
    }
    for (size_t index = 0; index < WRITINGS; index++) {
        all &= writing_holds(&writings[index]);
    }
    all &= many_hold(59, 0) & many_hold(60, 0) & many_hold(61, 47);
    printf("known: %d damaged libraries, %d that are written, each byte of one in turn: %s\n",
           (int)CASES, (int)WRITINGS, all ? "as request Eight says" : "DIFFERENT");
    return all ? 0 : 1;
}
