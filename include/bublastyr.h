// Bublastyr: unification of disjunctive feature descriptions, the fit test, what is malformed in an input, formulas as
// they are printed, suites of tests, and libraries of descriptions in files. All are proved to answer exactly what the
// documents say, for every input and every size of the areas.
#ifndef BUBLASTYR_H
#define BUBLASTYR_H

#include <stddef.h>
#include <stdint.h>

#ifdef __cplusplus
extern "C" {
#endif

// The numbers that come back. Only 0 is a pass; 6, 10 and 11 are clashes, which say that the two do not agree, and
// every other number says that the call was refused and nothing was decided.
enum {
    BUBLASTYR_DONE = 0,       // unified, or the structure satisfies the description
    BUBLASTYR_BAD_MODE = 1,   // the mode is above 2
    BUBLASTYR_SMALL_AREA = 2, // the working area has fewer than 16,384 words
    BUBLASTYR_TOO_LONG = 3,   // an input has more than 1,024 words
    BUBLASTYR_BAD_FIRST = 4,  // the first input is malformed; in the fit test, the structure
    BUBLASTYR_BAD_SECOND = 5, // the second input is malformed; in the fit test, the description
    BUBLASTYR_CLASH = 6,      // the definite graphs clash; in the fit test, it does not satisfy
    BUBLASTYR_TOO_MANY = 7,   // mode 2: over 4,096 choices are left to search
    BUBLASTYR_NO_ROOM = 8,    // the result is longer than the result area
    BUBLASTYR_HAS_DISJUNCTIONS = 9, // the fit test's structure has disjunctions
    BUBLASTYR_QUICK_FAILS = 10,     // modes 1 and 2: the quick step failed
    BUBLASTYR_NO_CHOICE = 11,       // mode 2: no choice is consistent
};

// The numbers of bublastyr_formula beside BUBLASTYR_DONE. 22 says that no structure satisfies the formula, and
// every other number that nothing was decided.
enum {
    BUBLASTYR_BAD_TEXT = 20,      // the text is no formula's
    BUBLASTYR_TOO_DEEP = 21,      // over 4 disjunctions are nested in the text
    BUBLASTYR_FORMULA_CLASH = 22, // the formula's definite part clashes
    BUBLASTYR_LONG_FORMULA = 23,  // the description has more than 1,024 words
    BUBLASTYR_SHORT_RESULT = 24,  // the description is longer than the result area
    BUBLASTYR_LONG_TEXT = 25,     // the text has more than 4,096 bytes
};

// The numbers of bublastyr_suite beside BUBLASTYR_DONE: the table is refused, and no test of it is run.
enum {
    BUBLASTYR_MANY_TESTS = 30,   // the table has more than 64 records
    BUBLASTYR_BEYOND_WORDS = 31, // a record names words beyond the area
    BUBLASTYR_BAD_RECORD = 32,   // a record has a mode above 2, or expects a number above 11
};

// The numbers of bublastyr_library_write, bublastyr_library_read and bublastyr_library_list beside BUBLASTYR_DONE: nothing
// is written.
enum {
    BUBLASTYR_BAD_LENGTH = 40,      // the length of the file is 0 or no multiple of 512
    BUBLASTYR_BLOCK_0_DAMAGED = 41, // block 0 is damaged, which costs the file
    BUBLASTYR_BAD_INDEX = 42,       // the index breaks a rule
    BUBLASTYR_NO_IDENTIFIER = 43,   // the file has no description of that identifier
    BUBLASTYR_BLOCK_DAMAGED = 44,   // a block of the description is damaged, which costs it alone
    BUBLASTYR_MALFORMED = 45,       // the words are no description
    BUBLASTYR_SHORT_AREA = 46,      // what is to be written is longer than its area
    BUBLASTYR_BAD_ENTRIES = 47,     // the entries to be written break a rule
};

// The causes that bublastyr_malformed tells. The first word, in reading order, that breaks a rule by itself or with the
// words before it decides.
enum {
    BUBLASTYR_WORDS_END = 1,        // the words end before the description does
    BUBLASTYR_WORDS_LEFT_OVER = 2,  // a word stands after the description
    BUBLASTYR_NO_NODES = 3,         // a node count is 0
    BUBLASTYR_BAD_HEAD = 4,         // a head is over 131,071; told[1] is that head
    BUBLASTYR_BAD_FEATURE = 5,      // a feature is over 65,535, or not over the one before it
    BUBLASTYR_BAD_TARGET = 6,       // a target is out of turn; told[1] is that target
    BUBLASTYR_NODE_NOT_MET = 7,     // a head stands before an arc has led to its node
    BUBLASTYR_FEW_ALTERNATIVES = 8, // a disjunction has fewer than two alternatives
    BUBLASTYR_NESTED_TOO_DEEP = 9,  // an alternative at depth 4 has disjunctions
};

// The words that a working area must have.
#define BUBLASTYR_WORKING 16384

// The words that a result has at most. A result of over 1,024 words is refused with 3 when it comes in again.
#define BUBLASTYR_LONGEST_RESULT 2045

// Unifies two descriptions in mode 0 (join), 1 (quick) or 2 (full), and answers one of the numbers 0 to 8, 10 and 11.
// The checks run in the order 1, 2, 3, 4, 5, 6, 10, 7, 11, 8.
//
// told[0] is the length: the words written after 0, the words needed after 8, else 0.
// told[1] is the number of readings: after 0 in mode 2 the consistent choices, else 0.
// told[2] is the node: after 6 the smallest node whose class holds a clash, which is two different atoms or an atom and
// an arc, once all nodes that must be equal are in one class; else 0. The nodes of the first input's definite graph are
// counted first, from 0, and then those of the second's; nodes of alternatives are not counted. An input's first word is
// how many nodes its definite graph has: where told[2] is under first[0] it is that node of the first input, else node
// told[2] - first[0] of the second.
//
// The result area: only 0 writes to it, the first told[0] words; the rest stays, and so does all of it after
// any other number. The working area need not be cleared before a call: after 1 to 5 it is as it was, after
// 6, 7, 8, 10, 11 and 0 its first 16,384 words are zero and later ones are as they were.
//
// The areas, the inputs and told must not overlap. A pointer may be null where its length is 0.
uint32_t bublastyr_unify(uint32_t mode, const uint32_t *first, size_t first_len,
                         const uint32_t *second, size_t second_len, uint32_t *result,
                         size_t result_len, uint32_t *working, size_t working_len,
                         uint32_t told[3]);

// Unifies two descriptions in mode 2 by the plain engine, which expands what the quick step leaves to every choice and joins
// each. It answers and leaves, on every input, what bublastyr_unify does in mode 2, and takes longer: it is there to be
// compared with it.
uint32_t bublastyr_plain(const uint32_t *first, size_t first_len, const uint32_t *second,
                         size_t second_len, uint32_t *result, size_t result_len, uint32_t *working,
                         size_t working_len, uint32_t told[3]);

// Tells whether a structure, a description with no disjunctions, satisfies a description. Answers 3, 4, 5, 9,
// 0 or 6, checked in that order. Writes nothing. Here too a pointer may be null where its length is 0.
uint32_t bublastyr_fit(const uint32_t *structure, size_t structure_len, const uint32_t *description,
                       size_t description_len);

// Tells what is malformed in two inputs, and where. Answers 3, 4, 5 or 0, checked in that order: 3 where either has
// more than 1,024 words, 4 where the first is malformed, 5 where only the second is, 0 where neither is. It looks at no
// mode and no areas.
//
// told[0] is the cause after 4 and 5, one of the numbers 1 to 9; else 0.
// told[1] is the cause's own value: the head of BUBLASTYR_BAD_HEAD, the target of BUBLASTYR_BAD_TARGET; else 0.
// told[2] is after 4 and 5 the position, from 0, of the word that decides, in the input that is malformed: first +
// told[2] or second + told[2] is where the wrong part starts. After BUBLASTYR_WORDS_END it is the length of that input,
// and after 0 and 3 the length of the first.
//
// Writes told alone. The inputs and told must not overlap. A pointer may be null where its length is 0.
uint32_t bublastyr_malformed(const uint32_t *first, size_t first_len, const uint32_t *second,
                             size_t second_len, uint32_t told[3]);

// Writes the description that a formula stands for, and answers 0, 20, 21, 22, 23, 24 or 25. The checks run in the
// order 25, 20, 21, 22, 23, 24. The text is that of the formula alone, with no newline or other byte after it.
//
// told[0] is the length: the words written after 0, the words needed after 24, else 0.
// told[1] is after 20 the first byte, from 0, at which no formula can go on, or the text's length where it ends
// too early; else 0.
//
// Only 0 writes to the result area, the first told[0] words. The text, the result area and told must not overlap. A
// pointer may be null where its length is 0.
// It needs no working area, and some 340 KB of stack for its tables.
uint32_t bublastyr_formula(const uint8_t *text, size_t text_len, uint32_t *result,
                           size_t result_len, uint32_t told[2]);

// A test of a suite: a mode, the number and the readings that are expected, and where in the area of words the two
// descriptions stand: the position of the first word, from 0, and how many words there are.
struct bublastyr_test {
    uint32_t mode, number, readings, first, first_words, second, second_words;
};

// How far a suite has come: the tests that are run, those that came out as expected, and the first that did not, counted
// from 0; 64 if there is none.
struct bublastyr_running {
    uint32_t run, good, first;
};

// The tests that a suite has at most; as `first` of the record, that no test came out other than expected.
#define BUBLASTYR_TESTS 64

// Runs the tests of a table in order, each as bublastyr_unify would, in the same two areas. A test is as expected where
// both its number and its readings are those that the call gives. Answers 0 once all tests are run, or 30, 31 or 32, and
// then all that is lent is as it was. All records are looked at before the first test is run: more than 64 are 30, and
// of 31 and 32 the lowest record with a fault decides, and within it 31 comes first.
//
// counts[mode][number] is how many tests in that mode gave that number; together they are running->run. No call gives 9,
// which is 0 in each mode. The record begins at 0, 0 and 64 and is brought up to date after each test; the counts are
// written at the end.
//
// A test whose call gives 1 to 5, 7 or 8 decided nothing: it counts as expected only where that very number was. The
// clashes are told apart: where 6 was expected, 10 and 11 are not as expected.
//
// The table, the words, the areas, the record and the counts must not overlap. A pointer to a table, words or an area
// may be null where its length is 0.
uint32_t bublastyr_suite(const struct bublastyr_test *tests, size_t tests_len,
                         const uint32_t *words, size_t words_len, uint32_t *result,
                         size_t result_len, uint32_t *working, size_t working_len,
                         struct bublastyr_running *running, uint32_t counts[3][12]);

// The bytes of a house block; the most descriptions of a library, the words that a list of them has at most, and the bytes
// that a library has at most: block 0 and nine blocks for each.
#define BUBLASTYR_BLOCK 512
#define BUBLASTYR_ENTRIES 60
#define BUBLASTYR_LONGEST_LIST 120
#define BUBLASTYR_LONGEST_LIBRARY 276992

// Writes a library, a file in house blocks, to the start of `file`, and answers 0, 47, 45 or 46, checked in the order 47, 45,
// 46. The entries are two words each, an identifier and the number of words of its description; the descriptions follow
// each other in `words`, in that order, and words behind the last are not looked at.
//
// 47 is given where there are more than 60 entries or the last is cut in half, where identifiers do not rise or one is over
// 65,535, and where a description has more than 1,024 words; 45 where one is malformed or ends behind the words.
//
// told[0] is the bytes written after 0, the bytes needed after 46, else 0. Only 0 writes to the file, its first told[0]
// bytes.
//
// The entries, the words, the file and told must not overlap. A pointer may be null where its length is 0.
uint32_t bublastyr_library_write(const uint32_t *entries, size_t entries_len, const uint32_t *words,
                                 size_t words_len, uint8_t *file, size_t file_len,
                                 uint32_t told[1]);

// Reads the description of an identifier from a library, and answers 0 or 40 to 46, checked in that order. Of the blocks,
// block 0 and those of the description alone are looked at: damage elsewhere costs nothing. An identifier over 65,535 is in
// no library.
//
// told[0] is the words written after 0, the words needed after 46, else 0. Only 0 writes to the result area, its first
// told[0] words; they are a description, at most 1,024 words.
//
// The file, the result area and told must not overlap. A pointer may be null where its length is 0.
uint32_t bublastyr_library_read(const uint8_t *file, size_t file_len, uint32_t identifier,
                                uint32_t *result, size_t result_len, uint32_t told[1]);

// Lists a library, and answers 0, 40, 41, 42 or 46, checked in that order: for each description its identifier and its
// number of words, as bublastyr_library_write takes them. Block 0 alone is looked at.
//
// told[0] is the words written after 0, two for each description, the words needed after 46, else 0. Only 0 writes to the
// entries, their first told[0] words.
//
// The file, the entries and told must not overlap. A pointer may be null where its length is 0.
uint32_t bublastyr_library_list(const uint8_t *file, size_t file_len, uint32_t *entries,
                                size_t entries_len, uint32_t told[1]);

#ifdef __cplusplus
}
#endif

#endif
