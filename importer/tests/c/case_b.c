/* A list for every C entry, by the header alone: LoadConst g0,5; Save g0,Mem 3; Load g0,Mem 3; Save g0,Stack 16. */
#include "rudzaviks.h"

#include <stdio.h>
#include <string.h>

#define RECORDS 4
#define WORDS (8 * RECORDS)
#define LEFT 2

static const uint32_t list[WORDS] = {
    9, 0, 5, 0,  0, 0, 0, 0,
    6, 0, 1, 3,  0, 0, 0, 0,
    5, 0, 1, 3,  0, 0, 0, 0,
    6, 0, 0, 16, 0, 0, 0, 0,
};

/* The table is empty, but needs an address. */
static const uint32_t table[1] = {0};

static int failures = 0;

static void check(int holds, const char *what)
{
    if (!holds) {
        printf("%s\n", what);
        failures++;
    }
}

static uint64_t refused(uint32_t number, uint32_t index)
{
    return ((uint64_t)number << 32) + index;
}

static void put_word(uint8_t *at, uint32_t word)
{
    int byte;
    for (byte = 0; byte < 4; byte++) {
        at[byte] = (uint8_t)(word >> (8 * byte));
    }
}

/* Whether all bytes from one place to another are 165, as they were at first. */
static int untouched(const uint8_t *bytes, size_t from, size_t to)
{
    size_t at;
    for (at = from; at < to; at++) {
        if (bytes[at] != 165) {
            return 0;
        }
    }
    return 1;
}

static void check_survey(void)
{
    static const uint32_t expected[4] = {1, 0, 1, UINT32_MAX};
    static const uint32_t all[4] = {UINT32_MAX, UINT32_MAX, 64, UINT32_MAX};
    uint32_t parts[6];
    const uint8_t *bytes = (const uint8_t *)parts;
    uint64_t word;
    memset(parts, 165, sizeof parts);
    word = rudzaviks_survey(list, WORDS, table, 0, 0, 0, 7, parts, 6);
    check(word == refused(7, 0), "survey: no registers");
    word = rudzaviks_survey(list, WORDS, table, 0, 1, 0, 7, parts, 3);
    check(word == refused(4, 0), "survey: parts too short");
    check(untouched(bytes, 0, sizeof parts), "survey: a refusal leaves all words");
    word = rudzaviks_survey(list, WORDS, table, 0, 1, 0, 7, parts, 6);
    check(word == UINT32_MAX, "survey: label 7 is absent");
    check(memcmp(parts, expected, sizeof expected) == 0, "survey: register 0 alone, label absent");
    check(untouched(bytes, sizeof expected, sizeof parts), "survey: other words as they were");
    word = rudzaviks_survey(list, WORDS, table, 0, 1, 1, 7, parts, 4);
    check(word == UINT32_MAX && memcmp(parts, all, sizeof all) == 0, "survey: compress");
}

static void check_optimize(void)
{
    static const uint32_t expected[8] = {LEFT, 2, 0, 0, 1, 0, 1, 1};
    uint32_t out[WORDS], colours[2 * RECORDS], ends[2 * RECORDS], set[4 * RECORDS], counts[9] = {0, 0, 0, 0, 0, 0, 0, 0, 165};
    uint64_t word = rudzaviks_optimize(
        list, WORDS, table, 0, 1, 0, 0, 0, 0,
        out, WORDS, colours, 2 * RECORDS, ends, 2 * RECORDS, set, 4 * RECORDS, counts, 9);
    check(word == LEFT, "optimize: answer");
    check(memcmp(out, list, 8 * LEFT * sizeof out[0]) == 0, "optimize: the first two records");
    check(colours[0] == 0 && colours[1] == 0 && ends[0] == 1 && ends[1] == 3, "optimize: statics");
    check(memcmp(counts, expected, sizeof expected) == 0, "optimize: counts");
    check(counts[8] == 165, "optimize: the word past the counts as it was");
    word = rudzaviks_optimize(
        list, WORDS, table, 0, 1, 0, 0, 0, 0,
        out, WORDS, colours, 2 * RECORDS, ends, 2 * RECORDS, set, 4 * RECORDS, counts, 7);
    check(word == refused(4, 0), "optimize: counts too short");
    word = rudzaviks_optimize(
        list, WORDS, table, 0, 1, 0, 0, 0, 0,
        out, WORDS, colours, 2 * RECORDS, ends, 2 * RECORDS, set, 4 * RECORDS - 1, counts, 8);
    check(word == refused(4, 0), "optimize: set too short");
}

static void check_reduce(void)
{
    uint8_t file[4 * (7 + WORDS)], out[4 + 4 * WORDS + 3], expected[4 + 4 * 8 * LEFT];
    const size_t room = 4 + 4 * WORDS;
    size_t at;
    memset(file, 0, sizeof file);
    put_word(file, 1);
    put_word(file + 24, RECORDS);
    for (at = 0; at < WORDS; at++) {
        put_word(file + 28 + 4 * at, list[at]);
    }
    put_word(expected, LEFT);
    memcpy(expected + 4, file + 28, sizeof expected - 4);
    memset(out, 165, sizeof out);
    check(rudzaviks_reduce(file, sizeof file - 1, out, room) == refused(3, 0), "reduce: file too short");
    check(rudzaviks_reduce(file, sizeof file, out, room - 1) == refused(4, 0), "reduce: output too short");
    check(untouched(out, 0, sizeof out), "reduce: a refusal leaves all bytes");
    check(rudzaviks_reduce(file, sizeof file, out, sizeof out) == LEFT, "reduce: answer");
    check(memcmp(out, expected, sizeof expected) == 0, "reduce: the first two records");
    check(untouched(out, sizeof expected, sizeof out), "reduce: other bytes as they were");
}

int main(void)
{
    check_survey();
    check_optimize();
    check_reduce();
    return failures != 0;
}
