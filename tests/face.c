/* The exported functions on the stored queries, from C: tests/face.c FOLDER NAME.. reads FOLDER/NAME.hex and what the programs print for it
 * (NAME.verdict, NAME.clauses, NAME.lookup-ARRAY-INDEX), makes of it what each function is to return, report and write, and compares,
 * for buffers that hold the answer, for every shorter answer buffer, and for four shorter runs of numbers: none, one, half, one too few.
 * An accepted query is also cut at every byte.
 * The last line is 'N passed, M failed'.
 */
#include <dirent.h>
#include <inttypes.h>
#include <stdio.h>
#include <stdlib.h>
#include <string.h>

#include "zunidelo.h"

enum { QUERY = 5000, TEXT = 1 << 20, FIRST_BYTE = 0xAA, FIRST_NUMBER = -7, STALE = 99, SPARE = 3 };

static unsigned passed, failed;
static const char *folder;

static void count(int good, const char *name, const char *what, size_t room) {
    if (good) {
        passed++;
    } else {
        failed++;
        printf("FAILED: %s: %s, room %zu\n", name, what, room);
    }
}

/* A stored file as text, or NULL. */
static char *stored(const char *name, const char *ending) {
    static char text[TEXT];
    char path[600];
    snprintf(path, sizeof path, "%s/%s%s", folder, name, ending);
    FILE *file = fopen(path, "r");
    if (file == NULL) return NULL;
    text[fread(text, 1, sizeof text - 1, file)] = 0;
    fclose(file);
    return text;
}

static size_t query_of(const char *name, uint8_t *query) {
    char *text = stored(name, ".hex");
    size_t length = 0;
    unsigned byte;
    int taken;
    if (text == NULL) {
        printf("no query %s\n", name);
        exit(2);
    }
    for (; sscanf(text, " %2x%n", &byte, &taken) == 1; text += taken) query[length++] = (uint8_t)byte;
    return length;
}

static size_t put_two(uint8_t *bytes, size_t at, unsigned number) {
    bytes[at] = (uint8_t)(number / 256);
    bytes[at + 1] = (uint8_t)(number % 256);
    return at + 2;
}

/* A line of a lemma as its field: tag, length, one or two term numbers. */
static size_t put_literal(uint8_t *bytes, size_t at, const char *line) {
    static const struct { const char *word; uint8_t tag; int numbers; } kinds[] =
        {{"eq", 0x21, 2}, {"ne", 0x22, 2}, {"true", 0x23, 1}, {"false", 0x24, 1}, {"then", 0x25, 2}};
    char word[16];
    unsigned first = 0, second = 0;
    sscanf(line, "%15s %u %u", word, &first, &second);
    for (size_t k = 0; k < sizeof kinds / sizeof *kinds; k++) {
        if (strcmp(word, kinds[k].word) != 0) continue;
        bytes[at] = kinds[k].tag;
        at = put_two(bytes, at + 1, (unsigned)kinds[k].numbers * 2);
        at = put_two(bytes, at, first);
        return kinds[k].numbers == 2 ? put_two(bytes, at, second) : at;
    }
    printf("not a literal: %s\n", line);
    exit(2);
}

static int same_report(const uint64_t *report, const uint64_t *expected, size_t numbers) {
    return memcmp(report, expected, numbers * sizeof *report) == 0;
}

static void stale(uint64_t report[5]) {
    for (int k = 0; k < 5; k++) report[k] = STALE;
}

/* One check with so much room: what it returns and reports, and every byte of the buffer and behind it. */
static void try_check(const char *name, const uint8_t *query, size_t length, size_t room, uint32_t returned, const uint64_t expected[4],
                      const uint8_t *lemma, size_t lemma_length) {
    uint8_t answer[ZUNIDELO_LEMMA_BYTES + 2 * SPARE], after[sizeof answer];
    uint64_t report[5];
    memset(answer, FIRST_BYTE, sizeof answer);
    memset(after, FIRST_BYTE, sizeof after);
    memcpy(after, lemma, lemma_length);
    stale(report);
    uint32_t r = zunidelo_check(query, length, answer, room, report);
    count(r == returned && same_report(report, expected, 4) && report[4] == STALE && memcmp(answer, after, sizeof answer) == 0, name, "check", room);
}

static void cells(const char *name, const uint8_t *query, size_t length, char *line) {
    for (; line != NULL; line = strtok(NULL, "\n")) {
        uint64_t array, index, value, report[5];
        sscanf(line, "%" SCNu64 " %" SCNu64 " %" SCNu64, &array, &index, &value);
        stale(report);
        uint32_t r = zunidelo_lookup(query, length, array, index, report);
        const uint64_t expected[5] = {0, 0, value, 0, STALE};
        count(r == ZUNIDELO_CONSISTENT && same_report(report, expected, 5), name, "lookup of a printed cell", 0);
    }
}

static void checks(const char *name, const uint8_t *query, size_t length) {
    static const uint64_t no_room[4] = {10, 0, 0, 0};
    uint8_t lemma[ZUNIDELO_LEMMA_BYTES];
    uint64_t number = 0, offset = 0, pairs = 0;
    size_t written = 0;
    char *line = strtok(stored(name, ".verdict"), "\n");
    if (sscanf(line, "refused %" SCNu64 " %" SCNu64, &number, &offset) == 2) {
        const uint64_t expected[4] = {number, offset, 0, 0};
        for (size_t room = 0; room <= SPARE; room++) try_check(name, query, length, room, ZUNIDELO_REFUSED, expected, lemma, 0);
    } else if (sscanf(line, "consistent %" SCNu64, &pairs) == 1) {
        const uint64_t expected[4] = {0, 0, pairs, 0};
        for (size_t room = 0; room <= SPARE; room++) try_check(name, query, length, room, ZUNIDELO_CONSISTENT, expected, lemma, 0);
        cells(name, query, length, strtok(NULL, "\n"));
    } else if (sscanf(line, "conflict %" SCNu64, &pairs) == 1) {
        while ((line = strtok(NULL, "\n")) != NULL) written = put_literal(lemma, written, line);
        const uint64_t expected[4] = {0, 0, pairs, written};
        for (size_t room = 0; room < written; room++) try_check(name, query, length, room, ZUNIDELO_REFUSED, no_room, lemma, 0);
        for (size_t room = written; room <= written + SPARE; room++)
            try_check(name, query, length, room, ZUNIDELO_CONFLICT, expected, lemma, written);
    } else {
        count(0, name, "a verdict's first line", 0);
    }
}

static void try_clauses(const char *name, const uint8_t *query, size_t length, size_t room, uint32_t returned, const uint64_t expected[5],
                        const int32_t *clauses, size_t written) {
    static int32_t numbers[ZUNIDELO_CLAUSE_NUMBERS + 2 * SPARE], after[ZUNIDELO_CLAUSE_NUMBERS + 2 * SPARE];
    uint64_t report[5];
    for (size_t k = 0; k < sizeof numbers / sizeof *numbers; k++) numbers[k] = after[k] = FIRST_NUMBER;
    memcpy(after, clauses, written * sizeof *clauses);
    stale(report);
    uint32_t r = zunidelo_clauses(query, length, numbers, room, report);
    count(r == returned && same_report(report, expected, 5) && memcmp(numbers, after, sizeof numbers) == 0, name, "clauses", room);
}

static void writes(const char *name, const uint8_t *query, size_t length) {
    static const uint64_t no_room[5] = {10, 0, 0, 0, 0};
    static int32_t clauses[ZUNIDELO_CLAUSE_NUMBERS];
    uint64_t number = 0, offset = 0, variables = 0, lines = 0;
    size_t written = 0;
    char *text = stored(name, ".clauses");
    if (sscanf(text, "refused %" SCNu64 " %" SCNu64, &number, &offset) == 2) {
        const uint64_t expected[5] = {number, offset, 0, 0, 0};
        for (size_t room = 0; room <= SPARE; room++) try_clauses(name, query, length, room, ZUNIDELO_REFUSED, expected, clauses, 0);
        return;
    }
    int taken;
    if (sscanf(text, "p cnf %" SCNu64 " %" SCNu64 "%n", &variables, &lines, &taken) != 2) {
        count(0, name, "the clauses' first line", 0);
        return;
    }
    for (text += taken; sscanf(text, "%" SCNd32 "%n", &clauses[written], &taken) == 1; text += taken) written++;
    const uint64_t expected[5] = {0, 0, variables, lines, written};
    const size_t short_rooms[] = {0, 1, written / 2, written - 1};
    for (int k = 0; k < 4; k++) try_clauses(name, query, length, short_rooms[k], ZUNIDELO_REFUSED, no_room, clauses, 0);
    for (size_t room = written; room <= written + SPARE; room++)
        try_clauses(name, query, length, room, ZUNIDELO_CONFLICT, expected, clauses, written);
}

/* Each NAME.lookup-ARRAY-INDEX: a value, or the refusal. */
static void lookups(const char *name, const uint8_t *query, size_t length) {
    DIR *files = opendir(folder);
    struct dirent *file;
    char start[300];
    snprintf(start, sizeof start, "%s.lookup-", name);
    if (files == NULL) {
        count(0, name, "the stored lookups", 0);
        return;
    }
    while ((file = readdir(files)) != NULL) {
        uint64_t array, index, value, number, offset, report[5];
        if (strncmp(file->d_name, start, strlen(start)) != 0) continue;
        sscanf(file->d_name + strlen(start), "%" SCNu64 "-%" SCNu64, &array, &index);
        char *text = stored(file->d_name, "");
        int refused = sscanf(text, "refused %" SCNu64 " %" SCNu64, &number, &offset) == 2;
        if (!refused) sscanf(text, "%" SCNu64, &value);
        const uint64_t expected[5] = {refused ? number : 0, refused ? offset : 0, refused ? 0 : value, 0, STALE};
        stale(report);
        uint32_t r = zunidelo_lookup(query, length, array, index, report);
        count(r == (refused ? ZUNIDELO_REFUSED : ZUNIDELO_CONSISTENT) && same_report(report, expected, 5), file->d_name, "lookup", 0);
    }
    closedir(files);
}

/* 02, E7: a front of an accepted query is the same pointer with a lesser length. Cut where a field begins, or at the end, it is accepted, and
 * from the first that is in conflict on all are; cut inside a field it is refused by 2, at that field. */
static void fronts(const char *name, const uint8_t *query, size_t length) {
    uint8_t answer[ZUNIDELO_LEMMA_BYTES];
    uint64_t report[4];
    uint32_t verdict = ZUNIDELO_CONSISTENT;
    size_t field = 0, next = 0;
    if (zunidelo_check(query, length, answer, sizeof answer, report) == ZUNIDELO_REFUSED) return;
    for (size_t cut = 0; cut <= length; cut++) {
        uint32_t r = zunidelo_check(query, cut, answer, sizeof answer, report);
        if (cut < next) {
            count(r == ZUNIDELO_REFUSED && report[0] == 2 && report[1] == field, name, "a cut inside a field", cut);
            continue;
        }
        count(r == verdict || (r == ZUNIDELO_CONFLICT && verdict == ZUNIDELO_CONSISTENT), name, "a cut between two fields", cut);
        verdict = r;
        field = cut;
        if (cut < length) next = cut + 3 + 256 * (size_t)query[cut + 1] + query[cut + 2];
    }
}

int main(int words, char **word) {
    static uint8_t query[QUERY];
    if (words < 3) return 2;
    folder = word[1];
    for (int k = 2; k < words; k++) {
        size_t length = query_of(word[k], query);
        checks(word[k], query, length);
        writes(word[k], query, length);
        lookups(word[k], query, length);
        fronts(word[k], query, length);
    }
    printf("%u passed, %u failed\n", passed, failed);
    return failed == 0 && passed > 0 ? 0 : 1;
}
