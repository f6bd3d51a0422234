/* Calls every function of the header, as C and as C++. The first answer that is not as it must be is printed. */
#include "ruonfidd.h"

#include <stdio.h>
#include <string.h>

#define MUST(fact) \
    do { \
        if (!(fact)) { \
            printf("line %d: %s\n", __LINE__, #fact); \
            return 1; \
        } \
    } while (0)

/* A block that reads tray 0 and writes tray 1; one token. */
static const uint8_t table[] = {7, 10, 1, 0, 9, 0, 1, 6, 2, 12, 0, 1, 13, 3};
static const uint8_t choices[] = {1, 0, 2, 0, 0, 2, 0, 0, 1, 0, 1, 0};
/* A take from an empty tray, a block of two ways that each write, a put; and what is suggested, time after time. */
static const uint8_t several[] = {1, 3, 0, 0, 7, 10, 1, 2, 11, 3, 3, 6, 4, 2, 1, 5, 5, 6, 5, 1, 7, 13, 8};
static const uint8_t first[][3] = {{1, 1, 0}, {2, 1, 0}, {2, 1, 1}, {2, 1, 0}, {1, 1, 0}, {1, 1, 0}};
/* Its opening turn by turn: what is laid down, the station's two bytes, how many terms are left; then past its end. */
static const uint8_t turns[][4] = {{RUONFIDD_LAID_NOTHING, 0, 0, 2},
                                   {RUONFIDD_LAID_STATION, 20, 1, 1},
                                   {RUONFIDD_LAID_NOTHING, 0, 0, 2},
                                   {RUONFIDD_LAID_STATION, 20, 5, 1},
                                   {RUONFIDD_LAID_STATION, 24, 1, 0},
                                   {RUONFIDD_LAID_PAST_END, 0, 0, 0},
                                   {RUONFIDD_LAID_PAST_END, 0, 0, 0}};
static uint8_t hall[RUONFIDD_HALL_BYTES];
static uint8_t before[RUONFIDD_HALL_BYTES];
static const uint8_t input[] = {7, 10, 1, 0, 9, 0, 1, 6, 2, 12, 0, 1, 13, 3, 1, 0, 2, 0, 0, 2, 0, 0, 1, 0, 1, 0};
static const char printed[] = "R 0 12 5\nC 1 0 0\nT 0 1 -1 0\nT 1 0 1 1\n";
static uint8_t report[RUONFIDD_REPORT_BYTES];
/* One byte more than must be lent. */
static uint8_t board[RUONFIDD_SENTENCE_BYTES + 1], untouched[RUONFIDD_SENTENCE_BYTES + 1];
static const char begun[] = "Kind 1 at station 0 moved by rule 4, attempt begun.";
static const char by_none[] = "Kind 1 at station 0 moved by rule 4, attempt begun, tray 3 short by 0.";
static const char no_kind[] = "a choice begins with a byte that is no kind";
static const char unknown[] = "Kind 255 at station 0, node 9 met refusal 12, no such kind.";
/* Two blocks that read tray 0 twice, and two tokens: both begin and read, the first is committed. */
static const uint8_t rivals[] = {7, 9, 0, 0, 9, 0, 1, 6, 2, 5, 3, 3, 12, 0, 2, 13, 4};
static const uint8_t both_read[] = {1, 0, 1, 1, 2, 0, 0, 2, 0, 0, 2, 1, 0, 2, 1, 0, 1, 0};
static const char late[] = "Kind 1 at station 0 moved by rule 6, commit failed, tray 0 short by 2.";
static const char lacking[] = "Kind 2 at station 0, node 0 moved by rule 9, read failed, tray 0 short by 1.";
static const char longest[] = "Kind 255 at station 255, node 255 moved by rule 3, token taken, repeats, tray 255 short by 255.";

/* What calls set. Each is set to something that no call sets before every call that is to set it. */
static const size_t unset = (size_t)-1;
static size_t place, done, length, left;
static uint32_t tally[3] = {9, 9, 9};
static uint8_t rule, shortage[2], choice[3], laid, station[2];

static uint8_t check_table(const uint8_t *of, size_t of_length) {
    place = unset;
    return ruonfidd_check_table(of, of_length, &place);
}

static uint8_t open_hall(const uint8_t *of, size_t of_length, uint8_t *in, size_t in_length) {
    place = unset;
    memset(hall, 170, sizeof hall);
    return ruonfidd_open_hall(of, of_length, in, in_length, &place);
}

static uint8_t opening_turn(const uint8_t *of, size_t of_length, size_t turn) {
    laid = 99;
    memset(station, 99, sizeof station);
    left = place = unset;
    return ruonfidd_opening_turn(of, of_length, turn, &laid, station, &left, &place);
}

static uint8_t check_hall(const uint8_t *of, size_t of_length, const uint8_t *in, size_t in_length) {
    place = unset;
    return ruonfidd_check_hall(of, of_length, in, in_length, &place);
}

static uint8_t run(const uint8_t *of, size_t of_length, const uint8_t *list, size_t list_length) {
    place = done = unset;
    return ruonfidd_run(of, of_length, hall, sizeof hall, list, list_length, tally, &place, &done);
}

static uint8_t step(const uint8_t *of, size_t of_length, uint8_t *in, uint8_t kind, uint8_t position, uint8_t node) {
    rule = 99;
    memset(shortage, 99, sizeof shortage);
    place = unset;
    return ruonfidd_step(of, of_length, in, RUONFIDD_HALL_BYTES, kind, position, node, tally, &rule, shortage,
                         &place);
}

static uint8_t suggest(const uint8_t *of, size_t of_length) {
    memset(choice, 99, sizeof choice);
    place = unset;
    return ruonfidd_suggest(of, of_length, hall, sizeof hall, choice, &place);
}

/* No sentence has a byte above 127. */
static uint8_t sentence(uint8_t kind, uint8_t position, uint8_t node, uint8_t moved, uint8_t number, uint8_t tray,
                        uint8_t short_by, uint8_t *on, size_t on_length) {
    memset(board, 199, sizeof board);
    length = unset;
    return ruonfidd_sentence(kind, position, node, moved, number, tray, short_by, on, on_length, &length);
}

/* What is on the board, and not a byte behind it. */
static int reads(const char *text) {
    return length == strlen(text) && memcmp(board, text, length) == 0 &&
           memcmp(board + length, untouched + length, sizeof board - length) == 0;
}

int main(void) {
    size_t standing = 16;

    memset(untouched, 199, sizeof untouched);
    MUST(check_table(table, sizeof table) == 0 && place == 0);
    MUST(check_table(table, 12) == 9 && place == 12);
    MUST(check_table(NULL, 0) == 9 && place == 0);

    MUST(open_hall(table, sizeof table, NULL, 0) == 10 && place == 0);
    MUST(open_hall(table, sizeof table, hall, sizeof hall) == 0 && place == 0);
    MUST(hall[0] == 1 && hall[16] == 20 && hall[17] == 3 && hall[18] == 0 && hall[sizeof hall - 1] == 0);
    MUST(check_hall(table, sizeof table, hall, sizeof hall) == 0 && place == 0);
    MUST(check_hall(table, sizeof table, NULL, 0) == 10 && place == 0);
    ruonfidd_fresh_tally(tally);
    MUST(tally[0] == 0 && tally[1] == 0 && tally[2] == 0);

    /* No choices, without memory. */
    memcpy(before, hall, sizeof hall);
    MUST(run(table, sizeof table, NULL, 0) == 0);
    MUST(place == 0 && done == 0 && memcmp(hall, before, sizeof hall) == 0);

    /* The first choice by a step, the second as it is suggested, the others in a run that is refused behind them. */
    MUST(step(table, sizeof table, hall, 1, 0, 200) == 0);
    MUST(rule == 4 && shortage[0] == 0 && shortage[1] == 0 && place == 2 && hall[16] == 21);
    /* What it did, in words; behind them nothing is written. */
    MUST(sentence(1, 0, 200, 1, rule, shortage[0], shortage[1], board, RUONFIDD_SENTENCE_BYTES) == 0);
    MUST(reads(begun));
    MUST(suggest(table, sizeof table) == 0 && place == 0);
    MUST(choice[0] == 2 && choice[1] == 0 && choice[2] == 0);
    MUST(step(table, sizeof table, hall, choice[0], choice[1], choice[2]) == 0);
    MUST(rule == 8 && shortage[0] == 0 && shortage[1] == 0 && place == 3);
    MUST(step(table, sizeof table, hall, 255, 0, 0) == RUONFIDD_REFUSAL_CHOICE_KIND);
    MUST(strcmp(ruonfidd_refusal_reason(RUONFIDD_REFUSAL_CHOICE_KIND), no_kind) == 0);
    MUST(rule == 0 && shortage[0] == 0 && shortage[1] == 0 && place == 0);
    MUST(sentence(255, 0, 9, 0, 12, shortage[0], shortage[1], board, sizeof board) == 0);
    MUST(reads(unknown));
    /* Of a refused choice a shortage counts for nothing. */
    MUST(sentence(255, 0, 9, 0, 12, 3, 1, board, sizeof board) == 0);
    MUST(reads(unknown));
    /* Any byte but 0 says that it moved. Two zeros alone say that nothing was short. */
    MUST(sentence(1, 0, 0, 255, 4, 0, 0, board, sizeof board) == 0);
    MUST(reads(begun));
    MUST(sentence(1, 0, 0, 255, 4, 3, 0, board, sizeof board) == 0);
    MUST(reads(by_none));
    /* The longest sentence there is. */
    MUST(sentence(255, 255, 255, 1, 3, 255, 255, board, RUONFIDD_SENTENCE_BYTES) == 0);
    MUST(reads(longest) && length == 95);
    /* A byte too short, and no memory at all: nothing is written, the length neither. */
    MUST(sentence(1, 0, 0, 1, 6, 3, 1, board, RUONFIDD_SENTENCE_BYTES - 1) == 21);
    MUST(length == unset && memcmp(board, untouched, sizeof board) == 0);
    MUST(sentence(1, 0, 0, 1, 6, 3, 1, NULL, 0) == 21 && length == unset);
    MUST(run(table, sizeof table, choices + 5, sizeof choices - 5) == 0);
    MUST(place == 7 && done == 3 && hall[0] == 0 && hall[1] == 1 && hall[16] == 0);
    MUST(tally[0] == 1 && tally[1] == 0 && tally[2] == 0);
    MUST(run(table, sizeof table, choices, 2) == 14);
    MUST(place == 0 && done == 0);

    /* Still, and refused. */
    MUST(suggest(table, sizeof table) == 0 && place == 0);
    MUST(choice[0] == 0 && choice[1] == 0 && choice[2] == 0);
    MUST(suggest(table, 12) == 9 && place == 12);
    MUST(choice[0] == 0 && choice[1] == 0 && choice[2] == 0);

    /* Of several accepted choices the first is suggested, also where its position and its node are not 0. */
    MUST(open_hall(several, sizeof several, hall, sizeof hall) == 0 && place == 0);
    for (size_t turn = 0; turn < sizeof first / sizeof *first; turn++) {
        MUST(suggest(several, sizeof several) == 0 && place == 0);
        MUST(memcmp(choice, first[turn], sizeof choice) == 0);
        /* The put at the end, which is accepted too and is not suggested. */
        memcpy(before, hall, sizeof hall);
        MUST(step(several, sizeof several, before, 1, 2, 0) == 0 && rule == 1 && place == 2);
        MUST(step(several, sizeof several, hall, choice[0], choice[1], choice[2]) == 0);
        MUST(place == (choice[0] == 1 ? 2 : 3));
    }

    /* The opening turn by turn: the stations come in the order of the hall. */
    MUST(RUONFIDD_LAID_NOTHING == 0 && RUONFIDD_LAID_STATION == 1 && RUONFIDD_LAID_PAST_END == 2);
    MUST(open_hall(several, sizeof several, hall, sizeof hall) == 0 && place == 0);
    for (size_t turn = 0; turn < sizeof turns / sizeof *turns; turn++) {
        MUST(opening_turn(several, sizeof several, turn) == 0);
        MUST(laid == turns[turn][0] && left == turns[turn][3] && place == 0);
        MUST(memcmp(station, turns[turn] + 1, sizeof station) == 0);
        if (laid == RUONFIDD_LAID_STATION) {
            MUST(memcmp(station, hall + standing, sizeof station) == 0);
            standing += sizeof station;
        }
    }
    MUST(hall[standing] == 0);
    /* Any turn may be asked for. Refused, and without memory: nothing is laid down or left. */
    MUST(opening_turn(several, sizeof several, (size_t)-1) == 0);
    MUST(laid == RUONFIDD_LAID_PAST_END && station[0] == 0 && station[1] == 0 && left == 0 && place == 0);
    MUST(opening_turn(several, sizeof several - 1, 1) == 2);
    MUST(laid == RUONFIDD_LAID_NOTHING && station[0] == 0 && station[1] == 0 && left == 0);
    MUST(place == sizeof several - 2);
    MUST(opening_turn(NULL, 0, 0) == 9);
    MUST(laid == RUONFIDD_LAID_NOTHING && station[0] == 0 && station[1] == 0 && left == 0 && place == 0);

    /* A commit that comes too late and then a read that finds nothing: which tray was short, and the two bytes
     * handed on to the sentence. */
    MUST(open_hall(rivals, sizeof rivals, hall, sizeof hall) == 0 && place == 0);
    MUST(run(rivals, sizeof rivals, both_read, sizeof both_read) == 0);
    MUST(place == sizeof both_read && done == 7);
    MUST(step(rivals, sizeof rivals, hall, 1, 0, 0) == 0);
    MUST(rule == 6 && shortage[0] == 0 && shortage[1] == 2 && place == 2);
    MUST(sentence(1, 0, 0, 1, rule, shortage[0], shortage[1], board, sizeof board) == 0);
    MUST(reads(late));
    MUST(run(rivals, sizeof rivals, both_read, 2) == 0 && place == 2 && done == 1);
    MUST(step(rivals, sizeof rivals, hall, 2, 0, 0) == 0);
    MUST(rule == 9 && shortage[0] == 0 && shortage[1] == 1 && place == 3);
    MUST(sentence(2, 0, 0, 1, rule, shortage[0], shortage[1], board, sizeof board) == 0);
    MUST(reads(lacking));

    /* The printed run of table and choices; behind it nothing is written. */
    memset(report, 199, sizeof report);
    length = unset;
    ruonfidd_report(input, sizeof input, report, &length);
    MUST(length == sizeof printed - 1 && memcmp(report, printed, length) == 0 && report[length] == 199);
    puts("all answers are as they must be");
    return 0;
}
