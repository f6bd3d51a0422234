/* The hall engine for C and C++: rule tables, halls, choices, sentences.
 *
 * `make install` puts this file beside the library, static and shared, for x86-64 Linux:
 * `pkg-config --cflags --libs ruonfidd` has what a compiler needs.  Without it, link with
 * target/staticlib/libruonfidd.a, which `make prove` writes.
 * The library is proved to answer as the definitions in crates/semantics/specs/Definitions say; this
 * file says the same in plain words.
 *
 * WHAT EVERY CALL GIVES
 *
 * Each call but ruonfidd_fresh_tally and ruonfidd_report returns a number, 0 where nothing is
 * refused.  Whatever is returned, it has set every number that it was given a pointer to, and all
 * bytes of a choice, a shortage or a station: none has to be set beforehand but the tally, which runs
 * and steps count on from.  The one exception is ruonfidd_sentence, which leaves its length as it was
 * where it refuses.
 * Any bytes may be handed in; there are none on which a call does not end, stops the program, or
 * reads or writes past what it was lent.  A call keeps nothing for the next one, allocates nothing
 * and needs a few KB of stack, ruonfidd_report some 20.  The same bytes always get the same answer.
 *
 * The table is tested first, record by record, each record by the numbers in their order; then the
 * hall; then the choices, one by one.  The bytes of tables, halls and choices, width, branches and
 * length, and the words of a sentence are explained in docs/FORMAT.md.  RUONFIDD_REFUSALS below lists
 * every number with its name and its words.  A place is an offset in bytes:
 *
 *    1 to 8    the first byte of the record that is refused
 *    9         the byte behind the start record; the table's length where it has no start record
 *   10, 11     0
 *   12 to 20   the first byte of the choice that is refused
 *   21         0, which the call does not set
 *
 * 21 is of ruonfidd_sentence alone, which tests nothing else.
 * Refused by 1 to 11, hall and tally are as they were.  Where a choice is refused, 12 to 20, those
 * before it stay done.  Refused by 21, buffer and length are as they were.
 *
 * WHAT A CALLER OWES
 *
 * - A pointer and a length are those of memory that may be read, and written where the pointer is
 *   not const.  A null pointer is allowed only with length 0.  Pointers to numbers, to a tally, to
 *   a choice, to a shortage and to a station are never null.
 * - No two buffers of one call overlap, the numbers that it sets included.  (Two that are only read
 *   may.)
 * - While a call is at work, no other thread writes what it was lent, and none reads what it writes.
 *   Calls on different memory may be made at the same time.
 * - Between the calls on a hall nobody else writes hall or tally, and each call gets the same table,
 *   and the tally as the last call left it.  Each answer alone holds without that.  But what is
 *   proved of a whole list of calls from an opening on, that each committed block acts in one moment
 *   and that abandoned attempts leave no trace but in the tally, then says nothing.
 * - The tally is no part of the stored hall: whoever stores a hall stores its tally beside it.  The
 *   first call may be lent any tally.
 */
#ifndef RUONFIDD_H
#define RUONFIDD_H

#include <stddef.h>
#include <stdint.h>

#ifdef __cplusplus
extern "C" {
#endif

/* The version of this header and of the library that belongs to it.  It is said here alone: the
 * library's file, its soname and the pkg-config file are made with it. */
#define RUONFIDD_VERSION_MAJOR 0
#define RUONFIDD_VERSION_MINOR 1
#define RUONFIDD_VERSION_PATCH 0
/* The same as text, "MAJOR.MINOR.PATCH". */
#define RUONFIDD_VERSION                                                                            \
    RUONFIDD_DOTTED_(RUONFIDD_VERSION_MAJOR, RUONFIDD_VERSION_MINOR, RUONFIDD_VERSION_PATCH)
/* A name with _ at its end is for this header's own use. */
#define RUONFIDD_DOTTED_(major, minor, patch)                                                       \
    RUONFIDD_TEXT_(major) "." RUONFIDD_TEXT_(minor) "." RUONFIDD_TEXT_(patch)
#define RUONFIDD_TEXT_(number) #number

/* Every refusal, in the order of the tests: its name, its number, the words that a sentence has for it
 * (none for 21), and the reason.
 * EACH is a macro of four arguments, which is written out once for each refusal.
 * A record's kind is 1 to 13, a choice's 1 or 2; a term is at most 64 wide, with 8 branches, and 16 long.
 * 15 is, for kind 1, an attempt that still has moves inside; for kind 2, a station that is no attempt.
 * 17 is a finished leaf, end or retry, or a fork with an unfinished left side. */
#define RUONFIDD_REFUSALS(EACH)                                                                     \
    EACH(RUONFIDD_REFUSAL_UNKNOWN_KIND, 1, "table: unknown record",                                 \
         "a record begins with a byte that is no kind")                                             \
    EACH(RUONFIDD_REFUSAL_RECORD_CUT_SHORT, 2, "table: record cut short",                           \
         "the bytes end inside a record")                                                           \
    EACH(RUONFIDD_REFUSAL_TOO_MANY_TERMS, 3, "table: too many terms",                               \
         "more than 200 terms")                                                                     \
    EACH(RUONFIDD_REFUSAL_UNKNOWN_TRAY, 4, "table: no such tray",                                   \
         "a tray above 15")                                                                         \
    EACH(RUONFIDD_REFUSAL_NOT_EARLIER, 5, "table: term not earlier",                                \
         "a reference to a term that has not come yet")                                             \
    EACH(RUONFIDD_REFUSAL_WRONG_CLASS, 6, "table: wrong term class",                                \
         "a process where an expression belongs, or the other way round")                           \
    EACH(RUONFIDD_REFUSAL_TERM_TOO_LARGE, 7, "table: term too large",                               \
         "a term is too wide, has too many branches or is too long")                                \
    EACH(RUONFIDD_REFUSAL_BAD_TOKENS, 8, "table: wrong tokens",                                     \
         "tokens of no count, or for a tray that has some already")                                 \
    EACH(RUONFIDD_REFUSAL_START_NOT_LAST, 9, "table: no start at end",                              \
         "no start record, or something behind it")                                                 \
    EACH(RUONFIDD_REFUSAL_HALL_LENGTH, 10, "hall: wrong length",                                    \
         "a hall of another length than 11,344")                                                    \
    EACH(RUONFIDD_REFUSAL_HALL_FORM, 11, "hall: not well formed",                                   \
         "bytes that are no hall of this table")                                                    \
    EACH(RUONFIDD_REFUSAL_CHOICE_KIND, 12, "no such kind",                                          \
         "a choice begins with a byte that is no kind")                                             \
    EACH(RUONFIDD_REFUSAL_CHOICE_CUT_SHORT, 13, "choice cut short",                                 \
         "the bytes end inside a choice")                                                           \
    EACH(RUONFIDD_REFUSAL_NO_STATION, 14, "no such station",                                        \
         "no station at the position")                                                              \
    EACH(RUONFIDD_REFUSAL_WRONG_STATION, 15, "station cannot do this",                              \
         "a station that takes no choice of this kind as it stands")                                \
    EACH(RUONFIDD_REFUSAL_NO_NODE, 16, "no such node",                                              \
         "no node of this number")                                                                  \
    EACH(RUONFIDD_REFUSAL_NO_RULE, 17, "no move at this node",                                      \
         "a node to which no rule applies")                                                         \
    EACH(RUONFIDD_REFUSAL_EMPTY_TRAY, 18, "tray empty",                                             \
         "a take from a tray without tokens")                                                       \
    EACH(RUONFIDD_REFUSAL_TOO_MANY_STATIONS, 19, "too many stations",                               \
         "more than 64 stations afterwards")                                                        \
    EACH(RUONFIDD_REFUSAL_FULL_TRAY, 20, "tray full",                                               \
         "a put on a tray that holds 255 tokens")                                                   \
    EACH(RUONFIDD_REFUSAL_BUFFER_TOO_SHORT, 21, "",                                                 \
         "a sentence's buffer of fewer than 96 bytes")

/* Every rule by which a choice moves: its name, its number, the words that a sentence has for it.
 * EACH is a macro of three arguments. */
#define RUONFIDD_RULES(EACH)                                                                        \
    EACH(RUONFIDD_RULE_OUT, 1, "token put")                                                         \
    EACH(RUONFIDD_RULE_IN, 2, "token taken")                                                        \
    EACH(RUONFIDD_RULE_REP, 3, "token taken, repeats")                                              \
    EACH(RUONFIDD_RULE_ATST, 4, "attempt begun")                                                    \
    EACH(RUONFIDD_RULE_ATRE, 5, "attempt given up")                                                 \
    EACH(RUONFIDD_RULE_ATFAIL, 6, "commit failed")                                                  \
    EACH(RUONFIDD_RULE_ATOK, 7, "block committed")                                                  \
    EACH(RUONFIDD_RULE_ARDOK, 8, "read noted")                                                      \
    EACH(RUONFIDD_RULE_ARDF, 9, "read failed")                                                      \
    EACH(RUONFIDD_RULE_AWR, 10, "write noted")                                                      \
    EACH(RUONFIDD_RULE_AOI, 11, "two ways opened")                                                  \
    EACH(RUONFIDD_RULE_AOF, 12, "second way kept")                                                  \
    EACH(RUONFIDD_RULE_AOE, 13, "first way kept")

/* The numbers by name, as RUONFIDD_REFUSAL_NO_STATION and RUONFIDD_RULE_ATOK. */
#define RUONFIDD_REFUSAL_CONSTANT_(name, number, said, reason) name = number,
#define RUONFIDD_RULE_CONSTANT_(name, number, said) name = number,
enum ruonfidd_refusal { RUONFIDD_REFUSALS(RUONFIDD_REFUSAL_CONSTANT_) };
enum ruonfidd_rule { RUONFIDD_RULES(RUONFIDD_RULE_CONSTANT_) };

/* The reason of a refusal in words, for any number that a call returns. */
#define RUONFIDD_REFUSAL_REASON_(name, number, said, reason)                                        \
    case number:                                                                                    \
        return reason;
static inline const char *ruonfidd_refusal_reason(uint8_t refusal) {
    switch (refusal) {
    case 0:
        return "nothing is refused";
        RUONFIDD_REFUSALS(RUONFIDD_REFUSAL_REASON_)
    default:
        return "a number without words here";
    }
}

/* The kinds of a choice.  A suggestion has RUONFIDD_CHOICE_NONE where the hall is still. */
#define RUONFIDD_CHOICE_NONE 0
#define RUONFIDD_CHOICE_ACT 1
#define RUONFIDD_CHOICE_INSIDE 2

/* The length of a stored hall: 16 counts, the stations in order, zeros. */
#define RUONFIDD_HALL_BYTES 11344

/* Checks a rule table.
 *
 * Accepted: 0, place 0.  Refused: 1 to 9, and the place. */
uint8_t ruonfidd_check_table(const uint8_t *table, size_t table_length, size_t *place);

/* Opens a rule table in a hall, whatever stood there.  The tally to begin with is the fresh one.
 *
 * Opened: 0, place 0, and every byte of the hall is written.
 * Refused: 1 to 10, and the place; no byte of the hall is changed. */
uint8_t ruonfidd_open_hall(const uint8_t *table, size_t table_length, uint8_t *hall,
                           size_t hall_length, size_t *place);

/* What a turn of an opening has laid down. */
#define RUONFIDD_LAID_NOTHING 0
#define RUONFIDD_LAID_STATION 1
#define RUONFIDD_LAID_PAST_END 2

/* Shows one turn of a table's opening: what it lays down, and how many terms are then left to open.
 *
 * Stations are laid down by turns, over the terms still to open, at first the start term alone.  A turn
 * takes the next of them.  A nil lays down nothing.  Two side by side lay down nothing and give way to
 * their sides, the left one next, then the right one.  Any other process lays down its one station.  So
 * the stations come in the order of the hall, at most one a turn; a start term of width w takes 2w - 1
 * turns, and never more than w terms are left.
 * turn: counted from 0; any number is taken.
 * laid: RUONFIDD_LAID_NOTHING, RUONFIDD_LAID_STATION, or RUONFIDD_LAID_PAST_END where the opening has no
 * such turn.
 * station: the station laid down, by the two bytes that it has in the hall: 20 and the number of its
 * term, or 24 and its tray.  0, 0 where none is laid down.
 * left: how many terms are left to open after the turn; 0 past the end.
 * Not refused: 0, place 0.  Refused: 1 to 9, and the place; nothing is laid down or left.
 * Only the table is read: there need be no hall. */
uint8_t ruonfidd_opening_turn(const uint8_t *table, size_t table_length, size_t turn, uint8_t *laid,
                              uint8_t station[2], size_t *left, size_t *place);

/* Checks a stored hall.
 *
 * Well formed for the table: 0, place 0.  Refused: 1 to 11, and the place. */
uint8_t ruonfidd_check_hall(const uint8_t *table, size_t table_length, const uint8_t *hall,
                            size_t hall_length, size_t *place);

/* Sets the tally of a hall just opened: 0, 0, 0. */
void ruonfidd_fresh_tally(uint32_t tally[3]);

/* Runs a list of choices, up to its end or to the first one refused.  A choice is the byte 1 and a
 * position: a station acts; or the byte 2, a position and a node: a move inside an attempt.
 * Positions count from 0; nodes count from 0 too, a node before its left side, that before its right.
 *
 * All done: 0, and the place is the length of the choices.  Refused: 1 to 20, and the place.
 * done: how many choices were done; 0 under 1 to 11.
 * tally: commits, failed, retries.  One of them rises by one whenever an attempt is committed, fails
 * at its commit, or ends in retry; at 4294967295 it stays.
 * Hall and tally are as the choices done have made them, and under 1 to 11 as they were. */
uint8_t ruonfidd_run(const uint8_t *table, size_t table_length, uint8_t *hall, size_t hall_length,
                     const uint8_t *choices, size_t choices_length, uint32_t tally[3],
                     size_t *place, size_t *done);

/* Makes one choice, as a run of it alone would, and says by which rule, and where a commit or a read
 * fails, which tray was short.  For kind 1 the node counts for nothing.  Kind, position and node are
 * bytes: C cuts a larger number down to one.
 *
 * Done: 0; the place is the choice's length in a list, 2 or 3; the rule is one of RUONFIDD_RULES.
 * shortage: by rules 6 and 9 a tray, 0 to 15, and by how many it was short, 1 to 16.  By rule 6 the
 * reads of the log were held against the counts of now, by rule 9 the reads of the log and this one
 * against the attempt's snapshot; of all trays that have fewer it is the lowest.  In a hall that calls
 * have led to from its opening, rule 9 tells the tray that it reads, short by 1; in any other hall it
 * may tell another, or more.  Every other rule tells no tray: both bytes are 0.
 * Refused: 1 to 12 or 14 to 20, and the place, which is 0 from 10 on; the rule is 0, the shortage
 * 0, 0; hall and tally are as they were. */
uint8_t ruonfidd_step(const uint8_t *table, size_t table_length, uint8_t *hall, size_t hall_length,
                      uint8_t kind, uint8_t position, uint8_t node, uint32_t tally[3],
                      uint8_t *rule, uint8_t shortage[2], size_t *place);

/* Suggests the first choice that is accepted.
 *
 * choice: kind, position and node of that choice.  Of all choices that are accepted on this hall it
 * is the one with the lowest position, and of several there the one with the lowest node.  This
 * leaves one: at no position are kind 1 and kind 2 both accepted.  Kind 0 where the hall is still,
 * which is said only where no choice at all is accepted.  What is not said is 0: the node of kind 1,
 * and all three bytes where the hall is still or the call refused.
 * Not refused: 0, place 0.  Refused: 1 to 11, and the place.
 * A block that waits can always begin, so a hall with one is never still, and a station behind it may
 * never be suggested: whoever follows suggestions sets a limit. */
uint8_t ruonfidd_suggest(const uint8_t *table, size_t table_length, const uint8_t *hall,
                         size_t hall_length, uint8_t choice[3], size_t *place);

/* No sentence is longer, and no buffer for one may be shorter. */
#define RUONFIDD_SENTENCE_BYTES 96

/* Says a choice and its answer in one English sentence, for a board that people read.
 *
 * moved: 0 where the choice was refused with the number, any other byte where it moved by the rule of
 * that number.  A step that returned 0 has moved by its rule; any other was refused with what it
 * returned.  For kind 1 the node counts for nothing.
 * tray, short_by: which tray was short and by how many, named at any rule.  0 and 0 name none; every
 * other pair is named as it is, also one that no step tells.  Where the choice was refused both count
 * for nothing.  The two bytes that a step has set are handed on as they are, whatever it answered.
 * The sentence names kind, position, node and number in decimal, behind them the tray and by how many
 * it was short, and says in words what rules 1 to 13 and refusals 1 to 20 mean.  All bytes are taken,
 * also those that no hall gives; no two choices or answers that differ have the same sentence.
 *
 * Written: 0, and length is how many bytes the sentence has.  It stands at the front of the buffer,
 * with no zero behind it; all other bytes of the buffer are as they were.
 * Refused: 21, where the buffer is shorter than RUONFIDD_SENTENCE_BYTES. */
uint8_t ruonfidd_sentence(uint8_t kind, uint8_t position, uint8_t node, uint8_t moved, uint8_t number,
                          uint8_t tray, uint8_t short_by, uint8_t *buffer, size_t buffer_length,
                          size_t *length);

/* No printed run is longer. */
#define RUONFIDD_REPORT_BYTES 1024

/* Prints a run: the input is a table, which ends with its first start record, and choices behind it;
 * an input without a start record is all table.  The hall is opened, the choices are run, and the
 * lines R, C, T, P, W and A of docs/FORMAT.md are written to the output; above 16384 bytes of input
 * the line `long` alone.  length: how many bytes were written, at most 947.  The bytes of the output
 * behind them are as they were. */
void ruonfidd_report(const uint8_t *input, size_t input_length,
                     uint8_t output[RUONFIDD_REPORT_BYTES], size_t *length);

#ifdef __cplusplus
}
#endif

#endif
