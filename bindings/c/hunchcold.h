/* The vent watcher for C: link with target/staticlib/libport.a.
 *
 * Every call answers for whatever it is handed; none halts. A list is a pointer and its length, and an empty one may
 * have any pointer. Lent lists that a call writes to must not overlap any other list of that call.
 *
 * A call that is refused answers the number of its refusal and leaves state, work area and codes as they were, but for
 * two: a refused start writes a state of zeros, unless by 91, and every further call on that state is refused; a run
 * that answers 11 has written work area and codes.
 *
 * Refusal 12 goes by the shape of state and work area, not by where they come from. What passes is a rule and a list
 * that start accepts, with zeros behind them, and past rows and a remainder over the rule's parameters, with zeros in
 * unused rows. By the phase, moreover:
 *   fresh    all past rows are zero. The remainder may be another one than the rule's; the first record leaves it, so
 *            that words and verdict are then not those of the rule.
 *   running  the signals are ones that the list has, a signal's row is its constant, and that of a next or until is
 *            itself. The row of a previous or since may be any that names only next and until parameters of earlier
 *            rule records. Time and remainder may be any.
 *   closed   nothing more. The verdict may be either, and the call answers 10.
 * The scratch is not looked at, nor the bytes of the state that its phase does not use. */
#ifndef HUNCHCOLD_H
#define HUNCHCOLD_H

#include <stddef.h>
#include <stdint.h>

#ifdef __cplusplus
extern "C" {
#endif

/* The lengths of a work area, in words of 64 bits, of a state, of a rule's or signal's record and of a log's. */
#define HUNCHCOLD_AREA_WORDS 1664
#define HUNCHCOLD_STATE_BYTES 280
#define HUNCHCOLD_LIST_RECORD_BYTES 8
#define HUNCHCOLD_LOG_RECORD_BYTES 16

/* The codes that calls answer: a word or a verdict, what a test says, nothing to refuse, or a refusal. */
#define HUNCHCOLD_FINE 0
#define HUNCHCOLD_KEPT 101
#define HUNCHCOLD_BROKEN 102
#define HUNCHCOLD_PENDING 103

#define HUNCHCOLD_HOLDS 111          /* there is a reading, at least the limit or below it, as the signal asks */
#define HUNCHCOLD_DOES_NOT_HOLD 112  /* there is a reading, on the other side of the limit */
#define HUNCHCOLD_NO_READING 113     /* there is no reading */

#define HUNCHCOLD_RULE_LENGTH 1      /* rule length is not a multiple of 8, or not 1 to 16 records */
#define HUNCHCOLD_RULE_RECORD 2      /* a rule record breaks the layout */
#define HUNCHCOLD_RULE_TWINS 3       /* two rule records have the same 8 bytes */
#define HUNCHCOLD_RULE_PARAMETERS 4  /* more than 12 parameters */
#define HUNCHCOLD_SIGNAL_LIST 5      /* signal list has a wrong length or a record that breaks the layout */
#define HUNCHCOLD_SIGNAL_MISSING 6   /* the rule, or a test, names a signal that the list does not define */
#define HUNCHCOLD_AREA_LENGTH 7      /* work area is not 1,664 words */
#define HUNCHCOLD_LOG_RECORD 8       /* log record is not 16 bytes or breaks the layout */
#define HUNCHCOLD_LOG_TIME 9         /* time is lower than the last accepted record's */
#define HUNCHCOLD_ALREADY_CLOSED 10  /* the watcher is closed */
#define HUNCHCOLD_NOTHING_FED 11     /* asking or closing with no accepted record */
#define HUNCHCOLD_BROKEN_STATE 12    /* state or work area have not the shape of a watcher's */
#define HUNCHCOLD_CODES_LENGTH 90    /* codes are not one for each 16 bytes of the log and one for a short rest */
#define HUNCHCOLD_STATE_LENGTH 91    /* state is not 280 bytes */

/* The horizon of a rule that has none. */
#define HUNCHCOLD_FOREVER UINT64_MAX

/* Runs a whole log: starts, feeds each 16 bytes and a short last piece, and closes. codes[i] is the word or refusal
 * of piece i. Answers the verdict, or 11 where no piece was accepted; area and codes are then written all the same, the
 * area as start leaves it and each code 8. Tests 90, then 1 to 7, as start does; where one of these is answered, area
 * and codes stay as they were. */
uint8_t hunchcold_run(const uint8_t *rule, size_t rule_bytes, const uint8_t *signals, size_t signals_bytes,
                      const uint8_t *log, size_t log_bytes, uint64_t *area, size_t area_words, uint8_t *codes,
                      size_t codes_bytes);

/* Starts a watcher: 0, or a refusal. Tests 91, then 1 to 7. */
uint8_t hunchcold_start(const uint8_t *rule, size_t rule_bytes, const uint8_t *signals, size_t signals_bytes,
                        uint8_t *state, size_t state_bytes, uint64_t *area, size_t area_words);

/* Would this record be refused: 0, or the refusal that feeding it would answer. Writes nothing. */
uint8_t hunchcold_would_refuse(const uint8_t *state, size_t state_bytes, const uint8_t *record, size_t record_bytes,
                               const uint64_t *area, size_t area_words);

/* Feeds one record: its word, or a refusal. Tests 91, then 7, 12, 10, 8, 9. */
uint8_t hunchcold_feed(uint8_t *state, size_t state_bytes, const uint8_t *record, size_t record_bytes, uint64_t *area,
                       size_t area_words);

/* How the log would end, were this the last record: the verdict that closing would answer now, or its refusal. Tests
 * 91, then 7, 12, 10, 11. Writes nothing, the scratch neither; the log goes on. */
uint8_t hunchcold_ask(const uint8_t *state, size_t state_bytes, const uint64_t *area, size_t area_words);

/* Closes the log: its verdict, or a refusal. Tests 91, then 7, 12, 10, 11. */
uint8_t hunchcold_close(uint8_t *state, size_t state_bytes, uint64_t *area, size_t area_words);

/* How many minutes past the first record the rule can stay pending; HUNCHCOLD_FOREVER where there is no such limit, for
 * bytes that are no state, and where start would refuse the state's rule or list. */
uint64_t hunchcold_horizon(const uint8_t *state, size_t state_bytes);

/* Tests the signal with a number, counted from 0, of a list in one log record: HUNCHCOLD_HOLDS,
 * HUNCHCOLD_DOES_NOT_HOLD or HUNCHCOLD_NO_READING, or a refusal. Tests 5, then 8, then 6, for a number that the list
 * lacks. Needs no state, and writes nothing.
 *
 * No reading is 32767 in the record's temperature field, as on a broken wire, and 65535 in its wind field, in either
 * unit. Such a record is accepted all the same, and the signals of that field do not hold in it, neither "at least" nor
 * "below". Vents and rain always have a reading. 32767 as wind, 65535 as temperature, which is -1, and either number as
 * a limit are plain numbers. */
uint8_t hunchcold_test(const uint8_t *signals, size_t signals_bytes, size_t number, const uint8_t *record,
                       size_t record_bytes);

#ifdef __cplusplus
}
#endif
#endif
