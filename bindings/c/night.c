/* Watches one log as the watching program does, call by call: night RULE SIGNALS LOG [more] */
#include "hunchcold.h"

#include <inttypes.h>
#include <stdbool.h>
#include <stdio.h>
#include <string.h>

/* The most bytes that a rule or a signal list has, and one more, so that a longer file is refused. */
#define LIST_ROOM (16 * HUNCHCOLD_LIST_RECORD_BYTES + 1)

/* Opens the file that argument i names; none where it is missing or cannot be opened. */
static FILE *opened(int count, char **arguments, int i) {
    return i < count ? fopen(arguments[i], "rb") : NULL;
}

/* Reads up to so many bytes; none where there is no file. */
static size_t read_bytes(FILE *file, uint8_t *bytes, size_t room) {
    return file == NULL ? 0 : fread(bytes, 1, room, file);
}

/* Reads a list from the file that argument i names. */
static size_t read_list(int count, char **arguments, int i, uint8_t *bytes) {
    FILE *file = opened(count, arguments, i);
    size_t length = read_bytes(file, bytes, LIST_ROOM);
    if (file != NULL) {
        fclose(file);
    }
    return length;
}

/* The time of a record. */
static uint32_t time_of(const uint8_t *record) {
    return record[0] | (uint32_t)record[1] << 8 | (uint32_t)record[2] << 16 | (uint32_t)record[3] << 24;
}

/* Prints a word, a verdict or a refusal. */
static void print_code(uint8_t code) {
    switch (code) {
    case HUNCHCOLD_KEPT:
        printf("kept");
        break;
    case HUNCHCOLD_BROKEN:
        printf("broken");
        break;
    case HUNCHCOLD_PENDING:
        printf("pending");
        break;
    default:
        printf("refused %d", code);
    }
}

/* A signal list. */
struct signals {
    uint8_t bytes[LIST_ROOM];
    size_t length;
};

/* Prints the numbers of the signals that have no reading in an accepted record, if there are some. */
static void print_blind(const struct signals *signals, const uint8_t *record) {
    const char *before = " blind ";
    for (size_t number = 0; number < signals->length / HUNCHCOLD_LIST_RECORD_BYTES; number++) {
        uint8_t code = hunchcold_test(signals->bytes, signals->length, number, record, HUNCHCOLD_LOG_RECORD_BYTES);
        if (code == HUNCHCOLD_NO_READING) {
            printf("%s%zu", before, number);
            before = ",";
        }
    }
}

/* Feeds each piece of the log, with a line for each, and closes. With more, asks after each accepted record how the log
 * would end now, as at shift change, tells which signals had no reading, and goes on. */
static void watch(const struct signals *signals, uint8_t *state, uint64_t *area, FILE *log, bool more) {
    uint8_t record[HUNCHCOLD_LOG_RECORD_BYTES];
    size_t length;
    while ((length = read_bytes(log, record, sizeof record)) > 0) {
        uint8_t code = hunchcold_feed(state, HUNCHCOLD_STATE_BYTES, record, length, area, HUNCHCOLD_AREA_WORDS);
        bool accepted = code >= HUNCHCOLD_KEPT;
        if (accepted) {
            printf("%" PRIu32 " ", time_of(record));
        }
        print_code(code);
        if (accepted && more) {
            printf(" ask ");
            print_code(hunchcold_ask(state, HUNCHCOLD_STATE_BYTES, area, HUNCHCOLD_AREA_WORDS));
            print_blind(signals, record);
        }
        putchar('\n');
    }
    printf("end ");
    print_code(hunchcold_close(state, HUNCHCOLD_STATE_BYTES, area, HUNCHCOLD_AREA_WORDS));
    putchar('\n');
}

int main(int count, char **arguments) {
    static uint64_t area[HUNCHCOLD_AREA_WORDS];
    uint8_t state[HUNCHCOLD_STATE_BYTES];
    uint8_t rule[LIST_ROOM];
    struct signals signals;
    size_t rule_bytes = read_list(count, arguments, 1, rule);
    signals.length = read_list(count, arguments, 2, signals.bytes);
    uint8_t code = hunchcold_start(rule, rule_bytes, signals.bytes, signals.length, state, sizeof state, area,
                                   HUNCHCOLD_AREA_WORDS);
    if (code != HUNCHCOLD_FINE) {
        print_code(code);
        putchar('\n');
        return 0;
    }
    FILE *log = opened(count, arguments, 3);
    watch(&signals, state, area, log, count > 4 && strcmp(arguments[4], "more") == 0);
    if (log != NULL) {
        fclose(log);
    }
    return 0;
}
