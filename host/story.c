/* The signaller's story of rehearsals/pressed-once.rehearsal, played by a host in C: one press, a late message that undoes what came of it, and in
   the committed record one release. */
#include <inttypes.h>
#include <stdio.h>

#include "knotmeadow.h"

enum { LIFT = 0, PRESS = 1, RELEASE = 2 };  /* kinds of message */
enum { HANDSET = 0, FRAME = 1, DESK = 2 };  /* processes */
enum { DOWN = 0, LIFTED = 1 };              /* modes of the handset */
enum { KEEP = 0, ADD = 2, FIXED = 0 };      /* effects on the tally, and the value of a send */

/* The model in house numbers, one byte each here. A rule: mode, kind, next mode, effect, how many sends. A send: receiver, delay, kind, value. */
static const uint8_t model[] = {
    3,
    /* the handset tells the frame of a press */
    DOWN, 0, 3,
    DOWN, LIFT, LIFTED, KEEP, 0,
    DOWN, PRESS, DOWN, ADD, 1, 1, FRAME, 3, RELEASE, FIXED, 0,
    LIFTED, PRESS, LIFTED, ADD, 1, 1, FRAME, 3, RELEASE, FIXED, 0,
    /* the frame tells the desk */
    0, 0, 1,
    0, RELEASE, 0, ADD, 1, 1, DESK, 2, RELEASE, FIXED, 0,
    /* the desk counts releases */
    0, 0, 1,
    0, RELEASE, 0, ADD, 1, 0,
};

static knotmeadow_memory memory;
static uint32_t last_time; /* of the committed record */

/* A call's line: its name and first argument, and `count` values, or the number that refuses it. */
static void print_call(const char *name, uint32_t argument, uint32_t number, const uint32_t *values, int count) {
    printf("%s %" PRIu32, name, argument);
    if (number != 0) {
        printf(" refused %" PRIu32 "\n", number);
        return;
    }
    printf(" ok");
    for (int i = 0; i < count; i++) printf(" %" PRIu32, values[i]);
    printf("\n");
}

static void inject(uint32_t number, uint32_t receiver, uint32_t time, uint32_t kind, uint32_t value) {
    print_call("inject", number, knotmeadow_inject(KNOTMEADOW_LISTS(&memory), number, receiver, time, kind, value), NULL, 0);
}

static void deliver(uint32_t place) {
    uint32_t values[3];
    uint32_t number = knotmeadow_deliver(KNOTMEADOW_LISTS(&memory), place, values);
    print_call("deliver", place, number, values, 2);
}

static void execute(uint32_t process) {
    uint32_t values[3];
    uint32_t number = knotmeadow_execute(KNOTMEADOW_LISTS(&memory), process, values);
    print_call("execute", process, number, values, 3);
}

/* Reads back the entries that an advance wrote. */
static void print_events(const uint8_t *record, size_t length) {
    uint32_t entry[5];
    size_t next;
    for (size_t at = 0; at < length; at = next) {
        if (knotmeadow_read_entry(record, length, at, last_time, entry, &next) != 0) return;
        printf("event %" PRIu32 " %" PRIu32 " %" PRIu32 " %" PRIu32 " %" PRIu32 "\n", entry[0], entry[1], entry[2], entry[3], entry[4]);
        last_time = entry[0];
    }
}

static void advance(uint32_t ceiling) {
    static uint8_t buffer[4096];
    uint32_t values[3];
    uint32_t number = knotmeadow_advance(KNOTMEADOW_LISTS(&memory), ceiling, buffer, sizeof buffer, values);
    print_call("advance", ceiling, number, values, 2);
    if (number == 0) print_events(buffer, values[2]);
}

int main(void) {
    uint32_t processes;
    size_t place;
    uint32_t number = knotmeadow_read_model(model, sizeof model, memory.model, KNOTMEADOW_PROCESSES, &processes, &place);
    if (number != 0) {
        printf("model refused %" PRIu32 " at %zu\n", number, place);
        return 1;
    }
    printf("model ok %" PRIu32 "\n", processes);
    if (knotmeadow_start(KNOTMEADOW_LISTS(&memory)) != 0) return 1;

    inject(0, HANDSET, 10, PRESS, 0); /* the one press */
    deliver(0);
    execute(HANDSET);
    deliver(0);
    execute(FRAME);
    deliver(0);
    execute(DESK); /* one release */

    inject(1, HANDSET, 5, LIFT, 0); /* late: the handset is at 10 */
    deliver(0);                     /* it is rolled back, then the frame, then the desk */
    deliver(0);
    deliver(0);

    execute(HANDSET);
    execute(HANDSET); /* the same press, now with the handset lifted */
    deliver(0);
    execute(FRAME);
    deliver(0);
    execute(DESK);

    advance(KNOTMEADOW_NEVER); /* one press, one release */
    return 0;
}
