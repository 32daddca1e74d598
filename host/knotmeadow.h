/* The rehearsal engine for hosts in C. The functions are those of the crate knotmeadow; crates/knotmeadow/src/lib.rt has their contracts, which are
   proved. Link crates/knotmeadow/out/libknotmeadow.a, which `rt lib` in crates/knotmeadow writes. x86-64 only.

   A result is document 01's number, 0 for none. A refusal writes nothing; `place`, where a function has it, is part of the answer: a fault
   in bytes is a number and its place.

   What no contract can see is the host's to keep: a pointer is to as many things as its length says (a single thing where it has none), is aligned
   for them and is not null, even where the length is 0; what is written overlaps nothing else that is lent to the same call; and while a call
   runs, nobody else writes what is lent to it, or reads what it writes. */
#ifndef KNOTMEADOW_H
#define KNOTMEADOW_H

#include <stddef.h>
#include <stdint.h>

#ifdef __cplusplus
extern "C" {
#endif

/* The lengths of the lists. A list of another length is refused by 16. */
#define KNOTMEADOW_PROCESSES 8 /* model, inputs and outputs */
#define KNOTMEADOW_TRANSIT 128
#define KNOTMEADOW_OWN 9 /* eight processes and the whole */

/* The time that stands for "never". */
#define KNOTMEADOW_NEVER UINT32_MAX

enum {
    KNOTMEADOW_BAD_ARGUMENT = 1,
    KNOTMEADOW_ALREADY_HAVE = 2,
    KNOTMEADOW_GAP = 3,
    KNOTMEADOW_TOO_LATE = 4,
    KNOTMEADOW_NOTHING_THERE = 5,
    KNOTMEADOW_IDLE = 6,
    KNOTMEADOW_NO_ROOM = 7,
    KNOTMEADOW_SHORT_BUFFER = 8,
    KNOTMEADOW_CUT = 9,
    KNOTMEADOW_OVERLONG = 10,
    KNOTMEADOW_TOO_BIG = 11,
    KNOTMEADOW_OUT_OF_RANGE = 12,
    KNOTMEADOW_OUT_OF_ORDER = 13,
    KNOTMEADOW_TRAILING = 14,
    KNOTMEADOW_BAD_STATE = 16
};

typedef struct { uint32_t rows[65][16]; } knotmeadow_rules; /* the model of one process */
typedef struct { uint32_t rows[64][8]; } knotmeadow_queue;
typedef struct { uint32_t words[8]; } knotmeadow_message;
typedef struct { uint32_t rows[33][8]; } knotmeadow_own;
typedef struct { uint32_t words[4]; } knotmeadow_answer; /* of one call of a run */

/* A model and a state, 79,648 bytes that may hold anything before the first call. They are the host's: it may copy them, keep them and hand them in
   again. The words of a state that no call left are judged like any other, and a bad one is refused by 16. */
typedef struct {
    knotmeadow_rules model[KNOTMEADOW_PROCESSES];
    knotmeadow_queue inputs[KNOTMEADOW_PROCESSES];
    knotmeadow_queue outputs[KNOTMEADOW_PROCESSES];
    knotmeadow_message transit[KNOTMEADOW_TRANSIT];
    knotmeadow_own own[KNOTMEADOW_OWN];
} knotmeadow_memory;

/* The five lists of a memory with their lengths, as every call takes them. */
#define KNOTMEADOW_LISTS(memory)                                                                                                                     \
    (memory)->model, KNOTMEADOW_PROCESSES, (memory)->inputs, KNOTMEADOW_PROCESSES, (memory)->outputs, KNOTMEADOW_PROCESSES, (memory)->transit,       \
        KNOTMEADOW_TRANSIT, (memory)->own, KNOTMEADOW_OWN

/* Reads a model into `model`: its process count is put into `processes`. A refusal leaves both as they were and puts the offset of the number at
   fault into `place`. */
uint32_t knotmeadow_read_model(const uint8_t *bytes, size_t length, knotmeadow_rules *model, size_t models, uint32_t *processes, size_t *place);

/* A new state for the model, whatever the lists held before. */
uint32_t knotmeadow_start(const knotmeadow_rules *model, size_t models, const knotmeadow_queue *inputs, size_t inputs_length,
                          const knotmeadow_queue *outputs, size_t outputs_length, const knotmeadow_message *transit, size_t transit_length,
                          knotmeadow_own *own, size_t own_length);

/* The calls, each on the state that the lists hold. `values` are three words: a call that is not refused puts its values there and 0 after them. */
uint32_t knotmeadow_inject(const knotmeadow_rules *model, size_t models, const knotmeadow_queue *inputs, size_t inputs_length,
                           const knotmeadow_queue *outputs, size_t outputs_length, knotmeadow_message *transit, size_t transit_length,
                           knotmeadow_own *own, size_t own_length, uint32_t number, uint32_t receiver, uint32_t time, uint32_t kind,
                           uint32_t value);

/* Values: events undone, antimessages sent. */
uint32_t knotmeadow_deliver(const knotmeadow_rules *model, size_t models, knotmeadow_queue *inputs, size_t inputs_length,
                            const knotmeadow_queue *outputs, size_t outputs_length, knotmeadow_message *transit, size_t transit_length,
                            knotmeadow_own *own, size_t own_length, uint32_t place, uint32_t values[3]);

/* Values: time, messages read, messages sent. */
uint32_t knotmeadow_execute(const knotmeadow_rules *model, size_t models, const knotmeadow_queue *inputs, size_t inputs_length,
                            knotmeadow_queue *outputs, size_t outputs_length, knotmeadow_message *transit, size_t transit_length,
                            knotmeadow_own *own, size_t own_length, uint32_t process, uint32_t values[3]);

/* Values: horizon, entries, bytes. The committed entries stand at the start of `buffer`, and the bytes after them keep their values. */
uint32_t knotmeadow_advance(const knotmeadow_rules *model, size_t models, knotmeadow_queue *inputs, size_t inputs_length,
                            knotmeadow_queue *outputs, size_t outputs_length, const knotmeadow_message *transit, size_t transit_length,
                            knotmeadow_own *own, size_t own_length, uint32_t ceiling, uint8_t *buffer, size_t buffer_length,
                            uint32_t values[3]);

/* A start, and then the calls that stand in `bytes` in house numbers, as in a rehearsal's file after the model. Row i of `answers` holds what call i
   answered: its number, then its values, 0 for those of three that it does not have. The record of the whole stands at the start of `committed`.
   `counts` are three: calls made, the place of the next call in `bytes`, bytes of the record. The run stops at the end of `bytes`, before a call that
   cannot be read, and where no row or fewer than 4,096 bytes of room are left. A call that is refused ends nothing: its number stands in its row.
   The result is 16 where the start is refused, and then nothing is written. */
uint32_t knotmeadow_run(const uint8_t *bytes, size_t length, const knotmeadow_rules *model, size_t models, knotmeadow_queue *inputs,
                        size_t inputs_length, knotmeadow_queue *outputs, size_t outputs_length, knotmeadow_message *transit,
                        size_t transit_length, knotmeadow_own *own, size_t own_length, knotmeadow_answer *answers, size_t answers_length,
                        uint8_t *committed, size_t committed_length, size_t counts[3]);

/* Reads the entry of the committed record at `at`, after an entry of time `former` (0 at first): time, process, messages read, mode and tally are
   put into `entry`, and the place of the next entry into `place`. A refusal leaves `entry` and puts the place of the number at fault into `place`. */
uint32_t knotmeadow_read_entry(const uint8_t *bytes, size_t length, size_t at, uint32_t former, uint32_t entry[5], size_t *place);

/* Steps the mode and tally of a process of the host's own list by one message, where they stand. No engine state is changed. */
uint32_t knotmeadow_step(const knotmeadow_rules *model, size_t models, uint32_t process, uint32_t kind, uint32_t value, uint32_t *mode,
                         uint32_t *tally);

#ifdef __cplusplus
}
#endif
#endif
