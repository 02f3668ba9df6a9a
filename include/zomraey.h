/* The changeover planner for callers in C.
 *
 * A rig comes as the bytes of its file; docs/rules/rig-file.md says how it is laid out. Nothing is kept from one call to the
 * next, and no call asks anything of its numbers or bytes: each answers, whatever it is given.
 *
 * A pointer must point to as many bytes as the length after it says. The buffer that a call writes into must not overlap
 * what it reads, and no pointer is null, even where its length is 0. malloc must give memory aligned as C has it. A call
 * may not be made in a signal handler.
 *
 * The numbers of refusals are those of docs/rules/refusals.md. */
#ifndef ZOMRAEY_H
#define ZOMRAEY_H

#include <stdbool.h>
#include <stddef.h>
#include <stdint.h>

#ifdef __cplusplus
extern "C" {
#endif

/* The verdict of a plan. */
enum zomraey_verdict {
    ZOMRAEY_WAY = 0,
    ZOMRAEY_NO_WAY = 1,
    ZOMRAEY_REFUSED = 2,
    ZOMRAEY_NO_MEMORY = 3
};

/* The call that a shelf had no room for. */
enum zomraey_call {
    ZOMRAEY_NO_CALL = 0,
    ZOMRAEY_DIAL = 1,    /* target, first: the device */
    ZOMRAEY_CHEAPER = 2, /* target, first and second: the sources */
    ZOMRAEY_SUM = 3,     /* target, first and second: the sources */
    ZOMRAEY_PUT = 4      /* target, first: the source, second: the device, third: the setting */
};

/* What a plan says. Values that do not belong to the verdict or to the refusal are 0. */
struct zomraey_plan_answer {
    uint8_t verdict; /* an enum zomraey_verdict */
    uint8_t refusal; /* the number, where the verdict is ZOMRAEY_REFUSED */

    /* where the refusal is 18: the call, an enum zomraey_call, with its numbers, and the move that was worked on, if one was */
    uint8_t call;
    uint8_t target;
    uint8_t first;
    uint8_t second;
    uint8_t third;
    bool in_move;
    uint8_t number;

    size_t moves;    /* of a way: how many, at the sheet's front; where the refusal is 19: how many the sheet must hold */
    uint64_t time;   /* of a way, in tenths of a second */
    uint64_t rounds; /* of a way or no way; where the refusal is 18: the round of the call */
    size_t byte;     /* where the file is refused: the byte at which the refused move begins, or 0 */
};

/* How a call ends that writes a file. */
enum zomraey_ending {
    ZOMRAEY_WRITTEN = 0,
    ZOMRAEY_FILE_REFUSED = 1, /* refusal, place: the byte at which the refused move begins, or 0 */
    ZOMRAEY_MOVE_REFUSED = 2, /* refusal, place: which move of the run, from 0 */
    ZOMRAEY_BUFFER_SHORT = 3, /* refusal 19, length: how many bytes the buffer must hold */
    ZOMRAEY_RUN_TOO_LONG = 4, /* the run has 4,294,967,296 moves or more */
    ZOMRAEY_OUT_OF_MEMORY = 5
};

/* What a call says that writes a file. Values that do not belong to the ending are 0. */
struct zomraey_file_answer {
    uint8_t ending; /* an enum zomraey_ending */
    uint8_t refusal;
    size_t place;
    size_t length; /* how many bytes the file has, at the buffer's front */
    uint64_t time; /* how long the run takes, in tenths of a second */
};

/* Plans the rig on a diagram shelf of 1 to 65,535 node slots; 512 are enough for small rigs. On a way the numbers of the moves
 * fill the sheet's front, a byte for each, and its further bytes are kept; else the sheet is kept whole. */
struct zomraey_plan_answer zomraey_plan(const uint8_t *file, size_t file_length, size_t nodes, uint8_t *sheet, size_t sheet_length);

/* The same on a flat shelf: 128 bytes for each scene, and never too little room. */
struct zomraey_plan_answer zomraey_plan_flat(const uint8_t *file, size_t file_length, uint8_t *sheet, size_t sheet_length);

/* Reads the rig and writes its file into the buffer, which keeps its further bytes; unless the ending is ZOMRAEY_WRITTEN, it
 * keeps all. What is written is what was read, byte for byte, so this is a check of a file. */
struct zomraey_file_answer zomraey_rewrite(const uint8_t *file, size_t file_length, uint8_t *buffer, size_t buffer_length);

/* Performs the moves of a run one after another, and writes the file of the rig that they leave, as zomraey_rewrite does. */
struct zomraey_file_answer zomraey_perform(const uint8_t *file, size_t file_length, const uint8_t *run, size_t run_length, uint8_t *buffer, size_t buffer_length);

#ifdef __cplusplus
}
#endif

#endif
