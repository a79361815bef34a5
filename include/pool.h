/*
 * A crash-safe object pool in non-volatile memory. Link with libpool_c.a (x86-64; size_t has 8 bytes).
 *
 * No call allocates, prints, waits or keeps anything: all memory is lent by the caller, and each call ends with an answer, whatever
 * bytes and numbers it is given. Each pointer is followed by its length, in elements. A pointer may not be NULL, also where the length
 * is 0, and points to that many elements. Two pieces of memory lent to one call may not overlap, unless both are only read.
 *
 * Bytes may lie at any address; but a pool that is to survive power cuts begins at a multiple of 8, so that the store of a step is one
 * aligned store of 8 bytes, which the memory keeps or loses whole.
 *
 * At every power-up: pool_recover, then pool_recover_advance until POOL_DONE; then pool_mend, which stores nothing if both headers are
 * valid, and a barrier; pool_scrub at leisure. A save: pool_begin on the pool; pool_allocate, pool_write, pool_free, as many as are to be
 * kept or lost together; pool_commit; then pool_commit_advance until POOL_DONE, which is five calls. After each POOL_BARRIER and POOL_DONE
 * the caller passes a barrier. It is passed when every store made into the pool so far is in the memory that keeps its bytes without power:
 * on a cached x86-64, clwb for each line stored to, then sfence. docs/DEVICE.md says more, docs/REFUSALS.md what to do when a call is
 * refused.
 *
 * Ten set-ups, 0 to 9, need no address and no tag: pool_save stands in place of pool_begin and the calls that stage, pool_recall in place of
 * pool_look. Tags 100 to 109 are theirs: leave these to them. pool_command reads a command line, *SAV n, *RCL n or SYSTem:ERRor?, and calls them.
 *
 * A transaction or a recovery belongs to the pool that it was begun on, and holds that pool's id: on a pool with another id it is refused.
 * Two pools with one id cannot be told from each other, so give each module an id of its own.
 *
 * The library needs memcpy and memset, has no data, runs at any address, and takes at most 2,048 bytes of stack. It uses the SSE2
 * registers, which interrupt code must save, and the 128 bytes below the stack pointer, which interrupt code must leave alone. Between
 * two calls nothing is kept but what the caller holds.
 *
 * A call that is refused changes nothing: no byte of the pool or of the staging memory, and it hands back the record that it was
 * given. pool_begin, pool_save and pool_recover are given none; if they are refused, they hand back one that no call takes. If several
 * refusals apply, the first is answered, in the order 32, 33 (given), 1, 2 (under 512 bytes), 3, 4, 2 (length), 9, 10, 11, 29, 21, 22, 6, 8, 5,
 * 23, 24, 31, 25, 33 (found), 7, 26, 28, 27. Their names and meanings stand below.
 */
#ifndef POOL_H
#define POOL_H

#include <stddef.h>
#include <stdint.h>

/* The library is compiled for a size_t of 8 bytes: a compiler that has another refuses the next line. */
typedef char pool_size_t_has_8_bytes[sizeof(size_t) == 8 ? 1 : -1];

#ifdef __cplusplus
extern "C" {
#endif

/* The version of this interface: its records, names and numbers. */
#define POOL_INTERFACE_VERSION 5

/* Bytes of staging memory that a transaction needs, bytes of the longest body, and entries of the longest transaction: distinct words. */
#define POOL_STAGING 2032
#define POOL_BODY 496
#define POOL_ENTRIES 127

/* How many set-ups there are, from 0 on, the bytes of each, and the tag of set-up n. */
#define POOL_SETUPS 10
#define POOL_SETUP_SIZE 120
#define POOL_SETUP_TAG(n) (100 + (uint32_t)(n))

/* Bytes of the longest command line, errors that wait at most, and bytes of the longest line that the query prints. */
#define POOL_LINE 80
#define POOL_ERRORS 10
#define POOL_ERROR_LINE 25

/* Bytes of a pool of this shape. */
#define POOL_SIZE(rows, cols, zones) ((18 + (size_t)(zones) * ((size_t)(rows) + 1) * (size_t)(cols)) * 256)

/* What a call on a transaction or a recovery answers: one of these kinds, with a value. */
enum {
    POOL_REFUSED = 0, /* the value is the refusal's number, one of POOL_REFUSED_...                             */
    POOL_ADDRESS = 1, /* the value is the address of the object allocated                                       */
    POOL_TAKEN = 2,   /* carried out; the value is 0                                                            */
    POOL_STARTED = 3, /* there are steps to make; the value is 0                                                */
    POOL_STORED = 4,  /* the step stored 8 bytes; the value is its number, from 1                               */
    POOL_BARRIER = 5, /* the step is a barrier: pass one before the next step; the value is its number, from 1  */
    POOL_DONE = 6     /* all steps are made; the value is their number. If it is not 0, pass a last barrier     */
};

/* Refusals that come from the input, then those that come from the state, then those of set-ups. */
enum {
    POOL_REFUSED_SHAPE = 1,          /* format: rows, cols or zones outside its range, or id 0                              */
    POOL_REFUSED_LENGTH = 2,         /* pool under 512 bytes, or not the header's (at format, the given shape's) length     */
    POOL_REFUSED_NO_HEADER = 3,      /* neither header valid                                                                */
    POOL_REFUSED_HEADERS_DIFFER = 4, /* both valid and different                                                            */
    POOL_REFUSED_ADDRESS = 5,        /* cell address not below zones * 4 * rows * cols                                      */
    POOL_REFUSED_BODY = 6,           /* allocate: body 0 or above 496                                                       */
    POOL_REFUSED_RANGE = 7,          /* write: range empty or past the body                                                 */
    POOL_REFUSED_LOSS_LIST = 8,      /* loss list not zones * cols masks, or a bit above bit `rows` set                     */
    POOL_REFUSED_STAGING = 9,        /* staging under 2,032 bytes                                                           */
    POOL_REFUSED_RECORD = 10,        /* transaction or recovery record impossible: count above 127, place past its list, a
                                        target outside data rows, unaligned or repeated, or, while recovery is storing data or
                                        parity, its log no longer valid with its count                                      */
    POOL_REFUSED_POOL = 11,          /* the record was begun on a pool with another id                                      */

    POOL_REFUSED_SEALED = 21,    /* a seal is not zero (commit steps after the first, recovery and header mending excepted):
                                    recover first                                                                           */
    POOL_REFUSED_NO_LOG = 22,    /* start of recovery: both seals non-zero, neither log valid                               */
    POOL_REFUSED_BROKEN = 23,    /* the zone is broken anywhere                                                             */
    POOL_REFUSED_NO_OBJECT = 24, /* no object begins there                                                                  */
    POOL_REFUSED_DAMAGED = 25,   /* object damaged: its check is wrong, or a byte between its body's end and its last cell's
                                    end is not zero                                                                         */
    POOL_REFUSED_NO_ROOM = 26,   /* allocate: no zone broken and no free run long enough                                    */
    POOL_REFUSED_TOO_MANY = 27,  /* more than 127 distinct words touched                                                    */
    POOL_REFUSED_TWO_LOST = 28,  /* a mask with two bits or more                                                            */
    POOL_REFUSED_PHASE = 29,     /* staging or starting a commit when not open, or a step when not committing or recovering */

    POOL_REFUSED_NO_SETUP = 31,     /* recall: no object has the set-up's tag                                               */
    POOL_REFUSED_SETUP_NUMBER = 32, /* number above 9                                                                       */
    POOL_REFUSED_SETUP_SIZE = 33    /* body not 120 bytes: the one given, or that of the object found                       */
};

/* What a command line did. */
enum {
    POOL_OBEYED_NOTHING = 0,  /* nothing, but that an error may have been entered                              */
    POOL_OBEYED_SAVING = 1,   /* a set-up is staged in the transaction handed back: commit it, as after pool_save */
    POOL_OBEYED_RECALLED = 2, /* the set-up's bytes lie at this value of the pool, with this length            */
    POOL_OBEYED_PRINTED = 3   /* a line of this length was printed                                             */
};

/* The errors of command lines: the SCPI numbers without their minus, so that 113 stands for -113. */
enum {
    POOL_ERROR_DATA_TYPE = 104,         /* the number is not all digits                           */
    POOL_ERROR_MISSING_PARAMETER = 109, /* nothing, or only the blank, follows *SAV or *RCL       */
    POOL_ERROR_UNDEFINED_HEADER = 113,  /* any other line, and every line of more than 80 bytes   */
    POOL_ERROR_EXECUTION = 200,         /* the set-up was refused, for whatever reason            */
    POOL_ERROR_OUT_OF_RANGE = 222,      /* the number is above 9                                  */
    POOL_ERROR_QUEUE_OVERFLOW = 350     /* in the tenth place: further errors came, and are lost  */
};

/*
 * The records of a transaction and of a recovery are opaque: a caller keeps what the last call handed back and gives it to the next. It
 * reads no field of theirs and makes none up; what the fields hold is said for those who look at one in a debugger, and may change with
 * POOL_INTERFACE_VERSION. In the replies and answers every field is to be read as documented.
 */

/*
 * Answers have three forms, each the least that its call needs. pool_format and pool_mend have nothing to tell but the refusal: they
 * answer its number, or 0. pool_look, pool_look_up, pool_recall, pool_scrub and pool_repair answer numbers that can be 0 themselves: the
 * refusal stands beside them, in a field of its own. The calls that begin or go on with a transaction or a recovery hand back the record and
 * answer in several kinds: a kind, its value and the record. pool_check cannot be refused and answers the check.
 */

/*
 * A transaction, made by pool_begin or pool_save: the id of its pool, the number of its entries, and its phase: 0 open, 1 closed (done),
 * k + 2 committing, with k steps made. It goes in by value, and each call hands it back. After a refused pool_begin or pool_save: id 0, no
 * entries, closed.
 */
typedef struct {
    uint64_t id;
    size_t count;
    size_t phase;
} pool_transaction;

typedef struct {
    size_t kind;
    size_t value;
    pool_transaction transaction;
} pool_reply;

/*
 * A recovery, made by pool_recover: the id of its pool; what it has to do: 0 nothing, 1 clear both seals, 2 nothing can be done (refused),
 * 2n + 3 replay log A with n entries, 2n + 4 replay log B with n entries; and its phase: 0 finished, k + 1 recovering, with k steps made.
 * It goes from call to call as a transaction does. After a refused pool_recover: id 0, work 2, finished.
 */
typedef struct {
    uint64_t id;
    size_t work;
    size_t phase;
} pool_recovery;

typedef struct {
    size_t kind;
    size_t value;
    pool_recovery recovery;
} pool_recovery_reply;

/* The part of the pool that holds an object's body. If refusal is not 0, offset and length are 0. */
typedef struct {
    size_t refusal;
    size_t offset;
    size_t length;
} pool_part;

/* Whether an object was found, 0 or 1, and its address. If refusal is not 0, or nothing was found, found and address are 0. */
typedef struct {
    size_t refusal;
    size_t found;
    size_t address;
} pool_found;

/* Objects met, damaged ones, broken zones, columns with wrong parity. If refusal is not 0, the counts are 0. */
typedef struct {
    size_t refusal;
    size_t objects;
    size_t damaged;
    size_t broken;
    size_t columns;
} pool_counts;

/* How many bytes of the pool repair altered. If refusal is not 0, altered is 0. */
typedef struct {
    size_t refusal;
    size_t altered;
} pool_repaired;

/*
 * The errors that wait, the oldest first; count tells how many. It goes in by value and comes back from each command; a caller keeps it between
 * commands and starts with zeros. With more than ten errors, or one that is not of the six, it counts as empty. Places that are not used are
 * not judged, and are zero in what comes back.
 */
typedef struct {
    size_t count;
    uint16_t errors[POOL_ERRORS];
} pool_errors;

/*
 * What pool_command did, one of POOL_OBEYED_...; value is the offset of a recalled set-up, length its length or that of the printed line; both
 * are 0 otherwise. The transaction is one that no call takes unless kind is POOL_OBEYED_SAVING.
 */
typedef struct {
    size_t kind;
    size_t value;
    size_t length;
    pool_errors errors;
    pool_transaction transaction;
} pool_obeyed;

/* ---- The pool. pool_format and pool_mend answer 0, or the refusal. Pass a barrier after them and after pool_repair, before any commit. */

/*
 * Makes a fresh pool: `zones` (1 to 16) zones, each of `rows` (1 to 15) data rows and a parity row, `cols` (1 to 64) pages a row. The id
 * is any number but 0; whether another pool has it is not looked for. Refusals 1, 2.
 */
size_t pool_format(uint8_t *pool, size_t pool_length, size_t rows, size_t cols, size_t zones, uint64_t id);

/* Copies the valid header over an invalid one. Refusals 2, 3, 4. */
size_t pool_mend(uint8_t *pool, size_t pool_length);

/* Where the body of the object at this address lies: committed bytes only. Refusals 2, 3, 4, 21, 5, 23, 24, 25. */
pool_part pool_look(const uint8_t *pool, size_t pool_length, size_t address);

/*
 * Finds the object with this tag, committed bytes only: the lowest address at or above `from`, so 0 asks for the lowest of all. Every zone is
 * judged before the answer; damage hides no object. Nothing found is no refusal. Refusals 2, 3, 4, 21, 23.
 */
pool_found pool_look_up(const uint8_t *pool, size_t pool_length, uint32_t tag, size_t from);

/* Judges every object, zone and column. Refusals 2, 3, 4, 21. */
pool_counts pool_scrub(const uint8_t *pool, size_t pool_length);

/*
 * Rebuilds lost pages from the others of their columns. `lost` has one mask a column, zone by zone: bit r means row r is lost, bit
 * `rows` the parity row. Answers how many bytes differ from before, at most 256 for each page named: 0 if every page named was as its
 * column says. It is no verdict on which page of a column was wrong. Refusals 2, 3, 4, 21, 8, 28.
 */
pool_repaired pool_repair(uint8_t *pool, size_t pool_length, const uint16_t *lost, size_t lost_length);

/* The check of these bytes: the two sums of Adler-32. */
uint32_t pool_check(const uint8_t *bytes, size_t length);

/* ---- A transaction. Its entries lie in the lent staging memory; until its commit is done, only these calls may change that memory. */

/* Begins a transaction on this pool: open, without entries. POOL_TAKEN; refusals 2, 3, 4, 21. */
pool_reply pool_begin(const uint8_t *pool, size_t pool_length);

/* Allocates an object with this tag and body. POOL_ADDRESS; refusals 2, 3, 4, 9, 10, 11, 29, 21, 6, 23, 26, 27. */
pool_reply pool_allocate(pool_transaction transaction, const uint8_t *pool, size_t pool_length, uint8_t *staging, size_t staging_length,
                         uint32_t tag, const uint8_t *body, size_t body_length);

/*
 * Writes bytes over the body of the object at this address, from its byte `at` on. POOL_TAKEN; refusals 2, 3, 4, 9, 10, 11, 29, 21, 5, 23,
 * 24, 25, 7, 27.
 */
pool_reply pool_write(pool_transaction transaction, const uint8_t *pool, size_t pool_length, uint8_t *staging, size_t staging_length,
                      size_t address, size_t at, const uint8_t *bytes, size_t bytes_length);

/* Frees the object at this address. POOL_TAKEN; refusals 2, 3, 4, 9, 10, 11, 29, 21, 5, 23, 24, 25, 27. */
pool_reply pool_free(pool_transaction transaction, const uint8_t *pool, size_t pool_length, uint8_t *staging, size_t staging_length,
                     size_t address);

/* Starts the commit and makes no store. POOL_STARTED, or POOL_DONE with 0 if nothing is staged; refusals 2, 3, 4, 9, 10, 11, 29, 21. */
pool_reply pool_commit(pool_transaction transaction, const uint8_t *pool, size_t pool_length, const uint8_t *staging,
                       size_t staging_length);

/*
 * Makes the commit's next step: one aligned 8-byte store, or one barrier. POOL_STORED, POOL_BARRIER or POOL_DONE; refusals 2, 3, 4, 9,
 * 10, 11, 29, and 21 at the first step. The library passes no barrier itself: after POOL_BARRIER and POOL_DONE the caller does, so that all
 * stores made so far have reached memory.
 */
pool_reply pool_commit_step(pool_transaction transaction, uint8_t *pool, size_t pool_length, const uint8_t *staging,
                            size_t staging_length);

/*
 * Makes the commit's next steps, up to the next barrier and with it: a step, and the next one as long as POOL_STORED is the answer. From
 * the start these are 4n + 1, 3, n + 1, n + 1 and 3 steps for n entries. The answer is that of the last step made, POOL_BARRIER or
 * POOL_DONE, and so is the record handed back; refusals as for pool_commit_step, at the first of the steps alone, so that a refused call
 * changes nothing. Each word is stored as pool_commit_step stores it, in the same order, and the power may fail between any two. Both
 * calls may follow each other in any way; pool_commit_step is for whoever must bound the time of one call.
 */
pool_reply pool_commit_advance(pool_transaction transaction, uint8_t *pool, size_t pool_length, const uint8_t *staging,
                               size_t staging_length);

/*
 * ---- Set-ups 0 to 9, each of 120 bytes. Set-up n is the object with tag 100 + n, the lowest address if several. As long as no other call
 * allocates, writes or frees an object with such a tag, they are a table of ten places, also over power cuts: a save that was cut leaves,
 * after recovery, the old bytes or the new ones.
 */

/*
 * Begins a transaction on this pool and stages set-up `number` in it: allocates the object (POOL_ADDRESS) or, if it is there, writes it whole
 * (POOL_TAKEN). The set-up is saved by what follows, as any transaction: pool_commit, then pool_commit_advance, or pool_commit_step, with a
 * barrier after each POOL_BARRIER and POOL_DONE, until POOL_DONE; a transaction that is dropped instead changes nothing. Refusals, in this
 * order: 32, 33 (given), 2, 3, 4, 2, 9, 21, 23, 25, 33 (found), 26.
 */
pool_reply pool_save(const uint8_t *pool, size_t pool_length, uint8_t *staging, size_t staging_length, size_t number, const uint8_t *body,
                     size_t body_length);

/* Where the 120 bytes of set-up `number` lie: committed bytes only. Refusals, in this order: 32, 2, 3, 4, 2, 21, 23, 31, 25, 33 (found). */
pool_part pool_recall(const uint8_t *pool, size_t pool_length, size_t number);

/*
 * ---- Command lines. Obeys a line of at most 80 bytes, given without its line end: *SAV n and *RCL n, one blank before n, which is a number of
 * digits from 0 to 9 and runs to the line's end; SYSTem:ERRor?, each word short (SYST, ERR) or long; letters in either case. *SAV stages the 120
 * bytes at `setup`, which are looked at for a good *SAV alone; *RCL prints nothing and tells where the bytes lie; the query takes the oldest
 * error out of the queue and prints it into `out` with a line feed, as in -113,"Undefined header", or 0,"No error". What lies past the buffer's
 * end is left out; length is that of the whole line. An empty line does nothing. Any other line enters one error, and nothing else is done.
 * Unless POOL_OBEYED_SAVING is answered, the staging memory is as given; unless POOL_OBEYED_PRINTED, the buffer is.
 */
pool_obeyed pool_command(const uint8_t *line, size_t line_length, const uint8_t *setup, size_t setup_length, pool_errors errors,
                         const uint8_t *pool, size_t pool_length, uint8_t *staging, size_t staging_length, uint8_t *out, size_t out_length);

/*
 * ---- Recovery, after a power cut, before any other call on the pool. A recovery that is cut is started anew. If the fault that cut the
 * power also overwrote one log, and its seal is then zero or the log not valid, recovery is not refused, and the other log decides alone:
 * the objects are all new if the commit's seal had reached it, else all old.
 */

/* Starts a recovery of this pool and makes no store. POOL_STARTED, or POOL_DONE with 0 if there is nothing to do; refusals 2, 3, 4, 22. */
pool_recovery_reply pool_recover(const uint8_t *pool, size_t pool_length);

/* Makes the recovery's next step, as pool_commit_step does. Refusals 2, 3, 4, 10, 11, 29. */
pool_recovery_reply pool_recover_step(pool_recovery recovery, uint8_t *pool, size_t pool_length);

/*
 * Makes the recovery's next steps, up to the next barrier and with it, as pool_commit_advance does: from the start n + 1, n + 1 and 3
 * steps for n entries replayed, 3 if seals are cleared only. Refusals as for pool_recover_step.
 */
pool_recovery_reply pool_recover_advance(pool_recovery recovery, uint8_t *pool, size_t pool_length);

#ifdef __cplusplus
}
#endif

#endif
