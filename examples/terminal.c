/*
 * A terminal: lines are read from standard input and obeyed, until it ends. *SAV n stores the present set-up, *RCL n brings a stored one back,
 * SYSTem:ERRor? prints the oldest error. A line that begins with '>' stands for the front panel, and never reaches the command reader: '>text'
 * makes the text the present set-up, '>' alone shows it.
 *
 * The pool lies in plain memory here, and lives as long as the program. On a device it is the memory module itself: then it is formatted once,
 * and recovered at every power-up.
 */
#include <stdio.h>
#include <stdlib.h>
#include <string.h>

#include "pool.h"

#define LENGTH POOL_SIZE(4, 2, 1) /* 4 data rows of 2 pages, 1 zone: room for ten set-ups */

static uint64_t words[LENGTH / 8]; /* begins at a multiple of 8, as a pool does that is to survive power cuts */
static uint8_t *const pool = (uint8_t *)words;
static uint8_t staging[POOL_STAGING];

static uint8_t present[POOL_SETUP_SIZE]; /* the present set-up: a text, filled up with blanks */
static pool_errors errors;               /* those that wait for the query: none at the start */

/* All stores made so far reach memory: on a device, a flush of each line stored to, and a fence. Plain memory needs nothing. */
static void barrier(void)
{
}

/* Ends the program if a call was refused. */
static void require(const char *call, size_t refusal)
{
    if (refusal != 0) {
        printf("%s: refusal %zu\n", call, refusal);
        exit(1);
    }
}

/* After every power-up, before any other call. */
static void recover(void)
{
    pool_recovery_reply reply = pool_recover(pool, LENGTH);
    require("recover", reply.kind == POOL_REFUSED ? reply.value : 0);
    while (reply.kind != POOL_DONE) {
        reply = pool_recover_advance(reply.recovery, pool, LENGTH);
        require("recover to the next barrier", reply.kind == POOL_REFUSED ? reply.value : 0);
        barrier();
    }
}

/* Stores what *SAV has staged. Each call to pool_commit_advance makes the stores up to the next barrier, which is passed after it. */
static void store(pool_transaction transaction)
{
    pool_reply reply = pool_commit(transaction, pool, LENGTH, staging, POOL_STAGING);
    require("commit", reply.kind == POOL_REFUSED ? reply.value : 0);
    while (reply.kind != POOL_DONE) {
        reply = pool_commit_advance(reply.transaction, pool, LENGTH, staging, POOL_STAGING);
        require("commit to the next barrier", reply.kind == POOL_REFUSED ? reply.value : 0);
        barrier();
    }
}

/* A line for the command reader. */
static void obey(const uint8_t *line, size_t length)
{
    uint8_t out[POOL_ERROR_LINE];
    pool_obeyed obeyed = pool_command(line, length, present, POOL_SETUP_SIZE, errors, pool, LENGTH, staging, POOL_STAGING, out, sizeof out);
    errors = obeyed.errors;
    switch (obeyed.kind) {
    case POOL_OBEYED_SAVING:
        store(obeyed.transaction);
        break;
    case POOL_OBEYED_RECALLED:
        memcpy(present, pool + obeyed.value, obeyed.length);
        break;
    case POOL_OBEYED_PRINTED:
        fwrite(out, 1, obeyed.length, stdout);
        break;
    }
}

/* The front panel: a text becomes the present set-up; without one, the present set-up is shown. */
static void panel(const uint8_t *text, size_t length)
{
    if (length > 0) {
        memset(present, ' ', POOL_SETUP_SIZE);
        memcpy(present, text, length);
        return;
    }
    length = POOL_SETUP_SIZE;
    while (length > 0 && present[length - 1] == ' ')
        length--;
    fwrite(present, 1, length, stdout);
    putchar('\n');
}

/*
 * Reads a line, without its end; answers 0 if there is none. What the buffer has no room for is dropped: it holds '>' and a whole set-up, so
 * that a command line of more than 80 bytes stays one.
 */
static int read_line(uint8_t *line, size_t size, size_t *length)
{
    int c = getchar();
    if (c == EOF)
        return 0;
    for (*length = 0; c != EOF && c != '\n'; c = getchar()) {
        if (*length < size)
            line[(*length)++] = (uint8_t)c;
    }
    return 1;
}

int main(void)
{
    uint8_t line[1 + POOL_SETUP_SIZE];
    size_t length;

    require("format", pool_format(pool, LENGTH, 4, 2, 1, 1));
    barrier();
    recover();
    memset(present, ' ', POOL_SETUP_SIZE);

    while (read_line(line, sizeof line, &length)) {
        if (length > 0 && line[0] == '>')
            panel(line + 1, length - 1);
        else
            obey(line, length);
    }
    return 0;
}
