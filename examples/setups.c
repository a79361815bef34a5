/*
 * Ten set-ups, as behind *SAV and *RCL: each is saved and recalled by its number; then one is saved anew, and the power fails in the middle.
 * After recovery it is wholly the old one or wholly the new one, and the others are as they were.
 *
 * The memory is modelled here by two arrays: `pool` is what the processor sees, `stable` what has reached the memory module. On a
 * device `pool` is the module itself, `barrier` flushes and fences, and a power cut needs no code.
 */
#include <stdio.h>
#include <stdlib.h>
#include <string.h>

#include "pool.h"

#define LENGTH POOL_SIZE(4, 2, 1) /* 4 data rows of 2 pages, 1 zone: room for ten set-ups */

static uint64_t words[LENGTH / 8]; /* begins at a multiple of 8, as a pool does that is to survive power cuts */
static uint8_t *const pool = (uint8_t *)words;
static uint8_t stable[LENGTH];
static uint8_t staging[POOL_STAGING];

/* All stores made so far have reached memory. */
static void barrier(void)
{
    memcpy(stable, pool, LENGTH);
}

/* The power fails: of the words stored since the last barrier every second one has reached memory, the first included. */
static void power_cut(void)
{
    size_t stores = 0;
    for (size_t at = 0; at < LENGTH; at += 8) {
        if (memcmp(stable + at, pool + at, 8) != 0 && stores++ % 2 == 0)
            memcpy(stable + at, pool + at, 8);
    }
    memcpy(pool, stable, LENGTH);
}

/* Ends the program if a call was refused. */
static void require(const char *call, size_t refusal)
{
    if (refusal != 0) {
        printf("%s: refusal %zu\n", call, refusal);
        exit(1);
    }
}

/* The 120 bytes of a set-up: here a text, with zeros behind it. */
static const uint8_t *setup(const char *wave, unsigned hertz, unsigned millivolts)
{
    static uint8_t bytes[POOL_SETUP_SIZE];
    memset(bytes, 0, sizeof bytes);
    snprintf((char *)bytes, sizeof bytes, "%s, %u Hz, %u mV", wave, hertz, millivolts);
    return bytes;
}

/* *SAV: saves a set-up. Each call to pool_commit_advance makes the stores up to the next barrier, which is passed after it. */
static size_t save(size_t number, const uint8_t *bytes, size_t length)
{
    pool_reply reply = pool_save(pool, LENGTH, staging, POOL_STAGING, number, bytes, length);
    if (reply.kind != POOL_REFUSED)
        reply = pool_commit(reply.transaction, pool, LENGTH, staging, POOL_STAGING);
    while (reply.kind != POOL_REFUSED && reply.kind != POOL_DONE) {
        reply = pool_commit_advance(reply.transaction, pool, LENGTH, staging, POOL_STAGING);
        if (reply.kind != POOL_REFUSED)
            barrier();
    }
    return reply.kind == POOL_REFUSED ? reply.value : 0;
}

/* The same by single steps, until the power fails after so many: on a device it can fail there within pool_commit_advance. */
static void save_until_cut(size_t number, const uint8_t *bytes, size_t steps)
{
    pool_reply reply = pool_save(pool, LENGTH, staging, POOL_STAGING, number, bytes, POOL_SETUP_SIZE);
    require("save", reply.kind == POOL_REFUSED ? reply.value : 0);
    reply = pool_commit(reply.transaction, pool, LENGTH, staging, POOL_STAGING);
    require("commit", reply.kind == POOL_REFUSED ? reply.value : 0);
    while (reply.value != steps) {
        reply = pool_commit_step(reply.transaction, pool, LENGTH, staging, POOL_STAGING);
        require("commit step", reply.kind == POOL_REFUSED ? reply.value : 0);
        if (reply.kind != POOL_STORED)
            barrier();
    }
    power_cut();
    printf("power cut after step %zu of a save of set-up %zu\n", steps, number);
}

/* After every power-up, before any other call. */
static void recover(void)
{
    pool_recovery_reply reply = pool_recover(pool, LENGTH);
    require("recover", reply.kind == POOL_REFUSED ? reply.value : 0);
    while (reply.kind != POOL_DONE) {
        reply = pool_recover_advance(reply.recovery, pool, LENGTH);
        require("recover to the next barrier", reply.kind == POOL_REFUSED ? reply.value : 0);
        barrier();
    }
    printf("recovered in %zu steps\n", reply.value);
}

/* *RCL: recalls a set-up, and prints it. */
static void recall(size_t number)
{
    pool_part part = pool_recall(pool, LENGTH, number);
    if (part.refusal != 0)
        printf("set-up %zu: refusal %zu\n", number, part.refusal);
    else
        printf("set-up %zu: %.*s\n", number, (int)part.length, (const char *)pool + part.offset);
}

int main(void)
{
    require("format", pool_format(pool, LENGTH, 4, 2, 1, 1));
    barrier();
    printf("formatted, %zu bytes\n", (size_t)LENGTH);

    recall(3); /* nothing is saved yet */
    for (unsigned number = 0; number < POOL_SETUPS; number++)
        require("save", save(number, setup("sine", 1000 * (number + 1), 500), POOL_SETUP_SIZE));
    for (size_t number = 0; number <= POOL_SETUPS; number++)
        recall(number); /* there is no set-up 10 */
    printf("a save of 119 bytes: refusal %zu\n", save(3, setup("square", 50, 2000), POOL_SETUP_SIZE - 1));

    save_until_cut(3, setup("square", 50, 2000), 65); /* no seal is stored yet: the old set-up stays */
    recover();
    recall(3);

    save_until_cut(3, setup("square", 50, 2000), 66); /* a seal has reached memory: the new one is there, after recovery */
    recall(3);
    recover();
    recall(3);
    recall(4);

    pool_found found = pool_look_up(pool, LENGTH, POOL_SETUP_TAG(3), 0);
    require("look up", found.refusal);
    printf("set-up 3 is the object at address %zu\n", found.address);

    pool_counts counts = pool_scrub(pool, LENGTH);
    require("scrub", counts.refusal);
    printf("%zu objects, %zu damaged, %zu zones broken, %zu columns with wrong parity\n", counts.objects, counts.damaged, counts.broken,
           counts.columns);
    return 0;
}
