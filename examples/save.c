/*
 * A first program with the pool: a set-up is saved as an object, the power fails in the middle of a commit, the pool is recovered and
 * the object read back; then its page is lost and rebuilt.
 *
 * The memory is modelled here by two arrays: `pool` is what the processor sees, `stable` what has reached the memory module. On a
 * device `pool` is the module itself, `barrier` flushes and fences, and a power cut needs no code.
 */
#include <stdio.h>
#include <stdlib.h>
#include <string.h>

#include "pool.h"

#define LENGTH POOL_SIZE(2, 2, 1) /* 2 data rows of 2 pages, 1 zone */

static uint64_t words[LENGTH / 8]; /* begins at a multiple of 8, as a pool does that is to survive power cuts */
static uint8_t *const pool = (uint8_t *)words;
static uint8_t stable[LENGTH];
static uint8_t staging[POOL_STAGING];

/* All stores made so far have reached memory. */
static void barrier(void)
{
    memcpy(stable, pool, LENGTH);
}

/* The power fails: of the words stored since the last barrier every second one has reached memory, the first included. */
static void power_cut(void)
{
    size_t stores = 0;
    for (size_t at = 0; at < LENGTH; at += 8) {
        if (memcmp(stable + at, pool + at, 8) != 0 && stores++ % 2 == 0)
            memcpy(stable + at, pool + at, 8);
    }
    memcpy(pool, stable, LENGTH);
}

/* Ends the program if a call was refused. */
static void require(const char *call, size_t refusal)
{
    if (refusal != 0) {
        printf("%s: refusal %zu\n", call, refusal);
        exit(1);
    }
}

static pool_transaction taken(const char *call, pool_reply reply)
{
    require(call, reply.kind == POOL_REFUSED ? reply.value : 0);
    return reply.transaction;
}

/* Commits: each call makes the stores up to the next barrier, which is passed after it. */
static void commit(pool_transaction transaction)
{
    pool_reply reply = pool_commit(transaction, pool, LENGTH, staging, POOL_STAGING);
    taken("commit", reply);
    while (reply.kind != POOL_DONE) {
        reply = pool_commit_advance(reply.transaction, pool, LENGTH, staging, POOL_STAGING);
        taken("commit to the next barrier", reply);
        barrier();
    }
    printf("committed in %zu steps\n", reply.value);
}

/* Commits by single steps, until the power fails after so many: on a device it can fail there within pool_commit_advance. */
static void commit_until_cut(pool_transaction transaction, size_t steps)
{
    pool_reply reply = pool_commit(transaction, pool, LENGTH, staging, POOL_STAGING);
    taken("commit", reply);
    while (reply.value != steps) {
        reply = pool_commit_step(reply.transaction, pool, LENGTH, staging, POOL_STAGING);
        taken("commit step", reply);
        if (reply.kind != POOL_STORED)
            barrier();
    }
    power_cut();
    printf("power cut after step %zu of the commit\n", steps);
}

/* After every power-up, before any other call. */
static void recover(void)
{
    pool_recovery_reply reply = pool_recover(pool, LENGTH);
    require("recover", reply.kind == POOL_REFUSED ? reply.value : 0);
    while (reply.kind != POOL_DONE) {
        reply = pool_recover_advance(reply.recovery, pool, LENGTH);
        require("recover to the next barrier", reply.kind == POOL_REFUSED ? reply.value : 0);
        barrier();
    }
    printf("recovered in %zu steps\n", reply.value);
}

/* A fresh transaction on the pool. */
static pool_transaction begin(void)
{
    return taken("begin", pool_begin(pool, LENGTH));
}

/* A new object, in a transaction of its own. Answers its address. */
static size_t save(uint32_t tag, const char *text)
{
    pool_reply reply = pool_allocate(begin(), pool, LENGTH, staging, POOL_STAGING, tag, (const uint8_t *)text, strlen(text));
    commit(taken("allocate", reply));
    return reply.value;
}

/* Other bytes for an object, in a transaction of its own, whose commit is cut after so many steps. */
static void replace_until_cut(size_t address, const char *text, size_t steps)
{
    pool_reply reply = pool_write(begin(), pool, LENGTH, staging, POOL_STAGING, address, 0, (const uint8_t *)text, strlen(text));
    commit_until_cut(taken("write", reply), steps);
}

static void show(size_t address)
{
    pool_part body = pool_look(pool, LENGTH, address);
    require("look", body.refusal);
    printf("object %zu: %.*s\n", address, (int)body.length, (const char *)pool + body.offset);
}

/* The zone's first page, which holds the object, is lost: row 0 of column 0. Repair tells how many bytes were not as they are now. */
static void lose_page_and_repair(void)
{
    const uint16_t lost[2] = {1, 0};
    memset(pool + 18 * 256, 0xEE, 256);
    pool_repaired repaired = pool_repair(pool, LENGTH, lost, 2);
    require("repair", repaired.refusal);
    barrier();
    printf("repair: %zu bytes altered\n", repaired.altered);
}

int main(void)
{
    require("format", pool_format(pool, LENGTH, 2, 2, 1, 1));
    barrier();
    printf("formatted, %zu bytes\n", (size_t)LENGTH);

    size_t address = save(1, "1 kHz, 0.5 V");
    show(address);

    replace_until_cut(address, "2 kHz, 1.0 V", 9); /* no seal is stored yet: the old bytes stay */
    recover();
    show(address);

    replace_until_cut(address, "2 kHz, 1.0 V", 18); /* both seals have reached memory: the new bytes are there, after recovery */
    if (pool_look(pool, LENGTH, address).refusal != POOL_REFUSED_SEALED) {
        printf("look before recovery: not refused\n");
        return 1;
    }
    recover();
    show(address);

    lose_page_and_repair();
    show(address);

    pool_counts counts = pool_scrub(pool, LENGTH);
    require("scrub", counts.refusal);
    printf("%zu object, %zu damaged, %zu zones broken, %zu columns with wrong parity\n", counts.objects, counts.damaged, counts.broken,
           counts.columns);
    return 0;
}
