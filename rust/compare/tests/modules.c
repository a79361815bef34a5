/*
 * Two modules of one shape: a save on the first, cut when the seals are stored, and its recovery; what is begun there is offered to the
 * second. Then a set-up on the first, and command lines. Prints every number of every reply: kind and value, then the record.
 */
#include <inttypes.h>
#include <stdio.h>
#include <string.h>

#include "pool.h"

#define LENGTH POOL_SIZE(2, 2, 1)

static uint8_t modules[2][LENGTH];
static uint8_t staging[POOL_STAGING];

static pool_transaction shown(const char *call, pool_reply r)
{
    printf("%s: %zu %zu (%" PRIx64 " %zu %zu)\n", call, r.kind, r.value, r.transaction.id, r.transaction.count, r.transaction.phase);
    return r.transaction;
}

static pool_recovery shown_recovery(const char *call, pool_recovery_reply r)
{
    printf("%s: %zu %zu (%" PRIx64 " %zu %zu)\n", call, r.kind, r.value, r.recovery.id, r.recovery.work, r.recovery.phase);
    return r.recovery;
}

/* Every call that takes a transaction: up to the barrier after the seals. */
static pool_transaction save(pool_transaction t, uint8_t *pool)
{
    t = shown("allocate", pool_allocate(t, pool, LENGTH, staging, POOL_STAGING, 5, (const uint8_t *)"abc", 3));
    t = shown("allocate", pool_allocate(t, pool, LENGTH, staging, POOL_STAGING, 6, (const uint8_t *)"defgh", 5));
    t = shown("write", pool_write(t, pool, LENGTH, staging, POOL_STAGING, 1, 2, (const uint8_t *)"xy", 2));
    t = shown("free", pool_free(t, pool, LENGTH, staging, POOL_STAGING, 0));
    t = shown("commit", pool_commit(t, pool, LENGTH, staging, POOL_STAGING));
    t = shown("commit step", pool_commit_step(t, pool, LENGTH, staging, POOL_STAGING));
    t = shown("commit advance", pool_commit_advance(t, pool, LENGTH, staging, POOL_STAGING));
    return shown("commit advance", pool_commit_advance(t, pool, LENGTH, staging, POOL_STAGING));
}

/* Every call that takes a recovery: to its end. */
static pool_recovery recover(pool_recovery r, uint8_t *pool)
{
    r = shown_recovery("recover step", pool_recover_step(r, pool, LENGTH));
    r = shown_recovery("recover advance", pool_recover_advance(r, pool, LENGTH));
    r = shown_recovery("recover advance", pool_recover_advance(r, pool, LENGTH));
    return shown_recovery("recover advance", pool_recover_advance(r, pool, LENGTH));
}

/* Every call of set-ups, and the look-up; also refused. */
static void set_up(uint8_t *pool)
{
    static const uint8_t setup[POOL_SETUP_SIZE] = {1, 2, 3};
    shown("save of set-up 10", pool_save(pool, LENGTH, staging, POOL_STAGING, POOL_SETUPS, setup, POOL_SETUP_SIZE));
    shown("save, a byte short", pool_save(pool, LENGTH, staging, POOL_STAGING, 9, setup, POOL_SETUP_SIZE - 1));
    shown("save, staging a byte short", pool_save(pool, LENGTH, staging, POOL_STAGING - 1, 9, setup, POOL_SETUP_SIZE));
    for (size_t i = 0; i < 2; i++) {
        pool_transaction t = shown("save", pool_save(pool, LENGTH, staging, POOL_STAGING, 9, setup, POOL_SETUP_SIZE));
        t = shown("commit", pool_commit(t, pool, LENGTH, staging, POOL_STAGING));
        for (size_t call = 0; call < 5; call++)
            t = shown("commit advance", pool_commit_advance(t, pool, LENGTH, staging, POOL_STAGING));
        for (size_t from = 1; from < 4; from++) {
            pool_found f = pool_look_up(pool, LENGTH, POOL_SETUP_TAG(9), from);
            printf("look up from %zu: %zu %zu %zu\n", from, f.refusal, f.found, f.address);
        }
        for (size_t number = 8; number <= 10; number++) {
            pool_part p = pool_recall(pool, LENGTH, number);
            printf("recall %zu: %zu %zu %zu\n", number, p.refusal, p.offset, p.length);
        }
    }
}

/* Every kind of command line, with a queue that is handed on. */
static void obey(const uint8_t *pool)
{
    static const char *const lines[] = {"", "*SAV 9", "*RCL 9", "*IDN?", "*RCL 8", "*SAV 9", "SYST:ERR?", "SYST:ERR?", "SYST:ERR?"};
    static const uint8_t setup[POOL_SETUP_SIZE] = {4, 5, 6};
    static pool_errors errors;
    for (size_t i = 0; i < sizeof lines / sizeof lines[0]; i++) {
        uint8_t out[POOL_ERROR_LINE];
        pool_obeyed o = pool_command((const uint8_t *)lines[i], strlen(lines[i]), setup, sizeof setup, errors, pool, LENGTH, staging,
                                     POOL_STAGING, out, sizeof out);
        errors = o.errors;
        printf("line %s: %zu %zu %zu (%zu", lines[i], o.kind, o.value, o.length, errors.count);
        for (size_t place = 0; place < POOL_ERRORS; place++)
            printf(" %" PRIu16, errors.errors[place]);
        printf(") (%" PRIx64 " %zu %zu)\n", o.transaction.id, o.transaction.count, o.transaction.phase);
        if (o.kind == POOL_OBEYED_PRINTED)
            printf("%.*s", (int)o.length, (const char *)out);
    }
}

static void show_objects(void)
{
    for (size_t i = 0; i < 2; i++)
        printf("objects of module %zu: %zu\n", i, pool_scrub(modules[i], LENGTH).objects);
}

int main(void)
{
    for (size_t i = 0; i < 2; i++)
        printf("format: %zu\n", pool_format(modules[i], LENGTH, 2, 2, 1, UINT64_C(0xFEDCBA9876543210) + i));
    shown("begin, a byte short", pool_begin(modules[0], LENGTH - 1));
    pool_transaction t = shown("begin", pool_begin(modules[0], LENGTH));
    puts("on the other module");
    save(t, modules[1]);
    puts("on its own");
    t = save(t, modules[0]);
    puts("on the other module");
    save(t, modules[1]);
    shown_recovery("recover, a byte short", pool_recover(modules[0], LENGTH - 1));
    pool_recovery r = shown_recovery("recover", pool_recover(modules[0], LENGTH));
    puts("on the other module");
    recover(r, modules[1]);
    puts("on its own");
    r = recover(r, modules[0]);
    puts("on the other module");
    recover(r, modules[1]);
    show_objects();
    set_up(modules[0]);
    show_objects();
    obey(modules[0]);
    return 0;
}
