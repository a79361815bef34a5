/* libpmemobj on tmpfs: an object of 120 bytes allocated and filled in a transaction, and freed in another. */
#include <libpmemobj.h>
#include <stddef.h>
#include <stdint.h>
#include <string.h>
#include <unistd.h>

enum { BODY = 120, TYPE = 1 };

/* Opens a fresh pool file; NULL if that fails. */
void *pmemobj_open_fresh(const char *path)
{
    unlink(path);
    return pmemobj_create(path, "bench", 8 * PMEMOBJ_MIN_POOL, 0600);
}

void pmemobj_end(void *pool, const char *path)
{
    pmemobj_close(pool);
    unlink(path);
}

/* Saves one object in a transaction of its own. 0, or -1 if it was aborted. */
int pmemobj_save(void *pool, const uint8_t *body, PMEMoid *saved)
{
    volatile int result = 0;
    TX_BEGIN((PMEMobjpool *)pool)
    {
        *saved = pmemobj_tx_alloc(BODY, TYPE);
        memcpy(pmemobj_direct(*saved), body, BODY);
    }
    TX_ONABORT { result = -1; }
    TX_END
    return result;
}

/* Frees it in another. */
int pmemobj_release(void *pool, const PMEMoid *saved)
{
    volatile int result = 0;
    TX_BEGIN((PMEMobjpool *)pool) { pmemobj_tx_free(*saved); }
    TX_ONABORT { result = -1; }
    TX_END
    return result;
}

#define TEXT(x) #x
#define VERSION(major, minor) "interface " TEXT(major) "." TEXT(minor)

const char *version_of_pmemobj(void)
{
    return VERSION(PMEMOBJ_MAJOR_VERSION, PMEMOBJ_MINOR_VERSION);
}
