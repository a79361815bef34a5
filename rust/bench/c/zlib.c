/* zlib's adler32: the same value as the check. */
#include <stddef.h>
#include <stdint.h>
#include <zlib.h>

uint32_t zlib_check(const uint8_t *bytes, size_t length)
{
    return (uint32_t)adler32(1, bytes, (uInt)length);
}

const char *version_of_zlib(void)
{
    return zlibVersion();
}
