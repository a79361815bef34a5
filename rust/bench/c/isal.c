/* ISA-L's xor_gen: the last of the pages becomes the exclusive or of the others. The pages are aligned. */
#include <isa-l.h>
#include <stddef.h>

int isal_xor(void **pages, size_t count)
{
    return xor_gen((int)count, 256, pages);
}

#define TEXT(x) #x
#define VERSION(major, minor, patch) TEXT(major) "." TEXT(minor) "." TEXT(patch)

const char *version_of_isal(void)
{
    return VERSION(ISAL_MAJOR_VERSION, ISAL_MINOR_VERSION, ISAL_PATCH_VERSION);
}
