/* A library of the next version, which compare/library.py must not load. */
#include <ayresokum.h>

uint32_t ayresokum_version(void)
{
    return AYRESOKUM_VERSION + 1;
}
