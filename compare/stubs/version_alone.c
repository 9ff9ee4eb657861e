/* A library of this version that lacks every other function: compare/library.py must not load it and must name them. */
#include <ayresokum.h>

uint32_t ayresokum_version(void)
{
    return AYRESOKUM_VERSION;
}
