/* A library without ayresokum_version, as all were before version 1: compare/library.py must not load it. */
#include <ayresokum.h>

ayresokum_settled ayresokum_settle(ayresokum_settings settings)
{
    const ayresokum_settled refused = { AYRESOKUM_DEPTH, 0, 0, 0, 0, 0, 0, 0, 0, 0 };
    (void)settings;
    return refused;
}
