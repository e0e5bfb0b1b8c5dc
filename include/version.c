/* The one call of tktext.h that isn't of the crate tktext_c, and isn't proved: tools/build_library.py says whether the
   rest is, by the text TKTEXT_PROVED. */

#include "tktext.h"

const char *tktext_version(void)
{
    return TKTEXT_VERSION ", " TKTEXT_PROVED;
}
