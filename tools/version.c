/* tools/version.c: gvrs_version, a function of the installed libraries. */
#include "gvrs.h"

const char *gvrs_version(void) {
    return GVRS_LIBRARY_VERSION;
}
