/* The version of the library, which tools/make-library defines as RUZGALT_VERSION. */
#include "ruzgalt.h"

const char *ruzgalt_version(void) { return RUZGALT_VERSION; }
