/* What libfernmoldew has besides the proved functions. */
#include "fernmoldew.h"

const char *fern_version(void) {
    return FERN_VERSION;
}
