/* What the module looks at before it calls anything: the header that the library was linked with. */
#include "../c/cornsunset.h"

const char cornsunset_version[] = CS_VERSION;
const uint32_t cornsunset_width = CS_WIDTH;
