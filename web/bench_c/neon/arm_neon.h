/* The names of ARM's vectors over those of WebAssembly, by Debian's libsimde-dev. */
#define SIMDE_ENABLE_NATIVE_ALIASES
#include <simde/arm/neon.h>
