/* The calls of source.c, which is compiled where there is no assembly source. */
#ifndef TWOX_HASH_SOURCE_H
#define TWOX_HASH_SOURCE_H

#include "calls.h"

#define IS_IN_SOURCE(answer, name, parameters) answer source_##name parameters;
EACH_CALL(IS_IN_SOURCE)

#endif
