/* The functions that hash an input at once: xxh32_digest and so on, three of each algorithm. */
#ifndef TWOX_HASH_FUNCTIONS_H
#define TWOX_HASH_FUNCTIONS_H

#include "python.h"

extern PyMethodDef functions[];

#endif
