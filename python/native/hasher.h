/* The hash objects: xxh32, xxh64, xxh3_64 and xxh3_128. */
#ifndef TWOX_HASH_HASHER_H
#define TWOX_HASH_HASHER_H

#include "python.h"

#include "algorithms.h"

/* An object. Everything that it was given is in its state, including its seed and its secret. */
struct hasher {
    PyObject_HEAD
    const struct algorithm *algorithm;
    PyThread_type_lock lock; /* null until a thread releases the GIL while it uses the state */
    uint64_t state[];
};

static inline PyTypeObject *type_of(struct hasher *hasher)
{
    return Py_TYPE((PyObject *)hasher);
}

/* Acquire the state for this thread, and release it. The thread holds the GIL. */
void enter(struct hasher *hasher);
void leave(struct hasher *hasher);

/* Adds the four types to the module. Returns 0 with an exception set if it can't. */
int add_types(PyObject *module);

#endif
