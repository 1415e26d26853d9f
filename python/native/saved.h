/* Saving and loading an object: twox_hash/_states.py writes and reads the JSON. */
#ifndef TWOX_HASH_SAVED_H
#define TWOX_HASH_SAVED_H

#include "hasher.h"

PyObject *hasher_state(struct hasher *hasher, PyObject *none);
PyObject *hasher_from_state(PyObject *type, PyObject *state);
PyObject *hasher_reduce(struct hasher *hasher, PyObject *none);

/* The state in memory. A forged one does no harm: each call tests what it needs, and the length
 * of the secret is tested here. */
PyObject *hasher_memory(struct hasher *hasher, PyObject *none);
PyObject *hasher_set_memory(struct hasher *hasher, PyObject *memory);

#endif
