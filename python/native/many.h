/* Digests of many rows in one call, with the seed and the secret of an object. twox_hash/_many.py calls these. */
#ifndef TWOX_HASH_MANY_H
#define TWOX_HASH_MANY_H

#include "hasher.h"

/* _many(rows, into, numbers): of a tuple of bytes-like objects or str. */
PyObject *hasher_many(struct hasher *hasher, PyObject *const *args, Py_ssize_t count);

/* _many_of_width(buffer, rows, into, numbers): of that many adjacent rows of a buffer, all of one length. */
PyObject *hasher_many_of_width(struct hasher *hasher, PyObject *const *args, Py_ssize_t count);

/* Both return a list of digests. If `into` isn't None they write the digests there, one after another, and return
 * None: as native integers if `numbers` is True. */

#endif
