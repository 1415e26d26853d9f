/* Values, and the three forms in which they are returned. */
#ifndef TWOX_HASH_VALUES_H
#define TWOX_HASH_VALUES_H

#include "python.h"

#include "algorithms.h"

/* The value of an input that doesn't move. The GIL is released if it is long. */
static inline hash_value hash_of(const struct algorithm *algorithm, const void *start, size_t length,
                                 const struct key *key)
{
    if (length < LONG_INPUT) return algorithm->hash(start, length, key);
    hash_value value;
    Py_BEGIN_ALLOW_THREADS
    value = algorithm->hash(start, length, key);
    Py_END_ALLOW_THREADS
    return value;
}

/* Writes the digest: the bytes of the value, the highest first. */
void write_digest(void *digest, const struct algorithm *algorithm, hash_value value);

/* Writes the value of a hash of at most 64 bits as an integer of its width, in the machine's byte order. */
void write_number(void *number, const struct algorithm *algorithm, hash_value value);

/* New objects: the digest as bytes, its hexadecimal digits, and the value as a number. */
PyObject *as_digest(const struct algorithm *algorithm, hash_value value);
PyObject *as_hexdigest(const struct algorithm *algorithm, hash_value value);
PyObject *as_intdigest(const struct algorithm *algorithm, hash_value value);

#endif
