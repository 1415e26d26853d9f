/* The arguments of a call: an input, a seed, a secret. */
#ifndef TWOX_HASH_ARGUMENTS_H
#define TWOX_HASH_ARGUMENTS_H

#include "python.h"

#include "algorithms.h"

/* The bytes of an object, which don't move until close_bytes. */
struct bytes {
    const void *start;
    size_t length;
    int is_view; /* whether `view` has to be released */
    Py_buffer view;
};

/* Gets the bytes of a bytes-like object, or of a str in UTF-8. Returns 0 with an exception set if it has none. */
int open_bytes(struct bytes *bytes, PyObject *object);

static inline void close_bytes(struct bytes *bytes)
{
    if (bytes->is_view) PyBuffer_Release(&bytes->view);
}

/* A hash's arguments, from a call. The secret of the key is in `secret`. */
struct arguments {
    int has_input;
    struct bytes input;
    struct bytes secret;
    struct key key;
};

/* Parses the arguments of `name(input, seed=0, *, secret=None)`; only algorithms with a secret have the last one.
 * Without a name they are those of a constructor, which may omit the input. Returns 0 with an exception set if they are
 * invalid; otherwise close_arguments must be called. */
int open_arguments(struct arguments *arguments, const struct algorithm *algorithm, const char *name,
                   PyObject *const *args, Py_ssize_t count, PyObject *names);

/* Does the same for a constructor whose arguments are a tuple, and a dictionary or null. */
int open_arguments_of_tuple(struct arguments *arguments, const struct algorithm *algorithm, PyObject *args,
                            PyObject *keywords);

void close_arguments(struct arguments *arguments);

#endif
