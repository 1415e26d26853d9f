#include "many.h"

#include <string.h>

#include "arguments.h"
#include "values.h"

/* The destination of digests, one after another: memory of the call's own, or the caller's buffer. */
struct destination {
    const struct algorithm *algorithm;
    unsigned char *start; /* of the digests */
    size_t digests, bytes;
    int has_numbers; /* they are written as native integers */
    int has_view;    /* whether the caller gave a buffer */
    int is_own;      /* whether `start` is memory of the call's own */
    Py_buffer view;
};

static void close_destination(struct destination *destination)
{
    if (destination->has_view) PyBuffer_Release(&destination->view);
    if (destination->is_own) PyMem_Free(destination->start);
}

/* Opens the caller's buffer, unless it is None. */
static int open_into(struct destination *destination, PyObject *into)
{
    if (into == Py_None) return 1;
    if (PyObject_GetBuffer(into, &destination->view, PyBUF_WRITABLE)) return 0;
    destination->has_view = 1;
    destination->start = destination->view.buf;
    if ((size_t)destination->view.len == destination->bytes) return 1;
    PyErr_Format(PyExc_ValueError, "into has %zd bytes, not those of %zu digests of %d bytes", destination->view.len,
                 destination->digests, destination->algorithm->digest_bytes);
    return 0;
}

/* Allocates space for this many digests. With `may_fail` they go into memory of the call's own first, so that an
 * invalid row leaves the caller's buffer unchanged. Returns 0 with an exception set if there is none. */
static int open_destination(struct destination *destination, const struct algorithm *algorithm, size_t digests,
                            PyObject *const *into, int may_fail)
{
    *destination = (struct destination){.algorithm = algorithm, .digests = digests, .has_numbers = into[1] == Py_True};
    if (digests > PY_SSIZE_T_MAX / algorithm->digest_bytes) {
        PyErr_Format(PyExc_OverflowError, "%zu digests of %d bytes are more than a buffer can have", digests,
                     algorithm->digest_bytes);
        return 0;
    }
    destination->bytes = digests * algorithm->digest_bytes;
    if (open_into(destination, into[0])) {
        if (destination->has_view && !may_fail) return 1;
        destination->start = PyMem_Malloc(destination->bytes);
        destination->is_own = destination->start != NULL;
        if (destination->is_own) return 1;
        PyErr_NoMemory();
    }
    close_destination(destination);
    return 0;
}

static void put(const struct destination *destination, size_t i, hash_value value)
{
    unsigned char *place = destination->start + i * destination->algorithm->digest_bytes;
    if (destination->has_numbers)
        write_number(place, destination->algorithm, value);
    else
        write_digest(place, destination->algorithm, value);
}

/* True if the caller's buffer overlaps a row. */
static int is_over(const struct destination *destination, const unsigned char *row, size_t length)
{
    const uintptr_t start = (uintptr_t)row, into = (uintptr_t)destination->view.buf;
    return destination->has_view && length && start < into + destination->bytes && into < start + length;
}

static PyObject *list_of(const struct destination *destination)
{
    const size_t bytes = destination->algorithm->digest_bytes;
    PyObject *list = PyList_New((Py_ssize_t)destination->digests);
    for (size_t i = 0; list && i < destination->digests; i++) {
        PyObject *digest = PyBytes_FromStringAndSize((const char *)destination->start + i * bytes, (Py_ssize_t)bytes);
        if (!digest || PyList_SetItem(list, (Py_ssize_t)i, digest)) Py_CLEAR(list);
    }
    return list;
}

/* Returns the result of a call after all digests are written, or null if they aren't. */
static PyObject *end(struct destination *destination, int is_done)
{
    PyObject *answer = NULL;
    if (is_done && destination->has_view) {
        if (destination->is_own) memcpy(destination->view.buf, destination->start, destination->bytes);
        answer = Py_NewRef(Py_None);
    } else if (is_done)
        answer = list_of(destination);
    close_destination(destination);
    return answer;
}

/* Adds the row's number to the exception of a row. */
static void name_row(size_t row)
{
    PyObject *type, *fault, *traceback;
    PyErr_Fetch(&type, &fault, &traceback);
    PyErr_NormalizeException(&type, &fault, &traceback);
    PyObject *module = PyImport_ImportModule("twox_hash._many");
    Py_XDECREF(module ? PyObject_CallMethod(module, "name_row", "On", fault, (Py_ssize_t)row) : NULL);
    Py_XDECREF(module);
    PyErr_Restore(type, fault, traceback);
}

/* Hashes a row of a tuple. */
static int hash_object(const struct destination *destination, const struct key *key, size_t i, PyObject *object)
{
    struct bytes row;
    if (!open_bytes(&row, object)) {
        name_row(i);
        return 0;
    }
    const int is_right = !is_over(destination, row.start, row.length);
    if (is_right)
        put(destination, i, hash_of(destination->algorithm, row.start, row.length, key));
    else
        PyErr_Format(PyExc_ValueError, "into overlaps row %zu", i);
    close_bytes(&row);
    return is_right;
}

PyObject *hasher_many(struct hasher *hasher, PyObject *const *args, Py_ssize_t count)
{
    const struct key key = hasher->algorithm->key_of(hasher->state);
    struct destination destination;
    if (count != 3 || !PyTuple_Check(args[0])) return PyErr_Format(PyExc_TypeError, "_many(rows, into, numbers)");
    if (!open_destination(&destination, hasher->algorithm, (size_t)PyTuple_Size(args[0]), args + 1, 1)) return NULL;
    int is_done = 1;
    for (size_t i = 0; is_done && i < destination.digests; i++)
        is_done = hash_object(&destination, &key, i, PyTuple_GetItem(args[0], (Py_ssize_t)i));
    return end(&destination, is_done);
}

/* The rows of a buffer. */
struct rows {
    const unsigned char *start;
    size_t count, width, bytes;
};

static void hash_rows(const struct destination *destination, const struct key *key, const struct rows *rows)
{
    for (size_t i = 0; i < rows->count; i++)
        put(destination, i, destination->algorithm->hash(rows->start + i * rows->width, rows->width, key));
}

/* Hashes the rows, with the GIL released if they are long together. */
static PyObject *digests_of_rows(const struct hasher *hasher, const struct rows *rows, PyObject *const *into)
{
    const struct key key = hasher->algorithm->key_of(hasher->state);
    struct destination destination;
    if (!open_destination(&destination, hasher->algorithm, rows->count, into, 0)) return NULL;
    if (is_over(&destination, rows->start, rows->bytes)) {
        PyErr_SetString(PyExc_ValueError, "into overlaps the rows");
        return end(&destination, 0);
    }
    if (rows->bytes < LONG_INPUT)
        hash_rows(&destination, &key, rows);
    else {
        Py_BEGIN_ALLOW_THREADS
        hash_rows(&destination, &key, rows);
        Py_END_ALLOW_THREADS
    }
    return end(&destination, 1);
}

PyObject *hasher_many_of_width(struct hasher *hasher, PyObject *const *args, Py_ssize_t count)
{
    struct bytes bytes;
    PyObject *answer = NULL;
    if (count != 4) return PyErr_Format(PyExc_TypeError, "_many_of_width(buffer, rows, into, numbers)");
    struct rows rows = {.count = PyLong_AsSize_t(args[1])};
    if (PyErr_Occurred() || !open_bytes(&bytes, args[0])) return NULL;
    rows.start = bytes.start;
    rows.width = rows.count ? bytes.length / rows.count : 0;
    rows.bytes = rows.width * rows.count;
    if (rows.bytes == bytes.length)
        answer = digests_of_rows(hasher, &rows, args + 2);
    else
        PyErr_Format(PyExc_ValueError, "%zu bytes are not %zu rows of one length", bytes.length, rows.count);
    close_bytes(&bytes);
    return answer;
}
