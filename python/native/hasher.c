#include "hasher.h"

#include <string.h>

#include "arguments.h"
#include "many.h"
#include "saved.h"
#include "state_sizes.h"
#include "values.h"

void enter(struct hasher *hasher)
{
    if (!hasher->lock || PyThread_acquire_lock(hasher->lock, NOWAIT_LOCK)) return;
    Py_BEGIN_ALLOW_THREADS
    PyThread_acquire_lock(hasher->lock, WAIT_LOCK);
    Py_END_ALLOW_THREADS
}

void leave(struct hasher *hasher)
{
    if (hasher->lock) PyThread_release_lock(hasher->lock);
}

/* Hashes a chunk with the GIL released. The lock exists. */
static void take_long(struct hasher *hasher, const void *start, size_t length)
{
    Py_BEGIN_ALLOW_THREADS
    PyThread_acquire_lock(hasher->lock, WAIT_LOCK);
    hasher->algorithm->take(hasher->state, start, length);
    PyThread_release_lock(hasher->lock);
    Py_END_ALLOW_THREADS
}

/* Hashes a chunk. If there is no memory for a lock, the GIL is kept. */
static void take(struct hasher *hasher, const void *start, size_t length)
{
    if (length >= LONG_INPUT && !hasher->lock) hasher->lock = PyThread_allocate_lock();
    if (length >= LONG_INPUT && hasher->lock) {
        take_long(hasher, start, length);
        return;
    }
    enter(hasher);
    hasher->algorithm->take(hasher->state, start, length);
    leave(hasher);
}

static void start(struct hasher *hasher, const struct key *key)
{
    enter(hasher);
    hasher->algorithm->start(hasher->state, key);
    leave(hasher);
}

/* ---- Construction and destruction ---- */

/* Allocates an object whose state is not written yet. */
static struct hasher *unwritten(PyTypeObject *type, const struct algorithm *algorithm)
{
    struct hasher *hasher = PyObject_New(struct hasher, type);
    if (!hasher) return NULL;
    hasher->algorithm = algorithm;
    hasher->lock = NULL;
    return hasher;
}

/* Creates an object before __init__: one of no bytes, with the seed 0. */
static PyObject *new_of(PyTypeObject *type, const struct algorithm *algorithm)
{
    struct hasher *hasher = unwritten(type, algorithm);
    if (hasher) algorithm->start(hasher->state, &(struct key){0});
    return (PyObject *)hasher;
}

/* Resets with the key, and hashes the input if there is one. */
static int begin(struct hasher *hasher, const struct arguments *arguments)
{
    const struct key *key = &arguments->key;
    if (key->secret && key->secret_length > GREATEST_SECRET) {
        PyErr_Format(PyExc_ValueError, "The secret of an object must have at most %d bytes", GREATEST_SECRET);
        return 0;
    }
    start(hasher, key);
    if (arguments->has_input) take(hasher, arguments->input.start, arguments->input.length);
    return 1;
}

static int hasher_init(struct hasher *hasher, PyObject *args, PyObject *keywords)
{
    struct arguments arguments;
    if (!open_arguments_of_tuple(&arguments, hasher->algorithm, args, keywords)) return -1;
    const int begun = begin(hasher, &arguments);
    close_arguments(&arguments);
    return begun ? 0 : -1;
}

/* A call of a type creates and initializes an object at once, if a type has a slot for that: the limited interface
 * calls new, and then init. */
#ifdef Py_LIMITED_API
#define FAST_CALL(algorithm)
#define SET_FAST_CALL(type, algorithm)
#else
#define FAST_CALL(algorithm) \
    static PyObject *algorithm##_call(PyObject *type, PyObject *const *args, size_t count, PyObject *names) \
    { \
        return begun_of((PyTypeObject *)type, &algorithm##_algorithm, args, count, names); \
    }
#define SET_FAST_CALL(type, algorithm) (type)->tp_vectorcall = algorithm##_call

static PyObject *begun_of(PyTypeObject *type, const struct algorithm *algorithm, PyObject *const *args, size_t count,
                          PyObject *names)
{
    struct arguments arguments;
    if (!open_arguments(&arguments, algorithm, NULL, args, PyVectorcall_NARGS(count), names)) return NULL;
    struct hasher *hasher = unwritten(type, algorithm);
    if (hasher && !begin(hasher, &arguments)) Py_CLEAR(hasher);
    close_arguments(&arguments);
    return (PyObject *)hasher;
}
#endif

static void hasher_dealloc(struct hasher *hasher)
{
    PyTypeObject *type = type_of(hasher);
    if (hasher->lock) PyThread_free_lock(hasher->lock);
    PyObject_Free(hasher);
    Py_DECREF(type);
}

/* ---- Methods ---- */

static PyObject *hasher_update(struct hasher *hasher, PyObject *input)
{
    struct bytes bytes;
    if (!open_bytes(&bytes, input)) return NULL;
    take(hasher, bytes.start, bytes.length);
    close_bytes(&bytes);
    Py_RETURN_NONE;
}

static hash_value finished(struct hasher *hasher)
{
    enter(hasher);
    const hash_value value = hasher->algorithm->finish(hasher->state);
    leave(hasher);
    return value;
}

static PyObject *hasher_digest(struct hasher *hasher, PyObject *none)
{
    (void)none;
    return as_digest(hasher->algorithm, finished(hasher));
}

static PyObject *hasher_hexdigest(struct hasher *hasher, PyObject *none)
{
    (void)none;
    return as_hexdigest(hasher->algorithm, finished(hasher));
}

static PyObject *hasher_intdigest(struct hasher *hasher, PyObject *none)
{
    (void)none;
    return as_intdigest(hasher->algorithm, finished(hasher));
}

static PyObject *hasher_copy(struct hasher *hasher, PyObject *none)
{
    struct hasher *copy = unwritten(type_of(hasher), hasher->algorithm);
    (void)none;
    if (!copy) return NULL;
    enter(hasher);
    memcpy(copy->state, hasher->state, hasher->algorithm->state_bytes);
    leave(hasher);
    return (PyObject *)copy;
}

static PyObject *hasher_reset(struct hasher *hasher, PyObject *none)
{
    unsigned char secret[GREATEST_SECRET];
    (void)none;
    enter(hasher);
    struct key key = hasher->algorithm->key_of(hasher->state);
    /* A constructor refuses a secret in the state that it writes. */
    if (key.secret) key.secret = memcpy(secret, key.secret, key.secret_length);
    hasher->algorithm->start(hasher->state, &key);
    leave(hasher);
    Py_RETURN_NONE;
}

static PyObject *hasher_seed(struct hasher *hasher, void *none)
{
    (void)none;
    enter(hasher);
    const uint64_t seed = hasher->algorithm->key_of(hasher->state).seed;
    leave(hasher);
    return PyLong_FromUnsignedLongLong(seed);
}

static PyObject *hasher_name(struct hasher *hasher, void *none)
{
    (void)none;
    return PyUnicode_FromString(hasher->algorithm->name);
}

static PyObject *hasher_digest_size(struct hasher *hasher, void *none)
{
    (void)none;
    return PyLong_FromLong(hasher->algorithm->digest_bytes);
}

static PyObject *hasher_block_size(struct hasher *hasher, void *none)
{
    (void)none;
    return PyLong_FromLong(hasher->algorithm->block_bytes);
}

/* ---- The types ---- */

#define METHOD(name, call, flags, text) {name, (PyCFunction)(void (*)(void))call, flags, text}

static PyMethodDef methods[] = {
    METHOD("update", hasher_update, METH_O,
           "update($self, input, /)\n--\n\nHash more bytes, or a str as UTF-8, after those before."),
    METHOD("digest", hasher_digest, METH_NOARGS,
           "digest($self, /)\n--\n\nReturn the digest of all bytes so far as bytes. More may follow."),
    METHOD("hexdigest", hasher_hexdigest, METH_NOARGS,
           "hexdigest($self, /)\n--\n\nReturn the digest of all bytes so far as hexadecimal digits."),
    METHOD("intdigest", hasher_intdigest, METH_NOARGS,
           "intdigest($self, /)\n--\n\nReturn the value of all bytes so far as a number."),
    METHOD("copy", hasher_copy, METH_NOARGS, "copy($self, /)\n--\n\nReturn an equal, independent object."),
    METHOD("reset", hasher_reset, METH_NOARGS,
           "reset($self, /)\n--\n\nForget all bytes. Keep the seed and the secret."),
    METHOD("state", hasher_state, METH_NOARGS,
           "state($self, /)\n--\n\nReturn everything that the object holds as JSON, for from_state."),
    METHOD("from_state", hasher_from_state, METH_O | METH_CLASS,
           "from_state($type, state, /)\n--\n\nRestore a saved object. ValueError: the text is no saved state; "
           "for XXH32 and XXH64\nalso one that no bytes lead to, and for XXH3 one whose parts don't fit each other."),
    METHOD("__reduce__", hasher_reduce, METH_NOARGS,
           "__reduce__($self, /)\n--\n\nReturn from_state and the state, for pickle."),
    METHOD("_memory", hasher_memory, METH_NOARGS, "Return the state in memory."),
    METHOD("_set_memory", hasher_set_memory, METH_O, "Restore the result of _memory."),
    METHOD("_many", hasher_many, METH_FASTCALL, "Return the digests of the rows of a tuple."),
    METHOD("_many_of_width", hasher_many_of_width, METH_FASTCALL, "Return the digests of the rows of a buffer."),
    {0},
};

#define ATTRIBUTE(name, get, text) {name, (getter)(void (*)(void))get, NULL, text, NULL}

static PyGetSetDef attributes[] = {
    ATTRIBUTE("name", hasher_name, "The name of the hash, for example XXH64."),
    ATTRIBUTE("seed", hasher_seed, "The seed, as a number of the hash's width. 0 with only a secret."),
    ATTRIBUTE("digest_size", hasher_digest_size, "The size of a digest in bytes."),
    ATTRIBUTE("digestsize", hasher_digest_size, "The size of a digest in bytes."),
    ATTRIBUTE("block_size", hasher_block_size, "The size of the hash's inner block in bytes."),
    {0},
};

#define INPUT_AND_SEED \
    "A hash of bytes so far. `input` are the first ones: a bytes-like object whose buffer is contiguous, or a str,\n" \
    "which is hashed as UTF-8. `seed` is an integer, also a negative one, of which the lowest bits are used, as " \
    "many\n" \
    "as the hash's own seed has.\n\n"

#define NO_SECRET \
    "TypeError: the input has no bytes, or the seed is no integer. BufferError: the buffer isn't contiguous."

#define SECRET \
    "`secret` is bytes-like, of 136 to 256 bytes, and is copied. With a seed, only the seed takes effect up to 240\n" \
    "bytes of input, and only the secret above; without one, the secret does at every length.\n\n" NO_SECRET \
    " ValueError: the secret has\nanother length."

#define TYPE(algorithm, bytes, signature, more) \
    static PyObject *algorithm##_new(PyTypeObject *type, PyObject *args, PyObject *keywords) \
    { \
        (void)args, (void)keywords; \
        return new_of(type, &algorithm##_algorithm); \
    } \
    FAST_CALL(algorithm) \
    static PyType_Slot algorithm##_slots[] = { \
        {Py_tp_new, (void *)algorithm##_new}, \
        {Py_tp_init, (void *)hasher_init}, \
        {Py_tp_dealloc, (void *)hasher_dealloc}, \
        {Py_tp_methods, methods}, \
        {Py_tp_getset, attributes}, \
        {Py_tp_doc, #algorithm signature "\n--\n\n" INPUT_AND_SEED more}, \
        {0}, \
    }; \
    static PyType_Spec algorithm##_spec = { \
        .name = "twox_hash." #algorithm, .basicsize = sizeof(struct hasher) + (bytes), \
        .flags = Py_TPFLAGS_DEFAULT | Py_TPFLAGS_IMMUTABLETYPE, .slots = algorithm##_slots, \
    }; \
    static int add_##algorithm(PyObject *module) \
    { \
        PyTypeObject *type = (PyTypeObject *)PyType_FromModuleAndSpec(module, &algorithm##_spec, NULL); \
        if (!type) return 0; \
        SET_FAST_CALL(type, algorithm); \
        const int is_added = !PyModule_AddType(module, type); \
        Py_DECREF(type); \
        return is_added; \
    }

TYPE(xxh32, XXH32_STATE_BYTES, "(input=b'', seed=0)", NO_SECRET)
TYPE(xxh64, XXH64_STATE_BYTES, "(input=b'', seed=0)", NO_SECRET)
TYPE(xxh3_64, KEYED_STATE_BYTES, "(input=b'', seed=0, *, secret=None)", SECRET)
TYPE(xxh3_128, KEYED_STATE_BYTES, "(input=b'', seed=0, *, secret=None)", SECRET)

int add_types(PyObject *module)
{
    return add_xxh32(module) && add_xxh64(module) && add_xxh3_64(module) && add_xxh3_128(module);
}
