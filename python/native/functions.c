#include "functions.h"

#include "arguments.h"
#include "algorithms.h"
#include "values.h"

/* Hashes the arguments of `name(input, seed=0, *, secret=None)` into `value`. Returns 0 with an exception set if
 * they are invalid. A single bytes object, as in most calls, is used directly. */
static inline int oneshot(hash_value *value, const struct algorithm *algorithm, const char *name, PyObject *const *args,
                          Py_ssize_t count, PyObject *names)
{
    if (count == 1 && !names && PyBytes_CheckExact(args[0])) {
        const struct key key = {0};
        *value = hash_of(algorithm, PyBytes_AS_STRING(args[0]), (size_t)PyBytes_GET_SIZE(args[0]), &key);
        return 1;
    }
    struct arguments arguments;
    if (!open_arguments(&arguments, algorithm, name, args, count, names)) return 0;
    *value = hash_of(algorithm, arguments.input.start, arguments.input.length, &arguments.key);
    close_arguments(&arguments);
    return 1;
}

#define FUNCTION(algorithm, form) \
    static PyObject *algorithm##_##form(PyObject *module, PyObject *const *args, Py_ssize_t count, PyObject *names) \
    { \
        hash_value value; \
        (void)module; \
        if (!oneshot(&value, &algorithm##_algorithm, #algorithm "_" #form, args, count, names)) return NULL; \
        return as_##form(&algorithm##_algorithm, value); \
    }

#define FUNCTIONS(algorithm) FUNCTION(algorithm, digest) FUNCTION(algorithm, hexdigest) FUNCTION(algorithm, intdigest)

FUNCTIONS(xxh32)
FUNCTIONS(xxh64)
FUNCTIONS(xxh3_64)
FUNCTIONS(xxh3_128)

#define LONG_SECRET " A secret may be longer here than an object's."

#define METHOD(algorithm, form, signature, does, more) \
    {#algorithm "_" #form, (PyCFunction)(void (*)(void))algorithm##_##form, METH_FASTCALL | METH_KEYWORDS, \
     #algorithm "_" #form signature "\n--\n\n" does " of the whole input, as an object of the type " #algorithm \
     "\nwith these arguments does." more},

#define METHODS(algorithm, signature, more) \
    METHOD(algorithm, digest, signature, "Return the digest as bytes", more) \
    METHOD(algorithm, hexdigest, signature, "Return the digest as hexadecimal digits", more) \
    METHOD(algorithm, intdigest, signature, "Return the value as a number", more)

PyMethodDef functions[] = {
    METHODS(xxh32, "(input, seed=0)", "")
    METHODS(xxh64, "(input, seed=0)", "")
    METHODS(xxh3_64, "(input, seed=0, *, secret=None)", LONG_SECRET)
    METHODS(xxh3_128, "(input, seed=0, *, secret=None)", LONG_SECRET)
    {0},
};
