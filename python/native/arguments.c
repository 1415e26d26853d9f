#include "arguments.h"

/* The name of an object's constructor in exception messages. */
#define START "__init__"

int open_bytes(struct bytes *bytes, PyObject *object)
{
    bytes->is_view = 0;
    if (PyBytes_CheckExact(object)) {
        bytes->start = PyBytes_AS_STRING(object);
        bytes->length = (size_t)PyBytes_GET_SIZE(object);
        return 1;
    }
    if (PyUnicode_Check(object)) {
        Py_ssize_t length;
        bytes->start = PyUnicode_AsUTF8AndSize(object, &length);
        bytes->length = (size_t)length;
        return bytes->start != NULL;
    }
    if (PyObject_GetBuffer(object, &bytes->view, PyBUF_SIMPLE)) return 0;
    bytes->is_view = 1;
    bytes->start = bytes->view.buf;
    bytes->length = (size_t)bytes->view.len;
    if (bytes->view.len >= 0) return 1;
    PyErr_SetString(PyExc_BufferError, "the buffer has a negative length");
    close_bytes(bytes);
    bytes->is_view = 0;
    return 0;
}

/* The objects of a call by parameter, each null if it wasn't given, and the error of the call. */
struct given {
    PyObject *input, *seed, *secret;
    PyObject *unknown; /* the first name that is no parameter's */
    int twice;         /* the input came by name and by position */
};

/* Takes a keyword argument. */
static void take_named(struct given *given, const struct algorithm *algorithm, PyObject *name, PyObject *object)
{
    if (!PyUnicode_CompareWithASCIIString(name, "seed"))
        given->seed = object;
    else if (!PyUnicode_CompareWithASCIIString(name, "input")) {
        given->twice = given->input != NULL;
        given->input = given->input ? given->input : object;
    } else if (algorithm->has_secret && !PyUnicode_CompareWithASCIIString(name, "secret"))
        given->secret = object;
    else if (!given->unknown)
        given->unknown = name;
}

/* True if there are at most two arguments besides the secret, which is keyword-only. */
static int is_count_right(const struct given *given, const char *function, Py_ssize_t count, Py_ssize_t named)
{
    const Py_ssize_t all = count + named - (given->secret != NULL);
    if (all <= 2) return 1;
    PyErr_Format(PyExc_TypeError, "%s() takes at most 2 %sarguments (%zd given)", function, count ? "" : "keyword ",
                 all);
    return 0;
}

static void refuse_seed(const char *function, PyObject *seed)
{
    static const char message[] = "%s() argument 2 must be int, not %s";
    if (seed == Py_None) {
        PyErr_Format(PyExc_TypeError, message, function, "None");
        return;
    }
#ifdef Py_LIMITED_API
    PyObject *name = PyType_GetName(Py_TYPE(seed));
    const char *text = name ? PyUnicode_AsUTF8AndSize(name, NULL) : NULL;
    if (text) PyErr_Format(PyExc_TypeError, message, function, text);
    Py_XDECREF(name);
#else
    PyErr_Format(PyExc_TypeError, message, function, Py_TYPE(seed)->tp_name);
#endif
}

/* A seed: an integer, of which the lowest bits are used. */
static int read_seed(struct key *key, const struct algorithm *algorithm, const char *function, PyObject *seed)
{
    if (algorithm->has_narrow_seed)
        key->seed = PyLong_AsUnsignedLongMask(seed) & UINT32_MAX;
    else if (PyLong_Check(seed))
        key->seed = PyLong_AsUnsignedLongLongMask(seed);
    else {
        refuse_seed(function, seed);
        return 0;
    }
    key->has_seed = 1;
    return !PyErr_Occurred();
}

/* A secret of any length from 136 bytes on. */
static int open_secret(struct arguments *arguments, PyObject *secret)
{
    struct bytes *bytes = &arguments->secret;
    if (PyObject_GetBuffer(secret, &bytes->view, PyBUF_SIMPLE)) return 0;
    bytes->is_view = 1;
    arguments->key.secret = bytes->view.buf;
    arguments->key.secret_length = (size_t)bytes->view.len;
    if (bytes->view.len >= LEAST_SECRET) return 1;
    PyErr_Format(PyExc_ValueError, "The secret must have at least %d bytes", LEAST_SECRET);
    return 0;
}

/* Opens the arguments, from left to right, and reports wrong names afterwards, as the original does. */
static int read_given(struct arguments *arguments, const struct algorithm *algorithm, const char *function,
                      const struct given *given)
{
    struct key *key = &arguments->key;
    if (given->input && !open_bytes(&arguments->input, given->input)) return 0;
    arguments->has_input = given->input != NULL;
    if (given->seed && !read_seed(key, algorithm, function, given->seed)) return 0;
    if (given->secret && given->secret != Py_None && !open_secret(arguments, given->secret)) return 0;
    if (given->twice) {
        PyErr_Format(PyExc_TypeError, "argument for %s() given by name ('input') and position (1)", function);
        return 0;
    }
    if (given->unknown) {
        PyErr_Format(PyExc_TypeError, "'%U' is an invalid keyword argument for %s()", given->unknown, function);
        return 0;
    }
    return 1;
}

/* Opens the arguments. On an error none stays open. */
static int open_given(struct arguments *arguments, const struct algorithm *algorithm, const char *function,
                      const struct given *given)
{
    arguments->has_input = arguments->input.is_view = arguments->secret.is_view = 0;
    arguments->key = (struct key){0};
    if (read_given(arguments, algorithm, function, given)) return 1;
    close_arguments(arguments);
    return 0;
}

int open_arguments(struct arguments *arguments, const struct algorithm *algorithm, const char *name,
                   PyObject *const *args, Py_ssize_t count, PyObject *names)
{
    struct given given = {.input = count > 0 ? args[0] : NULL, .seed = count > 1 ? args[1] : NULL};
    const Py_ssize_t named = names ? PyTuple_GET_SIZE(names) : 0;
    const char *function = name ? name : START;
    for (Py_ssize_t i = 0; i < named; i++) take_named(&given, algorithm, PyTuple_GET_ITEM(names, i), args[count + i]);
    if (!is_count_right(&given, function, count, named)) return 0;
    if (name && !given.input) {
        PyErr_Format(PyExc_TypeError, "%s() missing required argument 'input' (pos 1)", name);
        return 0;
    }
    return open_given(arguments, algorithm, function, &given);
}

int open_arguments_of_tuple(struct arguments *arguments, const struct algorithm *algorithm, PyObject *args,
                            PyObject *keywords)
{
    const Py_ssize_t count = PyTuple_GET_SIZE(args), named = keywords ? PyDict_Size(keywords) : 0;
    struct given given = {.input = count > 0 ? PyTuple_GET_ITEM(args, 0) : NULL,
                          .seed = count > 1 ? PyTuple_GET_ITEM(args, 1) : NULL};
    Py_ssize_t at = 0;
    PyObject *name, *object;
    while (named && PyDict_Next(keywords, &at, &name, &object)) take_named(&given, algorithm, name, object);
    return is_count_right(&given, START, count, named) && open_given(arguments, algorithm, START, &given);
}

void close_arguments(struct arguments *arguments)
{
    close_bytes(&arguments->input);
    close_bytes(&arguments->secret);
}
