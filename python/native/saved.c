#include "saved.h"

#include <string.h>

/* Returns the result of a function of _states.py, or null with an exception set. */
static PyObject *call_states(const char *function, PyObject *first, PyObject *second)
{
    PyObject *states = PyImport_ImportModule("twox_hash._states");
    PyObject *call = states ? PyObject_GetAttrString(states, function) : NULL;
    PyObject *answer = call ? PyObject_CallFunctionObjArgs(call, first, second, NULL) : NULL;
    Py_XDECREF(call);
    Py_XDECREF(states);
    return answer;
}

PyObject *hasher_state(struct hasher *hasher, PyObject *none)
{
    (void)none;
    return call_states("text_of", (PyObject *)hasher, NULL);
}

PyObject *hasher_from_state(PyObject *type, PyObject *state)
{
    return call_states("from_text", type, state);
}

PyObject *hasher_reduce(struct hasher *hasher, PyObject *none)
{
    PyObject *load = PyObject_GetAttrString((PyObject *)type_of(hasher), "from_state");
    PyObject *state = load ? hasher_state(hasher, none) : NULL;
    PyObject *answer = state ? Py_BuildValue("O(O)", load, state) : NULL;
    Py_XDECREF(state);
    Py_XDECREF(load);
    return answer;
}

PyObject *hasher_memory(struct hasher *hasher, PyObject *none)
{
    (void)none;
    enter(hasher);
    PyObject *memory = PyBytes_FromStringAndSize((const char *)hasher->state,
                                                 (Py_ssize_t)hasher->algorithm->state_bytes);
    leave(hasher);
    return memory;
}

PyObject *hasher_set_memory(struct hasher *hasher, PyObject *memory)
{
    char *bytes;
    Py_ssize_t length;
    if (PyBytes_AsStringAndSize(memory, &bytes, &length)) return NULL;
    if ((size_t)length != hasher->algorithm->state_bytes) {
        PyErr_SetString(PyExc_ValueError, "a state has another length");
        return NULL;
    }
    const struct key key = hasher->algorithm->key_of(bytes);
    if (key.secret && (key.secret_length < LEAST_SECRET || key.secret_length > GREATEST_SECRET)) {
        PyErr_SetString(PyExc_ValueError, "the secret has another length");
        return NULL;
    }
    enter(hasher);
    memcpy(hasher->state, bytes, hasher->algorithm->state_bytes);
    leave(hasher);
    Py_RETURN_NONE;
}
