/* Python's header, with lengths as Py_ssize_t, and the length from which on inputs are long. With Py_LIMITED_API one
 * file serves each CPython from 3.11 on, and each of these macros is a call. */
#ifndef TWOX_HASH_PYTHON_H
#define TWOX_HASH_PYTHON_H

#define PY_SSIZE_T_CLEAN
#include <Python.h>

/* CPython 3.9 has neither. */
#if PY_VERSION_HEX < 0x030A0000
#define Py_TPFLAGS_IMMUTABLETYPE 0
static inline PyObject *Py_NewRef(PyObject *object)
{
    Py_INCREF(object);
    return object;
}
#endif

#ifdef Py_LIMITED_API
#define PyBytes_AS_STRING PyBytes_AsString
#define PyBytes_GET_SIZE PyBytes_Size
#define PyTuple_GET_SIZE PyTuple_Size
#define PyTuple_GET_ITEM PyTuple_GetItem
#endif

/* From this many bytes on the GIL is released. */
#define LONG_INPUT (64 << 10)

#endif
