/* The module hostile, for fuzz.py: Buffer(bytes, length, itemsize, format, shape, strides, readonly) exposes memory
 * as no correct object does. Of `bytes` bytes it exposes `length`, which the caller limits to at most as many; item
 * size, format, shape and strides are those passed, or null if they are None. A guard page follows the memory. */
#define PY_SSIZE_T_CLEAN
#include <Python.h>

#include <sys/mman.h>

#define GREATEST_DIMENSIONS 64

struct buffer {
    PyObject_HEAD
    Py_buffer shown;
    Py_ssize_t shape[GREATEST_DIMENSIONS], strides[GREATEST_DIMENSIONS];
    char format[64];
    void *map;
    size_t map_bytes;
};

static size_t page(void)
{
    return (size_t)sysconf(_SC_PAGESIZE);
}

/* Memory that ends where a guard page begins. */
static int map_memory(struct buffer *self, size_t bytes)
{
    const size_t pages = (bytes + page() - 1) / page() * page();
    self->map_bytes = pages + page();
    self->map = mmap(NULL, self->map_bytes, PROT_READ | PROT_WRITE, MAP_PRIVATE | MAP_ANONYMOUS, -1, 0);
    if (self->map == MAP_FAILED || mprotect((char *)self->map + pages, page(), PROT_NONE)) {
        PyErr_NoMemory();
        return 0;
    }
    self->shown.buf = (char *)self->map + pages - bytes;
    for (size_t i = 0; i < bytes; i++) ((unsigned char *)self->shown.buf)[i] = (unsigned char)(i * 7);
    return 1;
}

/* Reads a tuple of numbers, and returns their number. */
static int read_numbers(PyObject *numbers, Py_ssize_t *place)
{
    const Py_ssize_t count = PyTuple_Size(numbers);
    for (Py_ssize_t i = 0; i < count && i < GREATEST_DIMENSIONS; i++)
        place[i] = PyLong_AsSsize_t(PyTuple_GetItem(numbers, i));
    return PyErr_Occurred() ? -1 : (int)count;
}

static int buffer_init(struct buffer *self, PyObject *args, PyObject *keywords)
{
    PyObject *shape, *strides;
    Py_ssize_t bytes;
    const char *format;
    (void)keywords;
    if (!PyArg_ParseTuple(args, "nnnzOOp", &bytes, &self->shown.len, &self->shown.itemsize, &format, &shape, &strides,
                          &self->shown.readonly))
        return -1;
    self->shown.ndim = 1;
    if (shape != Py_None) {
        self->shown.ndim = read_numbers(shape, self->shape);
        self->shown.shape = self->shape;
    }
    if (strides != Py_None) {
        read_numbers(strides, self->strides);
        self->shown.strides = self->strides;
    }
    if (format) self->shown.format = strncpy(self->format, format, sizeof self->format - 1);
    return !PyErr_Occurred() && map_memory(self, (size_t)bytes) ? 0 : -1;
}

static int buffer_show(struct buffer *self, Py_buffer *view, int flags)
{
    if (flags & PyBUF_WRITABLE && self->shown.readonly) {
        PyErr_SetString(PyExc_BufferError, "it is readonly");
        return -1;
    }
    *view = self->shown;
    view->obj = Py_NewRef(self);
    return 0;
}

static void buffer_dealloc(struct buffer *self)
{
    if (self->map) munmap(self->map, self->map_bytes);
    PyObject_Free(self);
}

static PyBufferProcs procedures = {(getbufferproc)buffer_show, NULL};

static PyTypeObject buffer_type = {
    PyVarObject_HEAD_INIT(NULL, 0)
    .tp_name = "hostile.Buffer", .tp_basicsize = sizeof(struct buffer), .tp_flags = Py_TPFLAGS_DEFAULT,
    .tp_new = PyType_GenericNew, .tp_init = (initproc)buffer_init, .tp_dealloc = (destructor)buffer_dealloc,
    .tp_as_buffer = &procedures,
};

static struct PyModuleDef definition = {PyModuleDef_HEAD_INIT, .m_name = "hostile", .m_size = -1};

PyMODINIT_FUNC PyInit_hostile(void)
{
    PyObject *module = PyType_Ready(&buffer_type) ? NULL : PyModule_Create(&definition);
    if (module) PyModule_AddObjectRef(module, "Buffer", (PyObject *)&buffer_type);
    return module;
}
