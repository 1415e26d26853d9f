/* The module twox_hash._native: the functions and the types that twox_hash/__init__.py re-exports. */
#include "functions.h"
#include "hasher.h"
#include "calls.h"
#include "python.h"

#include <stdlib.h>

/* Chooses the instruction set of the calls. TWOX_HASH_INSTRUCTIONS may select one, for benchmarks and tests. */
static int choose(void)
{
    const char *chosen = getenv("TWOX_HASH_INSTRUCTIONS");
    const char *fault = choose_calls(chosen && *chosen ? chosen : NULL);
    if (!fault) return 1;
    PyErr_Format(PyExc_ImportError, "twox_hash: %s%s%s", chosen ? chosen : "", chosen ? ": " : "", fault);
    return 0;
}

static int fill(PyObject *module)
{
    const int is_filled = choose() && add_types(module)
        && !PyModule_AddStringConstant(module, "XXHASH_VERSION", "0.8.1")
        && !PyModule_AddStringConstant(module, "instruction_set", calls.instructions);
    return is_filled ? 0 : -1;
}

/* All mutable data belongs to a module or an object, except the instruction set, which is the process's: so
 * subinterpreters may have a GIL of their own. It was never run without any GIL. */
static PyModuleDef_Slot slots[] = {
    {Py_mod_exec, (void *)fill},
#ifdef Py_mod_multiple_interpreters
    {Py_mod_multiple_interpreters, Py_MOD_PER_INTERPRETER_GIL_SUPPORTED},
#endif
    {0},
};

static struct PyModuleDef definition = {
    PyModuleDef_HEAD_INIT, .m_name = "twox_hash._native", .m_methods = functions, .m_slots = slots,
};

__attribute__((visibility("default"))) PyMODINIT_FUNC PyInit__native(void)
{
    return PyModuleDef_Init(&definition);
}
