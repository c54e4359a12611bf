/* Notes which lines of the companion run: a byte for each line of its modules, in one file that all processes of a test
 * share, so that neither forks nor kills lose anything. A module of Python for tests/mistakes/maps.py. */
#define PY_SSIZE_T_CLEAN
#include <Python.h>
#include <fcntl.h>
#include <string.h>
#include <sys/mman.h>
#include <unistd.h>

static const char PACKAGE[] = "/mbox2maildir_admin/";
static unsigned char *lines; /* the bytes of the file */
static Py_ssize_t size;      /* how many there are */
static PyObject *modules;    /* the place of each module's first line, by its path within the package */
static Py_ssize_t slot = -1; /* where a code object keeps the place of its module, plus one */

/* The place of the module that a code object is of, plus one; -1 if it is of another package. */
static intptr_t place_of(PyCodeObject *code)
{
    void *kept = NULL;
    if (_PyCode_GetExtra((PyObject *)code, slot, &kept) == 0 && kept)
        return (intptr_t)kept;
    intptr_t place = -1;
    const char *name = PyUnicode_AsUTF8(code->co_filename), *last = NULL;
    for (const char *at = name; at && (at = strstr(at, PACKAGE)); at++)
        last = at + sizeof(PACKAGE) - 1;
    PyObject *first = last ? PyDict_GetItemString(modules, last) : NULL;
    if (first)
        place = PyLong_AsLong(first) + 1;
    PyErr_Clear();
    _PyCode_SetExtra((PyObject *)code, slot, (void *)place);
    return place;
}

static int trace(PyObject *self, PyFrameObject *frame, int what, PyObject *value)
{
    (void)self, (void)value;
    if (what != PyTrace_LINE && what != PyTrace_CALL)
        return 0;
    PyCodeObject *code = PyFrame_GetCode(frame);
    intptr_t place = place_of(code);
    Py_DECREF(code);
    if (place > 0 && what == PyTrace_LINE) {
        Py_ssize_t line = place - 1 + PyFrame_GetLineNumber(frame);
        if (line < size)
            lines[line] = 1;
    } else if (place <= 0 && what == PyTrace_CALL) {
        PyObject *type, *fault, *traceback;
        PyErr_Fetch(&type, &fault, &traceback);
        if (PyObject_SetAttrString((PyObject *)frame, "f_trace_lines", Py_False))
            PyErr_Clear();
        PyErr_Restore(type, fault, traceback);
    }
    return 0;
}

/* start(FILE, MODULES, SIZE): notes the lines that this process, and each that it forks, runs from here on. */
static PyObject *start(PyObject *self, PyObject *words)
{
    (void)self;
    const char *path;
    if (!PyArg_ParseTuple(words, "sOn", &path, &modules, &size))
        return NULL;
    Py_INCREF(modules);
    int number = open(path, O_RDWR | O_CLOEXEC);
    lines = number < 0 ? MAP_FAILED : mmap(NULL, size, PROT_READ | PROT_WRITE, MAP_SHARED, number, 0);
    if (lines == MAP_FAILED)
        return PyErr_SetFromErrno(PyExc_OSError);
    close(number);
    slot = _PyEval_RequestCodeExtraIndex(NULL);
    PyEval_SetTrace(trace, NULL);
    Py_RETURN_NONE;
}

static PyMethodDef functions[] = {{"start", start, METH_VARARGS, ""}, {NULL}};
static struct PyModuleDef module = {PyModuleDef_HEAD_INIT, "lines", "", -1, functions};

PyMODINIT_FUNC PyInit_lines(void)
{
    return PyModule_Create(&module);
}
