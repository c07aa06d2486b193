/* The changes of a didChange, read and made without ctypes: an extension over Python's stable ABI, 3.8 and later.

   It knows the plain case alone, and says of any other that it isn't done. Then nothing has changed, and the same call by
   ctypes makes the change or says why not. It is linked with no library: `bind` takes the address of its function. */
#define Py_LIMITED_API 0x03080000
#define PY_SSIZE_T_CLEAN
#include <Python.h>
#include <stdint.h>

#include "laspidru.h"

enum { FEW = 8 };

typedef laspidru_u32 (*changing)(laspidru_handle *, laspidru_u32, const laspidru_edit *, laspidru_size, const unsigned char *,
    laspidru_size, laspidru_fault *);

static changing document_change;
static PyObject *range_name, *start_name, *end_name, *line_name, *character_name, *text_name, *edit_key, *edit_name;

/* A member of a dictionary, or of an object. A new reference, or NULL, with an exception or without one. */
static PyObject *member(PyObject *of, PyObject *name) {
    if (!PyDict_CheckExact(of))
        return PyObject_GetAttr(of, name);
    PyObject *found = PyDict_GetItemWithError(of, name);
    Py_XINCREF(found);
    return found;
}

/* A number of 32 bits, which is an int. */
static int read_number(PyObject *of, PyObject *name, laspidru_u32 *out) {
    PyObject *value = member(of, name);
    int is_read = 0;
    if (value != NULL && PyLong_Check(value)) {
        long long number = PyLong_AsLongLong(value);
        is_read = number >= 0 && number <= UINT32_MAX;
        *out = (laspidru_u32)number;
    }
    Py_XDECREF(value);
    return is_read;
}

static int read_place(PyObject *range, PyObject *name, laspidru_position *out) {
    PyObject *place = member(range, name);
    int is_read = place != NULL && read_number(place, line_name, &out->line) && read_number(place, character_name, &out->character);
    Py_XDECREF(place);
    return is_read;
}

/* The bytes of a change's text: a new reference, or NULL. */
static PyObject *read_text(PyObject *change) {
    if (PyDict_CheckExact(change) ? PyDict_Contains(change, edit_key) != 0 : PyObject_HasAttr(change, edit_name))
        return NULL; /* a text edit */
    PyObject *text = member(change, text_name), *bytes = NULL;
    if (text != NULL && PyUnicode_Check(text))
        bytes = PyUnicode_AsUTF8String(text);
    Py_XDECREF(text);
    return bytes;
}

/* A change without its text. */
static int read_range(PyObject *change, laspidru_edit *out) {
    PyObject *range = member(change, range_name);
    if (range == NULL && (PyErr_Occurred() || !PyDict_CheckExact(change)))
        return 0;
    out->is_whole = range == NULL || range == Py_None;
    int is_read = out->is_whole || (read_place(range, start_name, &out->start) && read_place(range, end_name, &out->end));
    Py_XDECREF(range);
    return is_read;
}

typedef struct {
    laspidru_edit few[FEW], *edits;
    PyObject *texts; /* the bytes of all texts */
    Py_ssize_t count;
} batch;

static void free_batch(batch *it) {
    if (it->edits != it->few)
        PyMem_Free(it->edits);
    Py_XDECREF(it->texts);
}

static int read_change(batch *it, Py_ssize_t index, PyObject *change) {
    laspidru_edit *edit = &it->edits[index];
    PyObject *text = read_text(change);
    *edit = (laspidru_edit){{0, 0}, {0, 0}, 0, 0};
    if (text == NULL || !read_range(change, edit)) {
        Py_XDECREF(text);
        return 0;
    }
    edit->len = (laspidru_size)PyBytes_Size(text);
    if (it->texts == NULL)
        it->texts = text;
    else
        PyBytes_ConcatAndDel(&it->texts, text);
    return it->texts != NULL;
}

/* Reads a list of changes, which is to be freed in any case. */
static int read_batch(PyObject *changes, batch *it) {
    it->edits = it->few;
    it->texts = NULL;
    it->count = PyList_Check(changes) ? PyList_Size(changes) : 0;
    if (it->count < 1)
        return 0;
    if (it->count > FEW && (it->edits = PyMem_Malloc((size_t)it->count * sizeof *it->edits)) == NULL)
        return 0;
    for (Py_ssize_t index = 0; index < it->count; index++) {
        /* A member of an object may run Python, which may shorten the list. */
        PyObject *change = PyList_GetItem(changes, index);
        Py_XINCREF(change);
        int is_read = change != NULL && read_change(it, index, change);
        Py_XDECREF(change);
        if (!is_read)
            return 0;
    }
    return 1;
}

/* read(changes): the edits and the bytes of their texts, as the library takes them; None where they aren't plain. */
static PyObject *read_changes(PyObject *module, PyObject *changes) {
    batch it;
    PyObject *out = NULL;
    (void)module;
    if (read_batch(changes, &it))
        out = Py_BuildValue("(y#O)", (const char *)it.edits, it.count * (Py_ssize_t)sizeof *it.edits, it.texts);
    free_batch(&it);
    if (out != NULL)
        return out;
    PyErr_Clear();
    Py_RETURN_NONE;
}

/* change(handle, encoding, edits, texts): makes what was read by the handle at an address, and says whether that is done. */
static PyObject *change(PyObject *module, PyObject *arguments) {
    unsigned long long address;
    unsigned int encoding;
    const char *edits, *texts;
    Py_ssize_t edits_len, texts_len;
    laspidru_fault fault;
    laspidru_u32 code = LASPIDRU_EMPTY;
    (void)module;
    if (!PyArg_ParseTuple(arguments, "KIy#y#", &address, &encoding, &edits, &edits_len, &texts, &texts_len))
        return NULL;
    if (document_change == NULL)
        Py_RETURN_FALSE;
    Py_BEGIN_ALLOW_THREADS
    code = document_change((laspidru_handle *)(uintptr_t)address, encoding, (const laspidru_edit *)edits,
        (laspidru_size)edits_len / sizeof(laspidru_edit), (const unsigned char *)texts, (laspidru_size)texts_len, &fault);
    Py_END_ALLOW_THREADS
    return PyBool_FromLong(code == LASPIDRU_OK);
}

/* bind(document_change): the address of the library's function */
static PyObject *bind(PyObject *module, PyObject *arguments) {
    unsigned long long address;
    (void)module;
    if (!PyArg_ParseTuple(arguments, "K", &address))
        return NULL;
    document_change = (changing)(uintptr_t)address;
    Py_RETURN_NONE;
}

static PyMethodDef methods[] = {
    {"bind", bind, METH_VARARGS, NULL},
    {"read", read_changes, METH_O, NULL},
    {"change", change, METH_VARARGS, NULL},
    {NULL, NULL, 0, NULL},
};

static struct PyModuleDef definition = {PyModuleDef_HEAD_INIT, "laspidru._fast", NULL, -1, methods, NULL, NULL, NULL, NULL};

PyMODINIT_FUNC PyInit__fast(void) {
    struct { PyObject **name; const char *text; } names[] = {
        {&range_name, "range"}, {&start_name, "start"}, {&end_name, "end"}, {&line_name, "line"},
        {&character_name, "character"}, {&text_name, "text"}, {&edit_key, "newText"}, {&edit_name, "new_text"},
    };
    for (size_t i = 0; i < sizeof names / sizeof *names; i++)
        if ((*names[i].name = PyUnicode_InternFromString(names[i].text)) == NULL)
            return NULL;
    return PyModule_Create(&definition);
}
