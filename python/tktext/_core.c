/* The calls of libtktext.a for Python: the module, and methods that are called without a function of Python's.

   A call of a world holds the global interpreter lock, and no code of Python's runs until its line is copied and its
   report is queued: so a world carries out one call at a time, whatever threads, handlers and finalizers do. */

#include "_core.h"
#include <stddef.h>
#include <string.h>
#include <structmember.h>

/* In the stable ABI since 3.12; each Python since 3.9 has them in the same form. */
enum { HAS_VECTORCALL = 1 << 11 };
static const size_t COUNT_BITS = SIZE_MAX >> 1;
typedef PyObject *(*Vectorcall)(PyObject *called, PyObject *const *given, size_t count, PyObject *names);

/* ---- methods without a function of Python's in between */

/* A method of widgets: its words are followed by the values that it is called with by position, from `minimum` to
   `maximum` of them.  Any other call is one of its function. */
typedef struct {
    PyObject_HEAD
    Vectorcall call;
    PyObject *function;
    PyObject *attributes;
    PyObject *words;
    Py_ssize_t minimum;
    Py_ssize_t maximum;
    int form;
    PyTypeObject *widget_type;
    PyObject *method_type;
} Direct;

static PyObject *tuple_of(PyObject *const *values, Py_ssize_t count)
{
    PyObject *tuple = PyTuple_New(count);
    for (Py_ssize_t at = 0; tuple != NULL && at < count; at++) {
        Py_INCREF(values[at]);
        PyTuple_SetItem(tuple, at, values[at]);
    }
    return tuple;
}

/* There is no function once the collector has begun to clear the method. */
static PyObject *call_tuple(Direct *direct, PyObject *tuple, PyObject *by_name)
{
    if (direct->function != NULL)
        return PyObject_Call(direct->function, tuple, by_name);
    PyErr_SetString(PyExc_RuntimeError, "the method is gone");
    return NULL;
}

static PyObject *call_function(Direct *direct, PyObject *const *given, size_t count, PyObject *names)
{
    Py_ssize_t named = names == NULL ? 0 : PyTuple_Size(names);
    PyObject *tuple = tuple_of(given, count), *by_name = named == 0 ? NULL : PyDict_New(), *answer = NULL;
    int failed = tuple == NULL || (named != 0 && by_name == NULL);
    for (Py_ssize_t at = 0; !failed && at < named; at++)
        failed = PyDict_SetItem(by_name, PyTuple_GetItem(names, at), given[count + at]) < 0;
    if (!failed)
        answer = call_tuple(direct, tuple, by_name);
    Py_XDECREF(tuple);
    Py_XDECREF(by_name);
    return answer;
}

static PyObject *direct_vectorcall(PyObject *called, PyObject *const *given, size_t count_and_bit, PyObject *names)
{
    Direct *direct = (Direct *)called;
    Py_ssize_t count = count_and_bit & COUNT_BITS, first = PyTuple_Size(direct->words);
    PyObject *values[FEW_WORDS];
    if (count <= direct->minimum || count - 1 > direct->maximum || first + count - 1 > FEW_WORDS
        || (names != NULL && PyTuple_Size(names) != 0) || !PyObject_TypeCheck(given[0], direct->widget_type))
        return call_function(direct, given, count, names);
    for (Py_ssize_t at = 0; at < first; at++)
        values[at] = PyTuple_GetItem(direct->words, at);
    memcpy(values + first, given + 1, (count - 1) * sizeof *values);
    return run_widget((Widget *)given[0], values, first + count - 1, direct->form);
}

static PyObject *direct_call(Direct *direct, PyObject *arguments, PyObject *by_name)
{
    PyObject *given[FEW_WORDS];
    Py_ssize_t count = PyTuple_Size(arguments);
    if (count > FEW_WORDS || (by_name != NULL && PyDict_Size(by_name) != 0))
        return call_tuple(direct, arguments, by_name);
    for (Py_ssize_t at = 0; at < count; at++)
        given[at] = PyTuple_GetItem(arguments, at);
    return direct_vectorcall((PyObject *)direct, given, count, NULL);
}

static PyObject *direct_get(Direct *direct, PyObject *widget, PyObject *Py_UNUSED(type))
{
    if (widget == NULL || widget == Py_None) {
        Py_INCREF(direct);
        return (PyObject *)direct;
    }
    return PyObject_CallFunctionObjArgs(direct->method_type, direct, widget, NULL);
}

static PyObject *direct_repr(Direct *direct)
{
    return PyObject_Repr(direct->function);
}

static PyObject *direct_new(PyTypeObject *type, PyObject *arguments, PyObject *Py_UNUSED(by_name))
{
    PyObject *function, *words;
    Py_ssize_t minimum, maximum;
    int form;
    struct state *state = PyType_GetModuleState(type);
    if (state == NULL
        || !PyArg_ParseTuple(arguments, "OO!nni", &function, &PyTuple_Type, &words, &minimum, &maximum, &form))
        return NULL;
    if (minimum < 0 || form < AS_TEXT || form > AS_NOTHING || state->method_type == NULL) {
        PyErr_SetString(PyExc_ValueError, "no such call");
        return NULL;
    }
    Direct *direct = (Direct *)PyType_GenericAlloc(type, 0);
    if (direct == NULL)
        return NULL;
    Py_INCREF(function);
    Py_INCREF(words);
    Py_INCREF(state->widget_type);
    Py_INCREF(state->method_type);
    direct->call = direct_vectorcall;
    direct->function = function;
    direct->words = words;
    direct->minimum = minimum;
    direct->maximum = maximum;
    direct->form = form;
    direct->widget_type = state->widget_type;
    direct->method_type = state->method_type;
    return (PyObject *)direct;
}

static int direct_traverse(Direct *direct, visitproc visit, void *arg)
{
    Py_VISIT(Py_TYPE(direct));
    Py_VISIT(direct->function);
    Py_VISIT(direct->attributes);
    Py_VISIT(direct->words);
    Py_VISIT(direct->widget_type);
    Py_VISIT(direct->method_type);
    return 0;
}

static int direct_clear(Direct *direct)
{
    Py_CLEAR(direct->function);
    Py_CLEAR(direct->attributes);
    return 0;
}

static void direct_dealloc(Direct *direct)
{
    PyTypeObject *type = Py_TYPE(direct);
    PyObject_GC_UnTrack(direct);
    direct_clear(direct);
    Py_CLEAR(direct->words);
    Py_CLEAR(direct->widget_type);
    Py_CLEAR(direct->method_type);
    ((freefunc)PyType_GetSlot(type, Py_tp_free))(direct);
    Py_DECREF(type);
}

static PyMemberDef direct_members[] = {
    {"__vectorcalloffset__", T_PYSSIZET, offsetof(Direct, call), READONLY, NULL},
    {"__dictoffset__", T_PYSSIZET, offsetof(Direct, attributes), READONLY, NULL},
    {NULL, 0, 0, 0, NULL},
};

static PyType_Slot direct_slots[] = {
    {Py_tp_new, direct_new},
    {Py_tp_dealloc, direct_dealloc},
    {Py_tp_traverse, direct_traverse},
    {Py_tp_clear, direct_clear},
    {Py_tp_call, direct_call},
    {Py_tp_repr, direct_repr},
    {Py_tp_descr_get, direct_get},
    {Py_tp_members, direct_members},
    {0, NULL},
};

static PyType_Spec direct_spec = {
    "tktext._core.Direct", sizeof(Direct), 0,
    Py_TPFLAGS_DEFAULT | Py_TPFLAGS_HAVE_GC | Py_TPFLAGS_METHOD_DESCRIPTOR | HAS_VECTORCALL, direct_slots,
};

/* ---- the module */

static void keep(PyObject **kept, PyObject *object)
{
    PyObject *old = *kept;
    Py_INCREF(object);
    *kept = object;
    Py_XDECREF(old);
}

static PyObject *core_use(PyObject *module, PyObject *arguments)
{
    PyObject *word, *error, *content, *method;
    struct state *state = PyModule_GetState(module);
    if (!PyArg_ParseTuple(arguments, "OOOO", &word, &error, &content, &method))
        return NULL;
    keep(&state->word_of_value, word);
    keep(&state->error_of_fault, error);
    keep(&state->content_of_report, content);
    keep(&state->method_type, method);
    return none();
}

static PyObject *core_split(PyObject *Py_UNUSED(module), PyObject *text)
{
    char *start;
    Py_ssize_t length;
    PyObject *bytes = PyUnicode_AsUTF8String(text);
    if (bytes == NULL || PyBytes_AsStringAndSize(bytes, &start, &length) < 0) {
        Py_XDECREF(bytes);
        return NULL;
    }
    PyObject *made = tuple_of_list(start, length);
    Py_DECREF(bytes);
    return made;
}

/* Returns what the fault of a command leaves unsaid, or None; the words and the fault are `bytes` without a byte 0. */
static PyObject *core_hint(PyObject *Py_UNUSED(module), PyObject *arguments)
{
    PyObject *words, *fault;
    if (!PyArg_ParseTuple(arguments, "O!S", &PyList_Type, &words, &fault))
        return NULL;
    Py_ssize_t count = PyList_Size(words);
    const char **starts = PyMem_Malloc((count + 1) * sizeof *starts);
    if (starts == NULL)
        return PyErr_NoMemory();
    const char *hint = NULL;
    Py_ssize_t at = 0;
    while (at < count && (starts[at] = PyBytes_AsString(PyList_GetItem(words, at))) != NULL)
        at++;
    if (at == count)
        hint = tktext_hint(count, starts, PyBytes_AsString(fault));
    PyMem_Free(starts);
    if (PyErr_Occurred())
        return NULL;
    if (hint == NULL)
        return none();
    return PyUnicode_FromString(hint);
}

PyDoc_STRVAR(split_doc, "split_list(text, /)\n--\n\n"
    "Returns the elements of a list as the core writes it, as a tuple: bare, in braces, or with backslashes.\n\n"
    "A brace that isn't closed is a ValueError.\n\n"
    ">>> split_list('a {b c} d')\n('a', 'b c', 'd')\n");

static PyMethodDef core_methods[] = {
    {"use", core_use, METH_VARARGS, NULL},
    {"split_list", core_split, METH_O, split_doc},
    {"hint", core_hint, METH_VARARGS, NULL},
    {NULL, NULL, 0, NULL},
};

static int core_traverse(PyObject *module, visitproc visit, void *arg)
{
    struct state *state = PyModule_GetState(module);
    Py_VISIT(state->word_of_value);
    Py_VISIT(state->error_of_fault);
    Py_VISIT(state->content_of_report);
    Py_VISIT(state->method_type);
    Py_VISIT(state->world_type);
    Py_VISIT(state->widget_type);
    Py_VISIT(state->report_type);
    return 0;
}

static int core_clear(PyObject *module)
{
    struct state *state = PyModule_GetState(module);
    Py_CLEAR(state->word_of_value);
    Py_CLEAR(state->error_of_fault);
    Py_CLEAR(state->content_of_report);
    Py_CLEAR(state->method_type);
    Py_CLEAR(state->world_type);
    Py_CLEAR(state->widget_type);
    Py_CLEAR(state->report_type);
    return 0;
}

static void core_free(void *module)
{
    core_clear(module);
}

/* Makes a type of the module, and keeps it in the module's state, if there is a place for it. */
static int add_type(PyObject *module, const char *name, PyType_Spec *spec, PyTypeObject **kept)
{
    PyObject *type = PyType_FromModuleAndSpec(module, spec, NULL);
    if (type == NULL)
        return -1;
    if (kept != NULL) {
        Py_INCREF(type);
        *kept = (PyTypeObject *)type;
    }
    if (PyModule_AddObject(module, name, type) < 0) {
        Py_DECREF(type);
        return -1;
    }
    return 0;
}

static int core_exec(PyObject *module)
{
    struct state *state = PyModule_GetState(module);
    if (add_type(module, "World", &world_spec, &state->world_type) < 0
        || add_type(module, "Widget", &widget_spec, &state->widget_type) < 0
        || add_type(module, "Report", &report_spec, &state->report_type) < 0
        || add_type(module, "Direct", &direct_spec, NULL) < 0)
        return -1;
    return PyModule_AddStringConstant(module, "version", tktext_version());
}

/* Python 3.12 asks whether each interpreter may have a lock of its own; older ones refuse a slot of this number. */
enum { MULTIPLE_INTERPRETERS = 3, FIRST_WITH_LOCKS = 0x030c0000 };
#define OWN_LOCK ((void *)2)

static PyModuleDef_Slot slots[] = {
    {Py_mod_exec, core_exec},
    {0, NULL},
};

static PyModuleDef_Slot slots_with_locks[] = {
    {Py_mod_exec, core_exec},
    {MULTIPLE_INTERPRETERS, OWN_LOCK},
    {0, NULL},
};

#define CORE_MODULE(its_slots) { \
    PyModuleDef_HEAD_INIT, "tktext._core", "The extension of tktext.", sizeof(struct state), core_methods, its_slots, \
    core_traverse, core_clear, core_free, \
}

static struct PyModuleDef core_module = CORE_MODULE(slots), core_module_with_locks = CORE_MODULE(slots_with_locks);

PyMODINIT_FUNC PyInit__core(void)
{
    PyObject *version = PySys_GetObject("hexversion");
    int has_locks = version != NULL && PyLong_AsLong(version) >= FIRST_WITH_LOCKS;
    return PyModuleDef_Init(has_locks ? &core_module_with_locks : &core_module);
}
