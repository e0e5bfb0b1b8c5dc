/* Worlds and widgets: commands by their words and by a script. */

#include "_core.h"
#include <string.h>

/* ---- codes, lines and faults */

/* Raises the error of a code that is neither an answer nor a fault. */
PyObject *raise_code(int32_t code)
{
    if (code == TKTEXT_NO_MEMORY)
        PyErr_SetString(PyExc_MemoryError, "out of memory");
    else if (code == TKTEXT_WRONG_HANDLE)
        PyErr_SetString(PyExc_ValueError, "the world was closed");
    else if (code == TKTEXT_WRONG_LENGTHS)
        PyErr_SetString(PyExc_ValueError, "there is no word");
    else if (code == TKTEXT_FINISHED)
        PyErr_SetString(PyExc_ValueError, "the script has ended");
    else
        PyErr_SetString(PyExc_ValueError, tktext_code_text(code));
    return NULL;
}

/* Copies the line of the last command. */
static int copy_line(World *world, struct buffer *line, size_t *length)
{
    *length = tktext_said(&world->handle, line->bytes, line->size);
    if (*length <= line->size)
        return 0;
    if (buffer_reserve(line, *length) < 0)
        return -1;
    tktext_said(&world->handle, line->bytes, line->size);
    return 0;
}

/* Returns the line of the last command as `bytes`. */
static PyObject *line_of(World *world)
{
    uint8_t few[FEW_BYTES];
    if (world->line != NULL) {
        Py_INCREF(world->line);
        return world->line;
    }
    size_t length = tktext_said(&world->handle, few, sizeof few);
    PyObject *line = PyBytes_FromStringAndSize(length <= sizeof few ? (const char *)few : NULL, length);
    if (line != NULL && length > sizeof few)
        tktext_said(&world->handle, (uint8_t *)PyBytes_AsString(line), length);
    return line;
}

/* Raises the error of a refused command, by its words and its line. */
static PyObject *raise_fault(World *world, const struct words *words, const struct buffer *line, size_t length)
{
    PyObject *list = PyList_New(words->count);
    for (Py_ssize_t at = 0; list != NULL && at < words->count; at++) {
        PyObject *word = PyBytes_FromStringAndSize(words->at[at].start, words->at[at].length);
        if (word == NULL)
            Py_CLEAR(list);
        else
            PyList_SetItem(list, at, word);
    }
    const char *start = (const char *)line->bytes + TKTEXT_BEFORE_FAULT;
    PyObject *fault = PyBytes_FromStringAndSize(start, length - TKTEXT_BEFORE_FAULT - TKTEXT_BEHIND), *error = NULL;
    if (list != NULL && fault != NULL)
        error = PyObject_CallFunctionObjArgs(world->state->error_of_fault, list, fault, NULL);
    if (error != NULL)
        PyErr_SetObject((PyObject *)Py_TYPE(error), error);
    Py_XDECREF(list);
    Py_XDECREF(fault);
    Py_XDECREF(error);
    return NULL;
}

/* ---- commands */

/* Carries out a command; -1 and an error if memory is refused before it.  The buffer then has space for an answer that
   isn't longer than the words. */
static int32_t call_words(World *world, const struct words *words, struct buffer *buffer)
{
    size_t few_lengths[FEW_WORDS], *lengths = few_lengths, filled = 0;
    int32_t code = -1;
    if (words->count > FEW_WORDS)
        lengths = PyMem_Malloc(words->count * sizeof *lengths);
    if (lengths == NULL) {
        PyErr_NoMemory();
    } else if (buffer_reserve(buffer, words->size + TKTEXT_BEHIND) == 0) {
        for (Py_ssize_t at = 0; at < words->count; at++) {
            const struct word *word = &words->at[at];
            memcpy(buffer->bytes + filled, word->start, word->length);
            lengths[at] = word->length;
            filled += word->length;
        }
        code = call_reported(world, buffer->bytes, words->size, lengths, words->count);
    }
    if (lengths != few_lengths)
        PyMem_Free(lengths);
    return code;
}

/* Carries out a command, and returns its answer in a form, or raises the error for which it was refused. */
static PyObject *run(World *world, const struct words *words, int form)
{
    struct buffer line;
    size_t length = TKTEXT_BEHIND;
    PyObject *answer = NULL;
    buffer_begin(&line);
    int32_t code = call_words(world, words, &line);
    int needs_line = code == TKTEXT_FAULT || form != AS_NOTHING;
    if (code > TKTEXT_FAULT) {
        raise_code(code);
    } else if (code >= 0 && (!needs_line || copy_line(world, &line, &length) == 0)) {
        answer = code == TKTEXT_FAULT ? raise_fault(world, words, &line, length)
            : answer_as(form, (const char *)line.bytes, length - TKTEXT_BEHIND);
    }
    buffer_end(&line);
    return answer;
}

/* Whether anything of Python's may be called after a command. */
static int is_noticed(World *world)
{
    return world->is_watched || world->first != world->last;
}

/* Queues the events of a command, and delivers what is queued. */
static int notice(World *world)
{
    if (world->is_watched) {
        PyObject *nothing = PyObject_CallMethod((PyObject *)world, "_look", NULL);
        if (nothing == NULL)
            return -1;
        Py_DECREF(nothing);
    }
    return deliver(world);
}

/* Carries out a command as `run` does, and then whatever comes of it. */
static PyObject *run_noticed(World *world, const struct words *words, int form)
{
    PyObject *answer = run(world, words, form);
    if (answer != NULL && is_noticed(world) && notice(world) < 0)
        Py_CLEAR(answer);
    return answer;
}

/* Does what comes of a command whose line stays the one that `said` returns. */
static int notice_with_line(World *world, PyObject *line)
{
    if (!is_noticed(world))
        return 0;
    int failed = notice(world);
    PyObject *old = world->line;
    Py_INCREF(line);
    world->line = line;
    Py_XDECREF(old);
    return failed;
}

/* ---- worlds */

static int number_up_to(PyObject *value, size_t maximum, size_t *number)
{
    *number = PyLong_AsSize_t(value);
    if (PyErr_Occurred())
        return -1;
    if (*number > maximum) {
        raise_code(TKTEXT_WRONG_LIMITS);
        return -1;
    }
    return 0;
}

static int32_t make_limited(World *world, PyObject *const *limits)
{
    size_t numbers[4];
    for (Py_ssize_t at = 0; at < 4; at++) {
        if (number_up_to(limits[at], at == 0 ? SIZE_MAX : UINT16_MAX, &numbers[at]) < 0)
            return -1;
    }
    return tktext_new(&world->handle, numbers[0], numbers[1], numbers[2], numbers[3]);
}

/* Makes the world, with four limits or none. */
static PyObject *world_make(
    World *world, PyTypeObject *type, PyObject *const *limits, Py_ssize_t count, PyObject *Py_UNUSED(names))
{
    if (count != 0 && count != 4) {
        PyErr_SetString(PyExc_ValueError, "the limits are four");
        return NULL;
    }
    int32_t code = count == 0 ? tktext_new_greatest(&world->handle) : make_limited(world, limits);
    if (code == TKTEXT_WRONG_HANDLE)
        PyErr_SetString(PyExc_ValueError, "the world was made before");
    else if (code > TKTEXT_ANSWER)
        raise_code(code);
    if (code != TKTEXT_ANSWER)
        return NULL;
    if (world->module == NULL) {
        world->module = PyType_GetModule(type);
        Py_XINCREF(world->module);
        world->state = PyType_GetModuleState(type);
    }
    return none();
}

static int world_traverse(World *world, visitproc visit, void *arg)
{
    Py_VISIT(Py_TYPE(world));
    Py_VISIT(world->module);
    return visit_queue(world, visit, arg);
}

static int world_clear(World *world)
{
    drop_queue(world);
    return 0;
}

static void world_dealloc(World *world)
{
    PyTypeObject *type = Py_TYPE(world);
    PyObject_GC_UnTrack(world);
    tktext_drop(&world->handle);
    drop_queue(world);
    Py_CLEAR(world->line);
    Py_CLEAR(world->module);
    ((freefunc)PyType_GetSlot(type, Py_tp_free))(world);
    Py_DECREF(type);
}

static PyObject *world_run(World *world, PyObject *given)
{
    struct words words;
    if (words_add_each(&words, given) < 0)
        return NULL;
    PyObject *answer = run_noticed(world, &words, AS_TEXT);
    words_end(&words);
    return answer;
}

/* Carries out a command whose words are a list, and returns its code. */
static PyObject *world_give(World *world, PyObject *given)
{
    struct words words;
    struct buffer buffer;
    if (words_add_each(&words, given) < 0)
        return NULL;
    buffer_begin(&buffer);
    int32_t code = call_words(world, &words, &buffer);
    int failed = code < 0;
    if (!failed && is_noticed(world)) {
        PyObject *line = line_of(world);
        failed = line == NULL || notice_with_line(world, line) < 0;
        Py_XDECREF(line);
    }
    buffer_end(&buffer);
    words_end(&words);
    return failed ? NULL : PyLong_FromLong(code);
}

static PyObject *world_said(World *world, PyObject *Py_UNUSED(nothing))
{
    return line_of(world);
}

static PyObject *world_feed(World *world, PyObject *piece)
{
    char *start;
    Py_ssize_t length;
    if (PyBytes_AsStringAndSize(piece, &start, &length) < 0)
        return NULL;
    int32_t code = tktext_feed(&world->handle, (const uint8_t *)start, length);
    if (code != TKTEXT_ANSWER)
        return raise_code(code);
    return none();
}

static PyObject *world_finish(World *world, PyObject *Py_UNUSED(nothing))
{
    tktext_finish(&world->handle);
    return none();
}

/* Returns the code and the line of the script's next command, or None if none is at hand. */
static PyObject *world_next(World *world, PyObject *Py_UNUSED(nothing))
{
    int32_t code = next_reported(world);
    if (code == TKTEXT_END)
        return none();
    if (code > TKTEXT_SCRIPT_FAULT)
        return raise_code(code);
    PyObject *line = code < 0 ? NULL : line_of(world);
    if (line == NULL || notice_with_line(world, line) < 0) {
        Py_XDECREF(line);
        return NULL;
    }
    return Py_BuildValue("iN", (int)code, line);
}

static PyObject *world_status(World *world, PyObject *Py_UNUSED(nothing))
{
    return PyLong_FromLong(tktext_status(&world->handle));
}

static PyObject *world_drop(World *world, PyObject *Py_UNUSED(nothing))
{
    tktext_drop(&world->handle);
    Py_CLEAR(world->line);
    drop_queue(world);
    return none();
}

static PyObject *world_watch(World *world, PyObject *is_watched)
{
    world->is_watched = PyObject_IsTrue(is_watched) == 1;
    return none();
}

static PyObject *world_followers(World *world, PyObject *Py_UNUSED(nothing))
{
    return followers_of(world);
}

static PyObject *world_replace_followers(World *world, PyObject *arguments)
{
    PyObject *old, *new, *names;
    int follows_marks;
    if (!PyArg_ParseTuple(arguments, "O!O!O!p", &PyTuple_Type, &old, &PyTuple_Type, &new, &PyTuple_Type, &names,
                          &follows_marks))
        return NULL;
    int is_replaced = replace_followers(world, old, new, names, follows_marks);
    return is_replaced < 0 ? NULL : PyBool_FromLong(is_replaced);
}

static PyObject *world_queue(World *world, PyObject *event)
{
    if (queue_event(world, event) < 0)
        return NULL;
    return none();
}

static PyObject *world_deliver(World *world, PyObject *Py_UNUSED(nothing))
{
    if (deliver(world) < 0)
        return NULL;
    return none();
}

static PyMethodDef world_methods[] = {
    {"_make", (PyCFunction)(void (*)(void))world_make, METH_METHOD | METH_FASTCALL | METH_KEYWORDS, NULL},
    {"_run", (PyCFunction)world_run, METH_O, NULL},
    {"_give", (PyCFunction)world_give, METH_O, NULL},
    {"_said", (PyCFunction)world_said, METH_NOARGS, NULL},
    {"_feed", (PyCFunction)world_feed, METH_O, NULL},
    {"_finish", (PyCFunction)world_finish, METH_NOARGS, NULL},
    {"_next", (PyCFunction)world_next, METH_NOARGS, NULL},
    {"_status", (PyCFunction)world_status, METH_NOARGS, NULL},
    {"_drop", (PyCFunction)world_drop, METH_NOARGS, NULL},
    {"_watch", (PyCFunction)world_watch, METH_O, NULL},
    {"_followers", (PyCFunction)world_followers, METH_NOARGS, NULL},
    {"_replace_followers", (PyCFunction)world_replace_followers, METH_VARARGS, NULL},
    {"_queue", (PyCFunction)world_queue, METH_O, NULL},
    {"_deliver", (PyCFunction)world_deliver, METH_NOARGS, NULL},
    {NULL, NULL, 0, NULL},
};

static PyType_Slot world_slots[] = {
    {Py_tp_dealloc, world_dealloc},
    {Py_tp_traverse, world_traverse},
    {Py_tp_clear, world_clear},
    {Py_tp_methods, world_methods},
    {0, NULL},
};

PyType_Spec world_spec = {
    "tktext._core.World", sizeof(World), 0, Py_TPFLAGS_DEFAULT | Py_TPFLAGS_BASETYPE | Py_TPFLAGS_HAVE_GC,
    world_slots,
};

/* ---- widgets */

static PyObject *widget_join(
    Widget *widget, PyTypeObject *type, PyObject *const *given, Py_ssize_t count, PyObject *Py_UNUSED(names))
{
    struct state *state = PyType_GetModuleState(type);
    if (state == NULL)
        return NULL;
    if (count != 2 || !PyObject_TypeCheck(given[0], state->world_type) || ((World *)given[0])->state == NULL) {
        PyErr_SetString(PyExc_TypeError, "a widget joins a world, by its name");
        return NULL;
    }
    PyObject *name = PyUnicode_AsUTF8String(given[1]);
    if (name == NULL)
        return NULL;
    PyObject *old_world = (PyObject *)widget->world, *old_name = widget->name;
    Report *unread = widget->unread;
    Py_INCREF(given[0]);
    widget->world = (World *)given[0];
    widget->name = name;
    widget->unread = NULL;
    Py_XDECREF(old_world);
    Py_XDECREF(old_name);
    Py_XDECREF(unread);
    return none();
}

/* The words of a widget's command: its name, and the values up to the first None. */
static int words_of_widget(struct words *words, Widget *widget, PyObject *const *values, Py_ssize_t count)
{
    if (words_begin(words, count + 1) < 0)
        return -1;
    Py_INCREF(widget->name);
    int failed = words_add_bytes(words, widget->name) < 0;
    for (Py_ssize_t at = 0; !failed && at < count && values[at] != Py_None; at++)
        failed = words_add_value(words, values[at], widget->world->state) < 0;
    if (failed)
        words_end(words);
    return failed ? -1 : 0;
}

/* Carries out a widget's command by `run` or `run_noticed`. */
static PyObject *run_values(
    Widget *widget, PyObject *const *values, Py_ssize_t count, int form,
    PyObject *(*run_words)(World *, const struct words *, int))
{
    struct words words;
    if (widget->world == NULL) {
        PyErr_SetString(PyExc_ValueError, "the widget wasn't made");
        return NULL;
    }
    if (words_of_widget(&words, widget, values, count) < 0)
        return NULL;
    /* What makes words of values may give the widget another world. */
    World *world = widget->world;
    Py_INCREF(world);
    PyObject *answer = run_words(world, &words, form);
    words_end(&words);
    Py_DECREF(world);
    return answer;
}

PyObject *run_widget(Widget *widget, PyObject *const *values, Py_ssize_t count, int form)
{
    return run_values(widget, values, count, form, run_noticed);
}

/* Carries out a command that is none of the caller's: nothing is delivered.  The first value is the form. */
static PyObject *widget_ask(Widget *widget, PyObject *const *values, Py_ssize_t count)
{
    long form = count == 0 ? -1 : PyLong_AsLong(values[0]);
    if (PyErr_Occurred())
        return NULL;
    if (form < AS_TEXT || form > AS_NOTHING) {
        PyErr_SetString(PyExc_ValueError, "no such call");
        return NULL;
    }
    return run_values(widget, values + 1, count - 1, form, run);
}

static PyObject *widget_text(Widget *widget, PyObject *const *values, Py_ssize_t count)
{
    return run_widget(widget, values, count, AS_TEXT);
}

static PyObject *widget_tuple(Widget *widget, PyObject *const *values, Py_ssize_t count)
{
    return run_widget(widget, values, count, AS_TUPLE);
}

static PyObject *widget_triples(Widget *widget, PyObject *const *values, Py_ssize_t count)
{
    return run_widget(widget, values, count, AS_TRIPLES);
}

static PyObject *widget_do(Widget *widget, PyObject *const *values, Py_ssize_t count)
{
    return run_widget(widget, values, count, AS_NOTHING);
}

/* Returns whether `edit undo`, or `edit redo`, would find something in the widget's text, as 1 or 0. */
static PyObject *widget_can(Widget *widget, PyObject *is_redo)
{
    char *name;
    Py_ssize_t size;
    int32_t can = -1;
    int redo = PyObject_IsTrue(is_redo);
    if (redo < 0)
        return NULL;
    if (widget->world != NULL && PyBytes_AsStringAndSize(widget->name, &name, &size) == 0)
        can = (redo ? tktext_can_redo : tktext_can_undo)(&widget->world->handle, (const uint8_t *)name, size);
    if (can >= 0)
        return PyLong_FromLong(can);
    /* A command that changes nothing says what is wrong with the widget. */
    PyObject *words[] = {PyUnicode_FromString("edit"), PyUnicode_FromString("modified")};
    PyObject *answer = words[0] == NULL || words[1] == NULL ? NULL : run_widget(widget, words, 2, AS_TEXT);
    Py_XDECREF(words[0]);
    Py_XDECREF(words[1]);
    return answer;
}

/* Returns the links of the queue that `_pass` hasn't passed, and the empty one after them; only this the first time. */
static PyObject *widget_unread(Widget *widget, PyObject *Py_UNUSED(nothing))
{
    if (widget->world != NULL)
        return links_from(widget->world, &widget->unread);
    PyErr_SetString(PyExc_ValueError, "the widget wasn't made");
    return NULL;
}

/* Passes the links that `_unread` returned, and returns True, unless another call has passed some of them. */
static PyObject *widget_pass(Widget *widget, PyObject *links)
{
    PyObject *first = PyList_GetItem(links, 0), *last = PyList_GetItem(links, PyList_Size(links) - 1);
    if (first == NULL || last == NULL)
        return NULL;
    if (first != (PyObject *)widget->unread)
        return PyBool_FromLong(0);
    Py_INCREF(last);
    widget->unread = (Report *)last;
    Py_DECREF(first);
    return PyBool_FromLong(1);
}

static int widget_traverse(Widget *widget, visitproc visit, void *arg)
{
    Py_VISIT(Py_TYPE(widget));
    Py_VISIT(widget->world);
    Py_VISIT(widget->unread);
    return 0;
}

static int widget_clear(Widget *widget)
{
    Py_CLEAR(widget->world);
    Py_CLEAR(widget->unread);
    return 0;
}

static void widget_dealloc(Widget *widget)
{
    PyTypeObject *type = Py_TYPE(widget);
    PyObject_GC_UnTrack(widget);
    widget_clear(widget);
    Py_CLEAR(widget->name);
    ((freefunc)PyType_GetSlot(type, Py_tp_free))(widget);
    Py_DECREF(type);
}

static PyMethodDef widget_methods[] = {
    {"_join", (PyCFunction)(void (*)(void))widget_join, METH_METHOD | METH_FASTCALL | METH_KEYWORDS, NULL},
    {"_ask", (PyCFunction)(void (*)(void))widget_ask, METH_FASTCALL, NULL},
    {"_text", (PyCFunction)(void (*)(void))widget_text, METH_FASTCALL, NULL},
    {"_tuple", (PyCFunction)(void (*)(void))widget_tuple, METH_FASTCALL, NULL},
    {"_triples", (PyCFunction)(void (*)(void))widget_triples, METH_FASTCALL, NULL},
    {"_do", (PyCFunction)(void (*)(void))widget_do, METH_FASTCALL, NULL},
    {"_can", (PyCFunction)widget_can, METH_O, NULL},
    {"_unread", (PyCFunction)widget_unread, METH_NOARGS, NULL},
    {"_pass", (PyCFunction)widget_pass, METH_O, NULL},
    {NULL, NULL, 0, NULL},
};

static PyType_Slot widget_slots[] = {
    {Py_tp_dealloc, widget_dealloc},
    {Py_tp_traverse, widget_traverse},
    {Py_tp_clear, widget_clear},
    {Py_tp_methods, widget_methods},
    {0, NULL},
};

PyType_Spec widget_spec = {
    "tktext._core.Widget", sizeof(Widget), 0, Py_TPFLAGS_DEFAULT | Py_TPFLAGS_BASETYPE | Py_TPFLAGS_HAVE_GC,
    widget_slots,
};
