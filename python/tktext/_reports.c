/* What commands changed, and who is notified of it: the queue of a world.

   A command and the queuing of its report, with the followers that it concerns, are one step, in which no code of
   Python's runs: no signal handler, no finalizer and no other thread.  The memory for it is allocated before the
   command.

   The queue is a list of links, each of which owns the next one.  One call at a time delivers them, in order.  A widget
   of which `changes` was called has a position of its own in the list. */

#include "_core.h"
#include <string.h>

/* ---- links */

static Report *make_link(World *world)
{
    if (world->state != NULL && world->state->report_type != NULL)
        return (Report *)PyType_GenericAlloc(world->state->report_type, 0);
    PyErr_SetString(PyExc_ValueError, "the world wasn't made");
    return NULL;
}

/* Makes the first link, if there is none. */
static int begin_queue(World *world)
{
    if (world->last != NULL)
        return 0;
    Report *link = make_link(world);
    if (link == NULL)
        return -1;
    if (world->last == NULL)
        world->first = world->last = link;
    else
        Py_DECREF(link);
    return 0;
}

/* Ends the queue with another empty link, since the last one isn't empty any more. */
static void add_link(World *world, Report *link)
{
    world->last->next = link;
    world->last = link;
}

/* Drops a reference to a link.  The links that go with it go one by one: a recursion could overflow the stack. */
static void drop_links(Report *link)
{
    while (link != NULL && Py_REFCNT(link) == 1) {
        Report *next = link->next;
        link->next = NULL;
        Py_DECREF(link);
        link = next;
    }
    Py_XDECREF(link);
}

static int report_traverse(Report *link, visitproc visit, void *arg)
{
    Py_VISIT(Py_TYPE(link));
    Py_VISIT(link->next);
    Py_VISIT(link->followers);
    Py_VISIT(link->content);
    Py_VISIT(link->event);
    return 0;
}

static int report_clear(Report *link)
{
    Report *next = link->next;
    link->next = NULL;
    drop_links(next);
    Py_CLEAR(link->followers);
    Py_CLEAR(link->content);
    Py_CLEAR(link->event);
    return 0;
}

static void report_dealloc(Report *link)
{
    PyTypeObject *type = Py_TYPE(link);
    PyObject_GC_UnTrack(link);
    report_clear(link);
    Py_CLEAR(link->names);
    PyMem_Free(link->concerned);
    tktext_report_drop(&link->report);
    ((freefunc)PyType_GetSlot(type, Py_tp_free))(link);
    Py_DECREF(type);
}

/* ---- the content of a report */

typedef size_t (*Copy)(tktext_report *report, size_t index, uint8_t *bytes, size_t size);

/* Returns a text of a report, by the call that copies it. */
static PyObject *text_of(tktext_report *report, Copy copy, size_t index)
{
    struct buffer buffer;
    buffer_begin(&buffer);
    size_t length = copy(report, index, buffer.bytes, buffer.size);
    if (length > buffer.size) {
        if (buffer_reserve(&buffer, length) < 0)
            return NULL;
        copy(report, index, buffer.bytes, buffer.size);
    }
    PyObject *text = PyUnicode_DecodeUTF8((const char *)buffer.bytes, length, NULL);
    buffer_end(&buffer);
    return text;
}

/* Returns a change of the text: its offset, the number of characters deleted, the text inserted, and three ends: the
   line of each, and the numbers of characters, bytes and units of UTF-16 before it in that line. */
static PyObject *change_of(Report *link, size_t change)
{
    tktext_report *report = &link->report;
    Py_ssize_t lines[3], columns[3], bytes[3], units[3];
    for (size_t end = TKTEXT_START; end <= TKTEXT_NEW_END; end++) {
        lines[end] = tktext_told_line(report, change, end);
        columns[end] = tktext_told_column(report, change, end);
        bytes[end] = tktext_told_bytes(report, change, end);
        units[end] = tktext_told_units(report, change, end);
    }
    PyObject *inserted = text_of(report, tktext_told_inserted, change);
    if (inserted == NULL)
        return NULL;
    return Py_BuildValue("nnN(nnnn)(nnnn)(nnnn)", (Py_ssize_t)tktext_told_at(report, change),
                         (Py_ssize_t)tktext_told_removed(report, change), inserted, lines[0], columns[0], bytes[0],
                         units[0], lines[1], columns[1], bytes[1], units[1], lines[2], columns[2], bytes[2], units[2]);
}

/* Returns a change of a tag: the tag, the offsets from which and to which, whether it was added, and the widget of a
   `sel`. */
static PyObject *tag_change_of(Report *link, size_t change)
{
    tktext_report *report = &link->report;
    PyObject *tag = text_of(report, tktext_told_tag, change);
    PyObject *widget = tag == NULL ? NULL : text_of(report, tktext_told_tag_widget, change);
    if (widget == NULL) {
        Py_XDECREF(tag);
        return NULL;
    }
    return Py_BuildValue("NnnNN", tag, (Py_ssize_t)tktext_told_tag_from(report, change),
                         (Py_ssize_t)tktext_told_tag_to(report, change),
                         PyBool_FromLong(tktext_told_tag_on(report, change)), widget);
}

/* Returns where a mark is before or after the command: its offset and its gravity; None if it isn't there. */
static PyObject *position_of(tktext_report *report, size_t mark, size_t end)
{
    size_t at = tktext_told_mark_at(report, mark, end);
    if (at == TKTEXT_NO_PLACE)
        return none();
    int is_left = tktext_told_mark_gravity(report, mark, end) == TKTEXT_LEFT;
    return Py_BuildValue("ns", (Py_ssize_t)at, is_left ? "left" : "right");
}

/* Returns the names of the followers' widgets that a report concerns; with one of its marks, those that it concerns. */
static PyObject *names_concerned(Report *link, const size_t *mark)
{
    PyObject *list = PyList_New(0);
    Py_ssize_t count = PyTuple_Size(link->names), length;
    for (Py_ssize_t at = 0; list != NULL && at < count; at++) {
        PyObject *name = PyTuple_GetItem(link->names, at);
        const uint8_t *bytes = (const uint8_t *)PyUnicode_AsUTF8AndSize(name, &length);
        if (bytes == NULL) {
            Py_CLEAR(list);
        } else if (link->concerned[at] && (mark == NULL || tktext_told_mark_to(&link->report, *mark, bytes, length))) {
            if (PyList_Append(list, name) < 0)
                Py_CLEAR(list);
        }
    }
    return list;
}

/* Returns a change of a mark: the mark, the widget of an `insert` or `current`, where the mark was and is, and the
   names of the followers' widgets that it concerns. */
static PyObject *mark_change_of(Report *link, size_t mark)
{
    tktext_report *report = &link->report;
    PyObject *name = text_of(report, tktext_told_mark, mark);
    PyObject *widget = name == NULL ? NULL : text_of(report, tktext_told_mark_widget, mark);
    PyObject *old = widget == NULL ? NULL : position_of(report, mark, TKTEXT_BEFORE);
    PyObject *new = old == NULL ? NULL : position_of(report, mark, TKTEXT_AFTER);
    PyObject *concerned = new == NULL ? NULL : names_concerned(link, &mark);
    if (concerned != NULL)
        return Py_BuildValue("NNNNN", name, widget, old, new, concerned);
    Py_XDECREF(name);
    Py_XDECREF(widget);
    Py_XDECREF(old);
    Py_XDECREF(new);
    return NULL;
}

static PyObject *list_of(Report *link, size_t count, PyObject *(*item_of)(Report *, size_t))
{
    PyObject *list = PyList_New(0);
    for (size_t at = 0; list != NULL && at < count; at++)
        if (append(list, item_of(link, at)) < 0)
            Py_CLEAR(list);
    return list;
}

/* Returns the three lists of a report: its changes of the text and of tags, and its marks. */
static PyObject *lists_of(Report *link)
{
    tktext_report *report = &link->report;
    PyObject *changes = list_of(link, tktext_told(report), change_of);
    PyObject *tags = changes == NULL ? NULL : list_of(link, tktext_told_tags(report), tag_change_of);
    PyObject *marks = tags == NULL ? NULL : list_of(link, tktext_told_marks(report), mark_change_of);
    if (marks != NULL)
        return Py_BuildValue("NNN", changes, tags, marks);
    Py_XDECREF(changes);
    Py_XDECREF(tags);
    return NULL;
}

static PyObject *make_content(Report *link, struct state *state)
{
    PyObject *names = names_concerned(link, NULL);
    PyObject *lists = names == NULL ? NULL : lists_of(link), *content = NULL;
    if (lists != NULL)
        content = PyObject_CallFunctionObjArgs(state->content_of_report, names, lists, NULL);
    Py_XDECREF(names);
    Py_XDECREF(lists);
    return content;
}

/* Returns the content of a report; None of a link that isn't one. */
static PyObject *report_read(Report *link, PyObject *Py_UNUSED(nothing))
{
    struct state *state = PyType_GetModuleState(Py_TYPE(link));
    if (state == NULL)
        return NULL;
    if (link->names == NULL)
        return none();
    if (link->content == NULL) {
        PyObject *content = make_content(link, state), *old = link->content;
        if (content == NULL)
            return NULL;
        link->content = content;
        Py_XDECREF(old);
    }
    Py_INCREF(link->content);
    return link->content;
}

static PyMethodDef report_methods[] = {
    {"read", (PyCFunction)report_read, METH_NOARGS, NULL},
    {NULL, NULL, 0, NULL},
};

static PyType_Slot report_slots[] = {
    {Py_tp_dealloc, report_dealloc},
    {Py_tp_traverse, report_traverse},
    {Py_tp_clear, report_clear},
    {Py_tp_methods, report_methods},
    {0, NULL},
};

PyType_Spec report_spec = {
    "tktext._core.Report", sizeof(Report), 0, Py_TPFLAGS_DEFAULT | Py_TPFLAGS_HAVE_GC, report_slots,
};

/* ---- commands whose changes are reported */

/* Gives a link an empty report, if it has none, and space for which followers the report concerns. */
static int make_report(World *world, Report *link)
{
    char *concerned = PyMem_Realloc(link->concerned, PyTuple_Size(world->followers));
    if (concerned != NULL) {
        link->concerned = concerned;
        if (link->report.full || tktext_report_new(&link->report) == TKTEXT_ANSWER)
            return 0;
    }
    raise_code(TKTEXT_NO_MEMORY);
    return -1;
}

/* Allocates what the next command needs for its report, if anyone follows.  Making a link may run code of Python's,
   such as a finalizer, which may use up another one; after the last one no code of Python's runs. */
static int prepare(World *world)
{
    while (world->followers != NULL && world->spare == NULL) {
        Report *link = make_link(world);
        if (link == NULL)
            return -1;
        if (world->spare == NULL)
            world->spare = link;
        else
            Py_DECREF(link);
    }
    return world->followers == NULL ? 0 : make_report(world, world->last);
}

/* Notes which followers the report concerns that was taken just now.  The UTF-8 of each name is kept with it. */
static void note_concerned(World *world, Report *link)
{
    Py_ssize_t count = PyTuple_Size(world->names), length;
    for (Py_ssize_t at = 0; at < count; at++) {
        const char *name = PyUnicode_AsUTF8AndSize(PyTuple_GetItem(world->names, at), &length);
        link->concerned[at] = (char)tktext_told_to(&world->handle, &link->report, (const uint8_t *)name, length);
    }
}

/* Queues what the command changed that was carried out just now, if anything. */
static void queue_report(World *world)
{
    Report *link = world->last;
    tktext_report *report = &link->report;
    tktext_take_report(&world->handle, report);
    if (tktext_told(report) + tktext_told_tags(report) + tktext_told_marks(report) == 0)
        return;
    note_concerned(world, link);
    Py_INCREF(world->followers);
    link->followers = world->followers;
    Py_INCREF(world->names);
    link->names = world->names;
    add_link(world, world->spare);
    world->spare = NULL;
}

/* Does what a command asks for that was carried out just now, and returns its code. */
static int32_t conclude(World *world, int32_t code)
{
    if (code == TKTEXT_ANSWER && world->followers != NULL)
        queue_report(world);
    if (code <= TKTEXT_END)
        Py_CLEAR(world->line);
    return code;
}

/* Carries out a command as tktext_call does, and queues what it changed.  The caller then copies its line.  Returns -1
   with an error if memory is refused before the command. */
int32_t call_reported(World *world, const uint8_t *bytes, size_t size, const size_t *lengths, size_t count)
{
    if (prepare(world) < 0)
        return -1;
    if (world->followers == NULL)
        return conclude(world, tktext_call(&world->handle, bytes, size, lengths, count));
    return conclude(world, tktext_call_told(&world->handle, world->follows_marks, bytes, size, lengths, count));
}

/* The same of the next command of the script, which ends with a fault of its own. */
int32_t next_reported(World *world)
{
    enum { SCRIPT_FAULT = 2 };
    if (prepare(world) < 0)
        return -1;
    if (tktext_status(&world->handle) == SCRIPT_FAULT)
        return TKTEXT_END;
    if (world->followers == NULL)
        return conclude(world, tktext_next(&world->handle));
    return conclude(world, tktext_next_told(&world->handle, world->follows_marks));
}

/* ---- delivery */

/* Goes on to the link after one that was delivered, unless the queue was dropped. */
static void advance(World *world, Report *link)
{
    PyObject *followers = link->followers, *content = link->content;
    if (world->first != link)
        return;
    world->first = link->next;
    Py_INCREF(world->first);
    link->followers = link->content = NULL;
    Py_XDECREF(followers);
    Py_XDECREF(content);
    drop_links(link);
}

/* Calls a follower's function.  What it raises is printed, but for KeyboardInterrupt and its like. */
static int call_function(PyObject *follower, PyObject *function, PyObject *part)
{
    PyObject *answer = PyObject_CallFunctionObjArgs(function, part, NULL);
    if (answer == NULL && PyErr_ExceptionMatches(PyExc_Exception)) {
        PyObject *type, *error, *traceback;
        PyErr_Fetch(&type, &error, &traceback);
        PyErr_NormalizeException(&type, &error, &traceback);
        if (traceback != NULL)
            PyException_SetTraceback(error, traceback);
        answer = PyObject_CallMethod(follower, "fail", "O", error);
        Py_XDECREF(type);
        Py_XDECREF(error);
        Py_XDECREF(traceback);
    }
    Py_XDECREF(answer);
    return answer == NULL ? -1 : 0;
}

/* Calls the next follower of a report with what concerns it, if there is something.  If that can't be made, the
   follower is still the next one; once its function is called, it isn't called again. */
static int deliver_to_next(Report *link)
{
    if (!link->concerned[link->heard]) {
        link->heard++;
        return 0;
    }
    PyObject *follower = PyTuple_GetItem(link->followers, link->heard);
    PyObject *part = PyObject_CallMethod(follower, "part", "O", link);
    PyObject *function = part == NULL ? NULL : PyObject_GetAttrString(follower, "function");
    int failed = function == NULL;
    if (!failed) {
        link->heard++;
        if (function != Py_None && PyList_Size(part) != 0)
            failed = call_function(follower, function, part) < 0;
    }
    Py_XDECREF(part);
    Py_XDECREF(function);
    return failed ? -1 : 0;
}

static int deliver_report(World *world, Report *link)
{
    Py_ssize_t count = PyTuple_Size(link->followers);
    while (world->first == link && link->heard < count)
        if (deliver_to_next(link) < 0)
            return -1;
    advance(world, link);
    return 0;
}

/* Calls what an event is for; it isn't called again, however that ends. */
static int deliver_event(World *world, Report *link)
{
    PyObject *event = link->event;
    link->event = NULL;
    advance(world, link);
    PyObject *answer = PyObject_CallObject(event, NULL);
    Py_DECREF(event);
    Py_XDECREF(answer);
    return answer == NULL ? -1 : 0;
}

/* Delivers what is queued, and what is queued meanwhile, unless a call that is under way does so.  KeyboardInterrupt or
   MemoryError ends it: the rest stays queued. */
int deliver(World *world)
{
    int failed = 0;
    if (world->is_delivering)
        return 0;
    world->is_delivering = 1;
    while (!failed && world->first != world->last) {
        Report *link = world->first;
        Py_INCREF(link);
        failed = (link->event != NULL ? deliver_event : deliver_report)(world, link) < 0;
        Py_DECREF(link);
    }
    world->is_delivering = 0;
    return failed ? -1 : 0;
}

/* Queues a call without arguments. */
int queue_event(World *world, PyObject *event)
{
    Report *link = make_link(world);
    if (link == NULL || begin_queue(world) < 0) {
        Py_XDECREF(link);
        return -1;
    }
    Py_INCREF(event);
    world->last->event = event;
    add_link(world, link);
    return 0;
}

/* ---- those who follow, and those who read */

/* Returns the tuple of those who follow. */
PyObject *followers_of(World *world)
{
    if (world->followers == NULL)
        return PyTuple_New(0);
    Py_INCREF(world->followers);
    return world->followers;
}

/* Whether the names of widgets are as many as their followers, and each has its UTF-8, which is kept with it. */
static int are_names(PyObject *names, PyObject *followers)
{
    Py_ssize_t count = PyTuple_Size(names), length;
    for (Py_ssize_t at = 0; at < count; at++)
        if (PyUnicode_AsUTF8AndSize(PyTuple_GetItem(names, at), &length) == NULL)
            return 0;
    if (count == PyTuple_Size(followers))
        return 1;
    PyErr_SetString(PyExc_ValueError, "each follower has a name");
    return 0;
}

/* Replaces the tuple of followers, with that of the names of their widgets; some may follow marks.  Returns 1; or 0 if
   it isn't the old one any more, and -1 after an error. */
int replace_followers(World *world, PyObject *old, PyObject *new, PyObject *names, int follows_marks)
{
    if (begin_queue(world) < 0 || !are_names(names, new))
        return -1;
    PyObject *present = world->followers, *old_names = world->names, *spare = NULL;
    if (present == NULL ? PyTuple_Size(old) != 0 : present != old)
        return 0;
    if (PyTuple_Size(new) != 0) {
        Py_INCREF(new);
        Py_INCREF(names);
        world->followers = new;
        world->names = names;
    } else {
        spare = (PyObject *)world->spare;
        world->followers = world->names = NULL;
        world->spare = NULL;
    }
    world->follows_marks = follows_marks != 0;
    Py_XDECREF(present);
    Py_XDECREF(old_names);
    Py_XDECREF(spare);
    return 1;
}

/* Returns the link after one; that is the last one, if the queue of the one was dropped. */
static Report *next_link(World *world, Report *link)
{
    return link == world->last ? NULL : link->next == NULL ? world->last : link->next;
}

/* Returns the links that a reader hasn't read, the empty one at the end included. */
PyObject *links_from(World *world, Report **unread)
{
    PyObject *links = PyList_New(0);
    if (links == NULL || begin_queue(world) < 0) {
        Py_XDECREF(links);
        return NULL;
    }
    if (*unread == NULL) {
        Py_INCREF(world->last);
        *unread = world->last;
    }
    for (Report *link = *unread; links != NULL && link != NULL; link = next_link(world, link))
        if (PyList_Append(links, (PyObject *)link) < 0)
            Py_CLEAR(links);
    return links;
}

/* Drops all that isn't delivered, and ends all following. */
void drop_queue(World *world)
{
    Report *first = world->first, *spare = world->spare;
    PyObject *followers = world->followers, *names = world->names;
    world->first = world->last = world->spare = NULL;
    world->followers = world->names = NULL;
    drop_links(first);
    Py_XDECREF(spare);
    Py_XDECREF(followers);
    Py_XDECREF(names);
}

int visit_queue(World *world, visitproc visit, void *arg)
{
    Py_VISIT(world->followers);
    Py_VISIT(world->first);
    Py_VISIT(world->spare);
    return 0;
}
