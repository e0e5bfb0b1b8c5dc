/* What the files of the extension share: _words.c, _reports.c, _world.c and _core.c.

   It is built by the stable ABI of Python 3.9, so one binary serves each later version.  Interpreters share no
   variable: each has a module of its own, with a state. */

#ifndef TKTEXT_CORE_H
#define TKTEXT_CORE_H

#include <pyconfig.h>
#ifdef Py_GIL_DISABLED
#error "tktext needs a Python with the global interpreter lock: the free-threaded build isn't supported"
#endif

#define PY_SSIZE_T_CLEAN
#define Py_LIMITED_API 0x03090000
#include <Python.h>
#include "tktext.h"

/* In the stable ABI since 3.10; each Python since 3.9 has them in the same form. */
PyAPI_FUNC(const char *) PyUnicode_AsUTF8AndSize(PyObject *text, Py_ssize_t *length);
#ifndef METH_FASTCALL
#define METH_FASTCALL 0x0080
#endif

/* Returns None with a reference, which Pythons before 3.12 count; Py_RETURN_NONE of later headers adds none. */
static inline PyObject *none(void)
{
    Py_INCREF(Py_None);
    return Py_None;
}

/* The number of words, and of bytes of words or of a line, for which there is space on the stack. */
enum { FEW_WORDS = 16, FEW_BYTES = 512 };

/* How an answer is returned. */
enum { AS_TEXT, AS_TUPLE, AS_TRIPLES, AS_NOTHING };

/* What one interpreter's module has. */
struct state {
    /* Functions of the Python side: they return the word of a value that isn't a `str`, the error of a fault, and the
       content of a report. */
    PyObject *word_of_value, *error_of_fault, *content_of_report;
    /* The type of a method that is bound to its object. */
    PyObject *method_type;
    PyTypeObject *world_type, *widget_type, *report_type;
};

/* A link of a world's queue: the report of a command, or an event; the last link is empty. */
typedef struct Report {
    PyObject_HEAD
    struct Report *next;
    /* What the command changed. */
    tktext_report report;
    /* The tuple of those who followed at that time, that of the names of their widgets, and which of them the report
       concerns; the first `heard` of them have been called. */
    PyObject *followers, *names;
    char *concerned;
    Py_ssize_t heard;
    /* The content as objects of the Python side, once it has been read. */
    PyObject *content;
    /* What an event calls. */
    PyObject *event;
} Report;

typedef struct {
    PyObject_HEAD
    tktext handle;
    /* NULL until the world is made. */
    PyObject *module;
    struct state *state;
    /* Whether the method `_look`, which queues events, is called after each command. */
    char is_watched;
    /* Whether a call that is under way delivers what is queued. */
    char is_delivering;
    /* Whether one of those who follow follows marks. */
    char follows_marks;
    /* The tuple of those who follow, and that of the names of their widgets; or NULL. */
    PyObject *followers, *names;
    /* The queue, or NULL: the first link that isn't delivered, and the empty one, which the next report fills. */
    Report *first, *last;
    /* The empty link of the time after that. */
    Report *spare;
    /* The line that `said` returns, if the handle has another one. */
    PyObject *line;
} World;

typedef struct {
    PyObject_HEAD
    World *world;
    PyObject *name;
    /* The first link whose changes `changes` hasn't returned; NULL until it is called. */
    Report *unread;
} Widget;

extern PyType_Spec world_spec, widget_spec, report_spec;

/* ---- _words.c: words, buffers and lists */

/* A word in UTF-8: bytes of a Python object, which is kept alive. */
struct word {
    PyObject *keeper;
    const char *start;
    size_t length;
};

/* Words, and the number of bytes that they have together. */
struct words {
    Py_ssize_t count;
    size_t size;
    struct word *at;
    struct word few[FEW_WORDS];
};

int words_begin(struct words *words, Py_ssize_t capacity);
int words_add_bytes(struct words *words, PyObject *bytes);
int words_add_value(struct words *words, PyObject *value, struct state *state);
int words_add_each(struct words *words, PyObject *given);
void words_end(struct words *words);

/* Bytes that the library reads or writes. */
struct buffer {
    size_t size;
    uint8_t *bytes;
    uint8_t few[FEW_BYTES];
};

void buffer_begin(struct buffer *buffer);
int buffer_reserve(struct buffer *buffer, size_t size);
void buffer_end(struct buffer *buffer);

int append(PyObject *list, PyObject *element);
PyObject *tuple_of_list(const char *start, size_t length);
PyObject *answer_as(int form, const char *text, size_t length);

/* ---- _reports.c: what commands changed, and who is notified of it */

int32_t call_reported(World *world, const uint8_t *bytes, size_t size, const size_t *lengths, size_t count);
int32_t next_reported(World *world);
int deliver(World *world);
int queue_event(World *world, PyObject *event);
PyObject *followers_of(World *world);
int replace_followers(World *world, PyObject *old, PyObject *new, PyObject *names, int follows_marks);
PyObject *links_from(World *world, Report **unread);
void drop_queue(World *world);
int visit_queue(World *world, visitproc visit, void *arg);

/* ---- _world.c: worlds and widgets */

PyObject *raise_code(int32_t code);
PyObject *run_widget(Widget *widget, PyObject *const *values, Py_ssize_t count, int form);

#endif
