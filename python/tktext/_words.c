/* The words of commands as UTF-8, buffers, and lists as the core writes them. */

#include "_core.h"
#include <string.h>

/* A `str` of more characters is copied: it would keep its UTF-8 for as long as it lives, if it isn't ASCII. */
enum { MAX_LENT = 256 };

/* ---- words */

int words_begin(struct words *words, Py_ssize_t capacity)
{
    words->count = 0;
    words->size = 0;
    words->at = words->few;
    if (capacity > FEW_WORDS) {
        int is_too_many = (size_t)capacity > PY_SSIZE_T_MAX / sizeof *words->at;
        words->at = is_too_many ? NULL : PyMem_Malloc(capacity * sizeof *words->at);
        if (words->at == NULL) {
            PyErr_NoMemory();
            return -1;
        }
    }
    return 0;
}

/* Takes over the object that has a word's bytes; `start` is NULL after an error. */
static int words_add(struct words *words, PyObject *keeper, const char *start, Py_ssize_t length)
{
    if (start != NULL && (size_t)length > PY_SSIZE_T_MAX - words->size) {
        PyErr_NoMemory();
        start = NULL;
    }
    if (start == NULL) {
        Py_XDECREF(keeper);
        return -1;
    }
    words->at[words->count++] = (struct word){keeper, start, length};
    words->size += length;
    return 0;
}

/* Takes over a word that is `bytes`, or NULL after an error. */
int words_add_bytes(struct words *words, PyObject *bytes)
{
    const char *start = bytes == NULL ? NULL : PyBytes_AsString(bytes);
    return words_add(words, bytes, start, start == NULL ? 0 : PyBytes_Size(bytes));
}

void words_end(struct words *words)
{
    for (Py_ssize_t at = 0; at < words->count; at++)
        Py_DECREF(words->at[at].keeper);
    if (words->at != words->few)
        PyMem_Free(words->at);
}

/* Adds the word that tkinter makes of a value. */
int words_add_value(struct words *words, PyObject *value, struct state *state)
{
    if (!PyUnicode_CheckExact(value)) {
        PyObject *text = PyObject_CallFunctionObjArgs(state->word_of_value, value, NULL);
        PyObject *bytes = text == NULL ? NULL : PyUnicode_AsUTF8String(text);
        Py_XDECREF(text);
        return words_add_bytes(words, bytes);
    }
    if (PyUnicode_GetLength(value) > MAX_LENT)
        return words_add_bytes(words, PyUnicode_AsUTF8String(value));
    Py_ssize_t length = 0;
    const char *start = PyUnicode_AsUTF8AndSize(value, &length);
    Py_INCREF(value);
    return words_add(words, value, start, length);
}

/* Returns a word of a world's command as `bytes`: those of a subclass are copied, and any other value is its `str`. */
static PyObject *bytes_of_word(PyObject *word)
{
    if (PyBytes_CheckExact(word)) {
        Py_INCREF(word);
        return word;
    }
    if (PyBytes_Check(word)) {
        char *start;
        Py_ssize_t length;
        if (PyBytes_AsStringAndSize(word, &start, &length) < 0)
            return NULL;
        return PyBytes_FromStringAndSize(start, length);
    }
    PyObject *text = PyObject_Str(word);
    PyObject *bytes = text == NULL ? NULL : PyUnicode_AsUTF8String(text);
    Py_XDECREF(text);
    return bytes;
}

/* Begins words, and adds each of a tuple or a list. */
int words_add_each(struct words *words, PyObject *given)
{
    Py_ssize_t count = PySequence_Size(given);
    if (count < 0 || words_begin(words, count) < 0)
        return -1;
    for (Py_ssize_t at = 0; at < count; at++) {
        PyObject *word = PySequence_GetItem(given, at);
        int failed = word == NULL || words_add_bytes(words, bytes_of_word(word)) < 0;
        Py_XDECREF(word);
        if (failed) {
            words_end(words);
            return -1;
        }
    }
    return 0;
}

/* ---- buffers */

void buffer_begin(struct buffer *buffer)
{
    buffer->bytes = buffer->few;
    buffer->size = sizeof buffer->few;
}

/* Makes a buffer at least so large; its bytes are lost. */
int buffer_reserve(struct buffer *buffer, size_t size)
{
    if (size <= buffer->size)
        return 0;
    uint8_t *bytes = PyMem_Malloc(size);
    if (bytes == NULL) {
        PyErr_NoMemory();
        return -1;
    }
    buffer_end(buffer);
    buffer->bytes = bytes;
    buffer->size = size;
    return 0;
}

void buffer_end(struct buffer *buffer)
{
    if (buffer->bytes != buffer->few)
        PyMem_Free(buffer->bytes);
}

/* ---- lists */

/* The part of a list that is still to be read. */
struct reader {
    const char *at;
    const char *end;
};

static int is_space(char c)
{
    return c == ' ' || (c >= '\t' && c <= '\r');
}

static char unescaped(char c)
{
    static const char from[] = "abfnrtv", to[] = "\a\b\f\n\r\t\v";
    const char *found = c == 0 ? NULL : strchr(from, c);
    return found == NULL ? c : to[found - from];
}

static PyObject *read_braced(struct reader *list)
{
    const char *start = ++list->at;
    for (long depth = 1; list->at < list->end; list->at++) {
        if (*list->at == '\\') {
            list->at += list->end - list->at > 1;
        } else {
            depth += (*list->at == '{') - (*list->at == '}');
            if (depth == 0)
                return PyUnicode_DecodeUTF8(start, list->at++ - start, NULL);
        }
    }
    PyErr_SetString(PyExc_ValueError, "unmatched open brace in list");
    return NULL;
}

static PyObject *without_escapes(const char *start, size_t length)
{
    char *bare = PyMem_Malloc(length + 1);
    if (bare == NULL)
        return PyErr_NoMemory();
    size_t filled = 0;
    for (size_t at = 0; at < length; at++) {
        int is_escape = start[at] == '\\' && at + 1 < length;
        at += is_escape;
        bare[filled++] = is_escape ? unescaped(start[at]) : start[at];
    }
    PyObject *element = PyUnicode_DecodeUTF8(bare, filled, NULL);
    PyMem_Free(bare);
    return element;
}

static PyObject *read_bare(struct reader *list)
{
    const char *start = list->at;
    int has_escape = 0;
    while (list->at < list->end && !is_space(*list->at)) {
        if (*list->at == '\\') {
            has_escape = 1;
            list->at += list->end - list->at > 1;
        }
        list->at++;
    }
    if (has_escape)
        return without_escapes(start, list->at - start);
    return PyUnicode_DecodeUTF8(start, list->at - start, NULL);
}

static void skip_space(struct reader *list)
{
    while (list->at < list->end && is_space(*list->at))
        list->at++;
}

/* Returns the next element, which there is. */
static PyObject *read_element(struct reader *list)
{
    PyObject *element = *list->at == '{' ? read_braced(list) : read_bare(list);
    skip_space(list);
    return element;
}

/* Appends an element that is handed over, or NULL after an error. */
int append(PyObject *list, PyObject *element)
{
    int failed = element == NULL || PyList_Append(list, element) < 0;
    Py_XDECREF(element);
    return failed ? -1 : 0;
}

/* Returns three elements as a tuple. */
static PyObject *read_triple(struct reader *list)
{
    PyObject *triple = PyTuple_New(3);
    for (Py_ssize_t at = 0; triple != NULL && at < 3; at++) {
        PyObject *element = list->at < list->end ? read_element(list) : PyUnicode_FromString("");
        if (element == NULL || PyTuple_SetItem(triple, at, element) < 0) {
            Py_DECREF(triple);
            return NULL;
        }
    }
    return triple;
}

/* Returns the elements of a list, or triples of them, as a list. */
static PyObject *read_all(const char *start, size_t length, PyObject *(*read)(struct reader *))
{
    struct reader list = {start, start + length};
    PyObject *made = PyList_New(0);
    skip_space(&list);
    while (made != NULL && list.at < list.end) {
        if (append(made, read(&list)) < 0)
            Py_CLEAR(made);
    }
    return made;
}

PyObject *tuple_of_list(const char *start, size_t length)
{
    PyObject *made = read_all(start, length, read_element);
    PyObject *tuple = made == NULL ? NULL : PyList_AsTuple(made);
    Py_XDECREF(made);
    return tuple;
}

/* Returns the text of an answer in one of the forms. */
PyObject *answer_as(int form, const char *text, size_t length)
{
    if (form == AS_NOTHING)
        return none();
    if (form == AS_TUPLE)
        return tuple_of_list(text, length);
    if (form == AS_TRIPLES)
        return read_all(text, length, read_triple);
    return PyUnicode_DecodeUTF8(text, length, NULL);
}
