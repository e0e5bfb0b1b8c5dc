/* The Tcl extension over libtktext.a.  `package require tktext` adds these commands, which need no display:

       tktext::text W ?option value ..?   makes a widget, and a command W that takes the words of Tk's text widget
       tktext::destroy ?W ..?             destroys widgets, and deletes their commands, also renamed ones
       tktext::onchange W ?prefix?        follows the changes of the text that W shows
       tktext::ontags W ?prefix?          follows the changes of its tags
       tktext::onmarks W ?prefix?         follows its marks

   `W peer create V` makes a command V too.  Deleting the command of a widget destroys the widget.

   A prefix is called after each command that changes something of that kind, by whichever peer, with a list:
   - of changes of the text, each a list {offset removed inserted start oldEnd newEnd}: at the offset, `removed`
     characters were deleted, and the text `inserted` was put in their place.  Applied in order to the old text they
     give the new one.  The ends are lists {line column bytes units}: a line, from 1, and the length of what is before
     the end in that line, in characters (as in an index), bytes of UTF-8 and units of UTF-16.
   - of changes of tags, each a list {tag from to on}: the tag was added (1) to the characters between two offsets, or
     removed from them (0).  Applied in order after the changes of the text, whose new characters have no tag yet, they
     give the new tags.  `sel` is W's own.
   - of marks, each a list {mark widget old new}: a mark that is elsewhere than the changes of the text take it, has
     another gravity, is new, or is gone.  `widget` is the name of the widget whose `insert` or `current` it is, or
     empty.  `old` and `new` are lists {offset gravity}: where the mark was before the command, and is after it; one is
     empty if the mark is new, or gone, as the marks of a destroyed peer are.
   Offsets are from the start of the text, in characters as Tcl counts them: one above U+FFFF counts as two in Tcl 8.6.
   An empty prefix ends this; without a prefix the command returns the one that is set.

   Reports are delivered in the order of the commands, each to all its followers before the next: to `onchange`,
   `ontags` and `onmarks` of one widget, then to those of the next.  What a follower changes is reported after that.  A
   follower gets the reports of the commands after it was set, until it is replaced or ended, or its widget is
   destroyed.  An error in it is a background error.

   All widgets of an interpreter are in one world, which is freed with it.  A command that is refused is an error with
   its text, and with what that leaves unsaid, as the form of the command; the error code is `TKTEXT FAULT` and the
   text alone.  The code is `TKTEXT MEMORY` if an allocation of the library fails, and `TKTEXT SIZE` if the words or
   the answer have more bytes than a value of Tcl can hold; then the text of the error says whether the command was
   carried out.  If the lists of a report can't be made, none of its followers is called, and a background error says
   why. */

#include "tktext.h"

#include <limits.h>
#include <stdint.h>
#include <stdlib.h>
#include <string.h>
#include <tcl.h>

#define MOST_FIXED 16
#define FIXED_BYTES 1024

/* The maximum number of widgets of a world (tktext_new_greatest). */
#define MOST_WIDGETS 64

/* What Tcl's converter of texts wants behind a text's last byte. */
#define SLACK 16

/* The maximum number of bytes of a value, of the words of a command together, and of their lengths; a test sets a
   smaller one. */
#ifndef TKTEXT_MOST_BYTES
#define TKTEXT_MOST_BYTES (INT_MAX - SLACK)
#endif

typedef struct Widget Widget;
typedef struct Report Report;

/* One world, and its widgets that have a command, newest first. */
typedef struct World {
    Tcl_Interp *interp;
    tktext handle;
    Widget *widgets;
    /* How many hold the world: the package's five commands, each widget, and a delivery of reports. */
    int holders;
    /* How many followers of marks there are. */
    int mark_followers;
    /* How many widgets and reports have been made so far. */
    uint64_t widgets_made, reports_made;
    /* An empty report for the next command that needs one, or NULL. */
    Report *ready;
    /* The queue of reports, and the pointer that the next one is written to. */
    Report *first, **end;
    int is_delivering;
} World;

/* A text, which its peers share. */
typedef struct Document {
    /* How many hold the document: its widgets, and its reports in the queue. */
    int holders;
    int followers, mark_followers;
    /* Whether a word of its commands had a wide character: one above U+FFFF, which Tcl 8.6 counts as two. */
    int has_wide;
    /* The offsets of its wide characters, in characters of the core, in the text as it was last reported. */
    unsigned *wide;
    size_t wide_count, wide_capacity;
} Document;

/* What a follower follows. */
enum { CHANGES, TAGS, MARKS, WAYS };

typedef struct Follower {
    /* The words that are called, or NULL. */
    Tcl_Obj *prefix;
    /* The number of the last report before it was set: it gets those after that. */
    uint64_t since;
} Follower;

/* Whether a widget exists; or it was destroyed, and its command is yet to be deleted, or is just then. */
enum { EXISTS, IS_DESTROYED, IS_DELETED };

struct Widget {
    World *world;
    Widget *next;
    Document *document;
    /* Which of the world's widgets it is, from 1 in the order of making. */
    uint64_t number;
    Tcl_Obj *name;
    Tcl_Command command;
    int state;
    Follower followers[WAYS];
    /* The name in UTF-8. */
    size_t size;
    char utf8[];
};

/* What one command changed.  It is allocated before the command, and dropped after all its followers were called. */
struct Report {
    tktext_report changes;
    Report *next;
    /* The document of the command's widget; NULL for `destroy`, whose marks may be of several. */
    Document *document;
    /* Which of the world's reports it is. */
    uint64_t number;
    /* The numbers of the widgets that it concerns. */
    int concerned_count;
    uint64_t concerned[MOST_WIDGETS];
    /* Whether one of its texts was found to be one that Tcl can't hold. */
    int is_too_long;
};

/* The words of a command: the first, and others, before which is the command's own word in Tcl. */
typedef struct Command {
    Tcl_Obj *first;
    int count;
    Tcl_Obj *const *others;
} Command;

static void let_go_document(Document *document)
{
    if (--document->holders > 0)
        return;
    if (document->wide != NULL)
        ckfree((char *)document->wide);
    free(document);
}

static void drop_report(Report *report)
{
    tktext_report_drop(&report->changes);
    if (report->document != NULL)
        let_go_document(report->document);
    free(report);
}

static void let_go(void *data)
{
    World *world = data;
    if (--world->holders > 0)
        return;
    if (world->ready != NULL)
        drop_report(world->ready);
    while (world->first != NULL) {
        Report *report = world->first;
        world->first = report->next;
        drop_report(report);
    }
    tktext_drop(&world->handle);
    free(world);
}

/* ---- Errors and lengths */

static int fail(Tcl_Interp *interp, const char *kind, const char *text)
{
    Tcl_SetObjResult(interp, Tcl_NewStringObj(text, -1));
    Tcl_SetErrorCode(interp, "TKTEXT", kind, NULL);
    return TCL_ERROR;
}

static int fail_for_memory(Tcl_Interp *interp)
{
    return fail(interp, "MEMORY", "out of memory");
}

static int fail_for_words(Tcl_Interp *interp)
{
    return fail(interp, "SIZE", "the words of the command have more bytes than Tcl can hold");
}

static int fail_for_answer(Tcl_Interp *interp, int32_t code)
{
    if (code == TKTEXT_FAULT)
        return fail(interp, "SIZE", "the command was refused, and its error has more bytes than Tcl can hold");
    return fail(interp, "SIZE", "the command was carried out, but its answer has more bytes than Tcl can hold");
}

static int fail_for_report(Tcl_Interp *interp, const Report *report)
{
    if (report->is_too_long)
        return fail(interp, "SIZE", "a text of a report has more bytes than Tcl can hold");
    return fail_for_memory(interp);
}

/* Whether Tcl can hold so many bytes, and some more: the one place where lengths are compared. */
static int fits(size_t length, size_t more)
{
    return length <= TKTEXT_MOST_BYTES && more <= TKTEXT_MOST_BYTES - length;
}

static void free_unless(void *block, void *fixed)
{
    if (block != fixed)
        free(block);
}

/* ---- Answers */

/* By how many bytes Tcl's own form is longer, at most: it has two for the character 0, and six for one of four. */
static size_t growth_of(const uint8_t *text, size_t length)
{
    size_t growth = 0;
    for (size_t at = 0; at < length; at++)
        growth += text[at] == 0 ? 1 : text[at] >= 0xf0 ? 2 : 0;
    return growth;
}

/* Writes a text in Tcl's own form into a value that has room for it and SLACK bytes more. */
static void convert(Tcl_Obj *value, const uint8_t *text, size_t length)
{
    int written;
    Tcl_Encoding utf8 = Tcl_GetEncoding(NULL, "utf-8");
    Tcl_ExternalToUtf(NULL, utf8, (const char *)text, (int)length, TCL_ENCODING_START | TCL_ENCODING_END, NULL,
                      value->bytes, value->length, NULL, &written, NULL);
    Tcl_FreeEncoding(utf8);
    Tcl_SetObjLength(value, written);
}

/* A text that fits as a value, without a reference yet; NULL where there is no memory for it. */
static Tcl_Obj *value_of(const uint8_t *text, size_t length, size_t growth)
{
    Tcl_Obj *value = Tcl_NewObj();
    size_t room = growth == 0 ? length : length + growth + SLACK;
    if (!Tcl_AttemptSetObjLength(value, (int)room)) {
        Tcl_DecrRefCount(value);
        return NULL;
    }
    if (growth == 0)
        memcpy(value->bytes, text, length);
    else
        convert(value, text, length);
    return value;
}

/* Sets the interpreter's result to a text, and gives whether it could be. */
static int set_result(Tcl_Interp *interp, const uint8_t *text, size_t length, size_t growth)
{
    Tcl_Obj *value = value_of(text, length, growth);
    if (value == NULL)
        return 0;
    Tcl_SetObjResult(interp, value);
    return 1;
}

/* The same for the answer or the fault in a line that was said; else there is another error. */
static int set_line(Tcl_Interp *interp, int32_t code, const uint8_t *line, size_t length)
{
    size_t before = code == TKTEXT_FAULT ? TKTEXT_BEFORE_FAULT : 0, size = length - before - TKTEXT_BEHIND;
    size_t growth = growth_of(line + before, size);
    if (!fits(size, growth))
        return fail_for_answer(interp, code);
    return set_result(interp, line + before, size, growth) ? TCL_OK : fail_for_memory(interp);
}

/* Sets the interpreter's result to the answer or the fault that was said. */
static int said(Tcl_Interp *interp, World *world, int32_t code)
{
    uint8_t fixed[FIXED_BYTES], *line = fixed;
    size_t length = tktext_said(&world->handle, fixed, sizeof fixed);
    if (length > sizeof fixed) {
        if (!fits(length, 0))
            return fail_for_answer(interp, code);
        line = malloc(length);
        if (line == NULL)
            return fail_for_memory(interp);
        tktext_said(&world->handle, line, length);
    }
    int result = set_line(interp, code, line, length);
    free_unless(line, fixed);
    return result;
}

/* ---- Faults */

/* The error code of a fault, which has the fault in it. */
static void set_fault_code(Tcl_Interp *interp, Tcl_Obj *fault)
{
    Tcl_Obj *parts[] = {Tcl_NewStringObj("TKTEXT", -1), Tcl_NewStringObj("FAULT", -1), fault};
    Tcl_SetObjErrorCode(interp, Tcl_NewListObj(3, parts));
}

/* What a fault leaves unsaid of a command; NULL also if out of memory. */
static const char *hint_of(const char *fault, const Command *command)
{
    size_t count = (size_t)command->count + 1;
    const char **texts = malloc(count * sizeof *texts);
    if (texts == NULL)
        return NULL;
    texts[0] = Tcl_GetString(command->first);
    for (int number = 0; number < command->count; number++)
        texts[number + 1] = Tcl_GetString(command->others[number]);
    const char *hint = tktext_hint(count, texts, fault);
    free(texts);
    return hint;
}

/* Makes an error of the fault that is the interpreter's result, with what it leaves unsaid. */
static int fail_for_fault(Tcl_Interp *interp, const Command *command)
{
    Tcl_Obj *fault = Tcl_GetObjResult(interp);
    const char *text = Tcl_GetString(fault), *name = Tcl_GetString(command->others[-1]);
    int is_short = strlen(text) < FIXED_BYTES && strlen(name) < FIXED_BYTES;
    const char *hint = is_short ? hint_of(text, command) : NULL;
    set_fault_code(interp, fault);
    if (hint != NULL && strcmp(text, "wrong # args") == 0)
        Tcl_SetObjResult(interp, Tcl_ObjPrintf("%s: should be \"%s %s\"", text, name, hint));
    else if (hint != NULL)
        Tcl_SetObjResult(interp, Tcl_ObjPrintf("%s: must be %s", text, hint));
    return TCL_ERROR;
}

/* ---- Commands */

/* Whether Tcl's own form is UTF-8 as it stands: without a character 0, one in two halves, and one of four bytes. */
static int is_utf8(const char *text, int length)
{
    for (int at = 0; at < length; at++)
        if ((uint8_t)text[at] == 0xc0 || (uint8_t)text[at] == 0xed || (uint8_t)text[at] >= 0xf0)
            return 0;
    return 1;
}

/* How many bytes a word may take as UTF-8. */
static size_t room_of(Tcl_Obj *word)
{
    int length;
    const char *text = Tcl_GetStringFromObj(word, &length);
    return is_utf8(text, length) ? (size_t)length : 2 * (size_t)length;
}

/* Writes a word as UTF-8 where there is its room and SLACK bytes more, and gives its length. */
static size_t write_word(char *place, Tcl_Encoding utf8, Tcl_Obj *word)
{
    int length, written;
    const char *text = Tcl_GetStringFromObj(word, &length);
    if (is_utf8(text, length)) {
        memcpy(place, text, (size_t)length);
        return (size_t)length;
    }
    Tcl_UtfToExternal(NULL, utf8, text, length, TCL_ENCODING_START | TCL_ENCODING_END, NULL, place, 2 * length + SLACK,
                      NULL, &written, NULL);
    return (size_t)written;
}

/* How many bytes all words of a command may take together, and whether so many fit. */
static int room_of_all(size_t *room, const Command *command)
{
    *room = room_of(command->first);
    for (int number = 0; number < command->count; number++) {
        size_t more = room_of(command->others[number]);
        if (!fits(*room, more))
            return 0;
        *room += more;
    }
    return fits(*room, 0);
}

/* Writes the words one after the other, with their lengths, and returns the length of all. */
static size_t join(char *place, size_t *lengths, const Command *command)
{
    Tcl_Encoding utf8 = Tcl_GetEncoding(NULL, "utf-8");
    size_t size = lengths[0] = write_word(place, utf8, command->first);
    for (int number = 0; number < command->count; number++) {
        lengths[number + 1] = write_word(place + size, utf8, command->others[number]);
        size += lengths[number + 1];
    }
    Tcl_FreeEncoding(utf8);
    return size;
}

/* Notes whether the words of a command have a wide character, which has four bytes in UTF-8.  Words that fill their
   buffer are in Tcl's own form, and so have none. */
static void note_wide(Document *document, const uint8_t *words, size_t size, size_t capacity)
{
    if (size < capacity)
        for (size_t at = 0; at < size && !document->has_wide; at++)
            document->has_wide = words[at] >= 0xf0;
}

/* Whether a command is reported: of a document to its followers, or to know where its wide characters are; or, with
   NULL, `destroy` to those who follow marks. */
static int is_reported(const World *world, const Document *document)
{
    return document == NULL ? world->mark_followers > 0 : document->has_wide || document->followers > 0;
}

/* Makes the report for the next command, unless there is one; returns 0 if out of memory. */
static int make_ready(World *world)
{
    if (world->ready != NULL)
        return 1;
    Report *report = malloc(sizeof *report);
    if (report == NULL)
        return 0;
    *report = (Report){.changes = TKTEXT_EMPTY_REPORT};
    if (tktext_report_new(&report->changes) != TKTEXT_ANSWER) {
        free(report);
        return 0;
    }
    world->ready = report;
    return 1;
}

/* Notes which widgets a report concerns that was just taken. */
static void note_concerned(World *world, Report *report)
{
    int count = 0;
    for (Widget *widget = world->widgets; widget != NULL && count < MOST_WIDGETS; widget = widget->next)
        if (widget->state == EXISTS
            && tktext_told_to(&world->handle, &report->changes, (const uint8_t *)widget->utf8, widget->size))
            report->concerned[count++] = widget->number;
    report->concerned_count = count;
}

/* Moves what a command changed out of the world, into the queue of reports. */
static void queue_report(World *world, Document *document)
{
    Report *report = world->ready;
    tktext_report *changes = &report->changes;
    tktext_take_report(&world->handle, changes);
    if (tktext_told(changes) + tktext_told_tags(changes) + tktext_told_marks(changes) == 0)
        return;
    note_concerned(world, report);
    world->ready = NULL;
    report->document = document;
    if (document != NULL)
        document->holders++;
    report->number = ++world->reports_made;
    *world->end = report;
    world->end = &report->next;
}

/* Whether a command's report needs its marks: of a widget of a document, or, with NULL, of `destroy`. */
static int needs_marks(const World *world, const Document *document)
{
    return (document == NULL ? world->mark_followers : document->mark_followers) > 0;
}

/* Carries out a command, and queues a report of it.  The report is allocated before anything changes. */
static int32_t call_reported(World *world, Document *document, const uint8_t *bytes, size_t size, const size_t *lengths,
                             size_t count)
{
    if (!make_ready(world))
        return TKTEXT_NO_MEMORY;
    int32_t code = tktext_call_told(&world->handle, needs_marks(world, document), bytes, size, lengths, count);
    if (code == TKTEXT_ANSWER)
        queue_report(world, document);
    return code;
}

/* What `call` returns besides the library's codes, with nothing changed. */
#define TOO_LONG (-1)

/* Carries out a command of a widget of a document, or `text`; or, with NULL, `destroy`. */
static int32_t call(World *world, Document *document, const Command *command)
{
    uint8_t fixed[FIXED_BYTES], *bytes = fixed;
    size_t fixed_lengths[MOST_FIXED], *lengths = fixed_lengths;
    size_t room, count = (size_t)command->count + 1, lengths_size = count * sizeof *lengths;
    if (!fits(lengths_size, 0) || !room_of_all(&room, command))
        return TOO_LONG;
    if (lengths_size > sizeof fixed_lengths)
        lengths = malloc(lengths_size);
    if (room + SLACK > sizeof fixed)
        bytes = malloc(room + SLACK);
    int32_t code = TKTEXT_NO_MEMORY;
    if (lengths != NULL && bytes != NULL) {
        size_t size = join((char *)bytes, lengths, command);
        if (document != NULL)
            note_wide(document, bytes, size, room);
        if (is_reported(world, document))
            code = call_reported(world, document, bytes, size, lengths, count);
        else
            code = tktext_call(&world->handle, bytes, size, lengths, count);
    }
    free_unless(lengths, fixed_lengths);
    free_unless(bytes, fixed);
    return code;
}

/* The same, with the answer or an error as the interpreter's result; says whether the command was carried out. */
static int give(Tcl_Interp *interp, World *world, Document *document, const Command *command, int *is_done)
{
    int32_t code = call(world, document, command);
    *is_done = code == TKTEXT_ANSWER;
    if (code == TKTEXT_ANSWER)
        return said(interp, world, code);
    if (code == TKTEXT_FAULT)
        return said(interp, world, code) == TCL_OK ? fail_for_fault(interp, command) : TCL_ERROR;
    if (code == TKTEXT_NO_MEMORY)
        return fail_for_memory(interp);
    return code == TOO_LONG ? fail_for_words(interp) : fail(interp, "WORDS", "a word isn't UTF-8");
}

/* ---- Wide characters

   The core counts a character above U+FFFF as one, and Tcl 8.6 as two.  A document that has had one keeps the offsets
   of those that it has.  They are moved by each change when its report is delivered, so they are those of the text that
   the change is of.  Their memory is Tcl's, as that of the lists is: Tcl ends the process if it runs out. */

/* How many wide characters are before an offset. */
static size_t wide_before(const Document *document, size_t offset)
{
    size_t low = 0, high = document->wide_count;
    while (low < high) {
        size_t middle = low + (high - low) / 2;
        if (document->wide[middle] < offset)
            low = middle + 1;
        else
            high = middle;
    }
    return low;
}

/* An offset in characters as Tcl counts them; as it is without a document, which is gone. */
static size_t in_tcl(const Document *document, size_t offset)
{
    return document == NULL ? offset : offset + wide_before(document, offset);
}

/* Returns the number of wide characters of a text in UTF-8, and sets that of all its characters. */
static size_t count_wide(const uint8_t *text, size_t length, size_t *chars)
{
    size_t wide = 0;
    *chars = 0;
    for (size_t at = 0; at < length; at++) {
        *chars += (text[at] & 0xc0) != 0x80;
        wide += text[at] >= 0xf0;
    }
    return wide;
}

/* Writes the offsets of the wide characters of a text that begins at an offset. */
static void write_wide(unsigned *offsets, size_t offset, const uint8_t *text, size_t length)
{
    for (size_t at = 0; at < length; at++) {
        if (text[at] >= 0xf0)
            *offsets++ = (unsigned)offset;
        offset += (text[at] & 0xc0) != 0x80;
    }
}

/* Grows the buffer to hold a number of offsets. */
static void reserve_wide(Document *document, size_t count)
{
    if (count <= document->wide_capacity)
        return;
    document->wide_capacity = count + count / 2;
    unsigned size = (unsigned)(document->wide_capacity * sizeof *document->wide);
    document->wide = (unsigned *)ckrealloc((char *)document->wide, size);
}

/* Moves the wide characters: at an offset, a number of characters were deleted, and a text was inserted. */
static void replace_wide(Document *document, size_t offset, size_t removed, const uint8_t *text, size_t length)
{
    size_t inserted, wide = count_wide(text, length, &inserted);
    size_t from = wide_before(document, offset), to = wide_before(document, offset + removed);
    size_t rest = document->wide_count - to, count = from + wide + rest;
    if (count == 0) {
        document->wide_count = 0;
        return;
    }
    reserve_wide(document, count);
    unsigned *after = document->wide + from + wide;
    memmove(after, document->wide + to, rest * sizeof *after);
    for (size_t index = 0; index < rest; index++)
        after[index] += (unsigned)(inserted - removed);
    write_wide(document->wide + from, offset, text, length);
    document->wide_count = count;
}

/* Moves the wide characters of a report's document by one of its changes. */
static void move_wide(Report *report, size_t change)
{
    tktext_report *changes = &report->changes;
    uint8_t fixed[FIXED_BYTES], *text = fixed;
    size_t length = tktext_told_inserted(changes, change, fixed, sizeof fixed);
    if (length > sizeof fixed) {
        text = (uint8_t *)ckalloc((unsigned)length);
        tktext_told_inserted(changes, change, text, length);
    }
    size_t offset = tktext_told_at(changes, change), removed = tktext_told_removed(changes, change);
    replace_wide(report->document, offset, removed, text, length);
    if (text != fixed)
        ckfree((char *)text);
}

/* ---- What changed */

/* A text of a report in UTF-8, as a value; NULL if out of memory, or if Tcl can't hold it. */
static Tcl_Obj *value_for(Report *report, const uint8_t *text, size_t length)
{
    size_t growth = growth_of(text, length);
    report->is_too_long |= !fits(length, growth);
    return report->is_too_long ? NULL : value_of(text, length, growth);
}

/* The same by a call that copies the text to a buffer and returns its length. */
static Tcl_Obj *reported_text(Report *report, size_t (*copy)(tktext_report *, size_t, uint8_t *, size_t), size_t index)
{
    uint8_t fixed[FIXED_BYTES];
    size_t length = copy(&report->changes, index, fixed, sizeof fixed);
    if (length <= sizeof fixed)
        return value_for(report, fixed, length);
    report->is_too_long |= !fits(length, 0);
    uint8_t *text = report->is_too_long ? NULL : malloc(length);
    if (text == NULL)
        return NULL;
    copy(&report->changes, index, text, length);
    Tcl_Obj *value = value_for(report, text, length);
    free(text);
    return value;
}

static Tcl_Obj *number_of(size_t number)
{
    return Tcl_NewWideIntObj((Tcl_WideInt)number);
}

/* An end of a change: {line column bytes units}. */
static Tcl_Obj *end_of(Report *report, size_t change, size_t end)
{
    tktext_report *changes = &report->changes;
    Tcl_Obj *numbers[] = {number_of(tktext_told_line(changes, change, end)),
                          number_of(tktext_told_column(changes, change, end)),
                          number_of(tktext_told_bytes(changes, change, end)),
                          number_of(tktext_told_units(changes, change, end))};
    return Tcl_NewListObj(4, numbers);
}

/* A change, as a list; NULL if that can't be made. */
static Tcl_Obj *change_of(Report *report, size_t change)
{
    Tcl_Obj *text = reported_text(report, tktext_told_inserted, change);
    if (text == NULL)
        return NULL;
    size_t at = tktext_told_at(&report->changes, change), removed = tktext_told_removed(&report->changes, change);
    size_t from = in_tcl(report->document, at), to = in_tcl(report->document, at + removed);
    Tcl_Obj *parts[] = {number_of(from), number_of(to - from), text, end_of(report, change, TKTEXT_START),
                        end_of(report, change, TKTEXT_OLD_END), end_of(report, change, TKTEXT_NEW_END)};
    return Tcl_NewListObj(6, parts);
}

/* A change of a tag, as a list after the name of the widget whose `sel` it is, or an empty one; NULL if that can't be
   made. */
static Tcl_Obj *tag_change_of(const World *world, Report *report, size_t change)
{
    (void)world;
    tktext_report *changes = &report->changes;
    Tcl_Obj *tag = reported_text(report, tktext_told_tag, change);
    if (tag == NULL)
        return NULL;
    Tcl_Obj *widget = reported_text(report, tktext_told_tag_widget, change);
    if (widget == NULL) {
        Tcl_DecrRefCount(tag);
        return NULL;
    }
    Tcl_Obj *parts[] = {widget, tag, number_of(in_tcl(report->document, tktext_told_tag_from(changes, change))),
                        number_of(in_tcl(report->document, tktext_told_tag_to(changes, change))),
                        Tcl_NewIntObj(tktext_told_tag_on(changes, change))};
    return Tcl_NewListObj(5, parts);
}

/* Whether a report concerns a widget. */
static int is_concerned(const Report *report, const Widget *widget)
{
    for (int index = 0; index < report->concerned_count; index++)
        if (report->concerned[index] == widget->number)
            return 1;
    return 0;
}

/* Whether a mark of a report concerns a widget that the report concerns. */
static int is_mark_of(Report *report, size_t mark, const Widget *widget)
{
    return tktext_told_mark_to(&report->changes, mark, (const uint8_t *)widget->utf8, widget->size);
}

/* The document of a mark of a report; NULL if it is gone with its last widget. */
static const Document *document_of_mark(const World *world, Report *report, size_t mark)
{
    if (report->document != NULL)
        return report->document;
    for (const Widget *widget = world->widgets; widget != NULL; widget = widget->next)
        if (is_concerned(report, widget) && is_mark_of(report, mark, widget))
            return widget->document;
    return NULL;
}

/* Where a mark is before or after the command: {offset gravity}, or an empty list if it isn't there. */
static Tcl_Obj *place_of(const World *world, Report *report, size_t mark, size_t end)
{
    tktext_report *changes = &report->changes;
    size_t at = tktext_told_mark_at(changes, mark, end);
    if (at == TKTEXT_NO_PLACE)
        return Tcl_NewListObj(0, NULL);
    int is_left = tktext_told_mark_gravity(changes, mark, end) == TKTEXT_LEFT;
    size_t offset = in_tcl(document_of_mark(world, report, mark), at);
    Tcl_Obj *parts[] = {number_of(offset), Tcl_NewStringObj(is_left ? "left" : "right", -1)};
    return Tcl_NewListObj(2, parts);
}

/* A mark as it is before the command, as a list {mark widget old}; NULL if that can't be made. */
static Tcl_Obj *mark_of(const World *world, Report *report, size_t index)
{
    Tcl_Obj *mark = reported_text(report, tktext_told_mark, index);
    if (mark == NULL)
        return NULL;
    Tcl_Obj *widget = reported_text(report, tktext_told_mark_widget, index);
    if (widget == NULL) {
        Tcl_DecrRefCount(mark);
        return NULL;
    }
    Tcl_Obj *parts[] = {mark, widget, place_of(world, report, index, TKTEXT_BEFORE)};
    return Tcl_NewListObj(3, parts);
}

/* A list with one more element.  Without an element there is no list either. */
static Tcl_Obj *appended(Tcl_Obj *list, Tcl_Obj *element)
{
    if (element == NULL) {
        Tcl_DecrRefCount(list);
        return NULL;
    }
    Tcl_ListObjAppendElement(NULL, list, element);
    return list;
}

/* The changes of a report, as a list, which is empty if nobody follows them; NULL if that can't be made.  Each is of
   the text that those before it leave, and so are the offsets of the wide characters, which are moved in any case. */
static Tcl_Obj *list_changes(Report *report, int is_followed)
{
    Tcl_Obj *list = Tcl_NewListObj(0, NULL);
    size_t count = tktext_told(&report->changes);
    for (size_t change = 0; change < count; change++) {
        if (is_followed && list != NULL)
            list = appended(list, change_of(report, change));
        if (report->document->has_wide)
            move_wide(report, change);
    }
    return list;
}

/* A number of changes of tags, or of marks, of a report, as a list; NULL if that can't be made. */
static Tcl_Obj *list_others(const World *world, Report *report, size_t count,
                            Tcl_Obj *(*one)(const World *, Report *, size_t))
{
    Tcl_Obj *list = Tcl_NewListObj(0, NULL);
    for (size_t index = 0; index < count && list != NULL; index++)
        list = appended(list, one(world, report, index));
    return list;
}

static int is_word(Tcl_Obj *word, const char *text)
{
    return strcmp(Tcl_GetString(word), text) == 0;
}

/* Adds to each mark of a list where it is after the command. */
static void add_new_places(const World *world, Report *report, Tcl_Obj *marks)
{
    int count;
    Tcl_Obj **all;
    Tcl_ListObjGetElements(NULL, marks, &count, &all);
    for (int number = 0; number < count; number++)
        Tcl_ListObjAppendElement(NULL, all[number], place_of(world, report, (size_t)number, TKTEXT_AFTER));
}

/* Of changes of tags those that concern a widget, without the name that is first in each. */
static Tcl_Obj *tags_for(Tcl_Obj *tags, Widget *widget)
{
    int count, size;
    Tcl_Obj **all, **parts, *own = Tcl_NewListObj(0, NULL);
    Tcl_ListObjGetElements(NULL, tags, &count, &all);
    for (int number = 0; number < count; number++) {
        Tcl_ListObjGetElements(NULL, all[number], &size, &parts);
        if (is_word(parts[0], "") || is_word(parts[0], Tcl_GetString(widget->name)))
            Tcl_ListObjAppendElement(NULL, own, Tcl_NewListObj(size - 1, parts + 1));
    }
    return own;
}

/* Of marks those that concern a widget. */
static Tcl_Obj *marks_for(Report *report, Tcl_Obj *marks, Widget *widget)
{
    int count;
    Tcl_Obj **all, *own = Tcl_NewListObj(0, NULL);
    Tcl_ListObjGetElements(NULL, marks, &count, &all);
    for (int number = 0; number < count; number++)
        if (is_mark_of(report, (size_t)number, widget))
            Tcl_ListObjAppendElement(NULL, own, all[number]);
    return own;
}

/* ---- Delivery of reports */

/* Whether a widget has a follower of a kind that gets a report. */
static int is_due(Widget *widget, int way, const Report *report)
{
    const Follower *follower = &widget->followers[way];
    return widget->state == EXISTS && follower->prefix != NULL && follower->since < report->number
        && is_concerned(report, widget);
}

static int is_followed(World *world, int way, const Report *report)
{
    Widget *widget = world->widgets;
    while (widget != NULL && !is_due(widget, way, report))
        widget = widget->next;
    return widget != NULL;
}

/* Makes the lists of a report, those that nobody gets as empty ones, and returns whether all could be made.  The old
   offsets are made before the changes move the wide characters, and the others after that. */
static int make_lists(World *world, Report *report, Tcl_Obj *lists[])
{
    size_t tags = is_followed(world, TAGS, report) ? tktext_told_tags(&report->changes) : 0;
    size_t marks = is_followed(world, MARKS, report) ? tktext_told_marks(&report->changes) : 0;
    int is_whole = 1;
    lists[MARKS] = list_others(world, report, marks, mark_of);
    lists[CHANGES] = list_changes(report, is_followed(world, CHANGES, report));
    lists[TAGS] = list_others(world, report, tags, tag_change_of);
    if (lists[MARKS] != NULL)
        add_new_places(world, report, lists[MARKS]);
    for (int way = 0; way < WAYS; way++)
        if (lists[way] != NULL)
            Tcl_IncrRefCount(lists[way]);
        else
            is_whole = 0;
    return is_whole;
}

/* What a widget gets of the lists of a report. */
static Tcl_Obj *list_for(Report *report, Widget *widget, int way, Tcl_Obj *const lists[])
{
    if (way == CHANGES)
        return lists[CHANGES];
    return way == TAGS ? tags_for(lists[TAGS], widget) : marks_for(report, lists[MARKS], widget);
}

/* Calls a prefix with a list, unless that is empty. */
static void call_prefix(Tcl_Interp *interp, Tcl_Obj *prefix, Tcl_Obj *list)
{
    int count;
    Tcl_ListObjLength(NULL, list, &count);
    if (count == 0)
        return;
    Tcl_Obj *words = Tcl_DuplicateObj(prefix);
    Tcl_IncrRefCount(words);
    Tcl_ListObjAppendElement(NULL, words, list);
    int result = Tcl_EvalObjEx(interp, words, TCL_EVAL_GLOBAL | TCL_EVAL_DIRECT);
    if (result != TCL_OK && !Tcl_InterpDeleted(interp))
        Tcl_BackgroundException(interp, result);
    Tcl_DecrRefCount(words);
}

/* A follower's turn: the number of its widget, and what it follows. */
typedef struct Turn {
    uint64_t widget;
    int way;
} Turn;

/* Finds the widget of the next turn: of the widgets in their order the first after the last turn.  It is found anew
   each time, as a follower may do anything with the widgets. */
static Widget *next_turn(World *world, const Report *report, Turn *turn)
{
    for (Widget *widget = world->widgets; widget != NULL; widget = widget->next) {
        if (widget->number > turn->widget)
            continue;
        for (int way = widget->number == turn->widget ? turn->way + 1 : 0; way < WAYS; way++)
            if (is_due(widget, way, report)) {
                *turn = (Turn){widget->number, way};
                return widget;
            }
    }
    return NULL;
}

/* Calls all followers of a report. */
static void call_followers(Tcl_Interp *interp, World *world, Report *report, Tcl_Obj *const lists[])
{
    Turn turn = {UINT64_MAX, 0};
    Widget *widget;
    while (!Tcl_InterpDeleted(interp) && (widget = next_turn(world, report, &turn)) != NULL) {
        Tcl_Obj *list = list_for(report, widget, turn.way, lists);
        Tcl_IncrRefCount(list);
        call_prefix(interp, widget->followers[turn.way].prefix, list);
        Tcl_DecrRefCount(list);
    }
}

/* Delivers one report. */
static void deliver(Tcl_Interp *interp, World *world, Report *report)
{
    Tcl_Obj *lists[WAYS];
    if (make_lists(world, report, lists))
        call_followers(interp, world, report, lists);
    else
        Tcl_BackgroundException(interp, fail_for_report(interp, report));
    for (int way = 0; way < WAYS; way++)
        if (lists[way] != NULL)
            Tcl_DecrRefCount(lists[way]);
}

/* Takes the first report out of the queue; NULL if that is empty. */
static Report *first_report(World *world)
{
    Report *report = world->first;
    if (report != NULL && (world->first = report->next) == NULL)
        world->end = &world->first;
    return report;
}

/* Delivers the reports in the queue, those of the followers' commands too; the interpreter's result stays.  In a
   command of a follower it does nothing: the outermost command delivers them. */
static int deliver_all(Tcl_Interp *interp, World *world, int result)
{
    Report *report;
    if (world->is_delivering || world->first == NULL)
        return result;
    world->is_delivering = 1;
    world->holders++;
    Tcl_Preserve(interp);
    Tcl_InterpState state = Tcl_SaveInterpState(interp, result);
    while ((report = first_report(world)) != NULL) {
        if (!Tcl_InterpDeleted(interp))
            deliver(interp, world, report);
        drop_report(report);
    }
    result = Tcl_RestoreInterpState(interp, state);
    Tcl_Release(interp);
    world->is_delivering = 0;
    let_go(world);
    return result;
}

/* ---- Widgets */

static void set_follower(Widget *widget, int way, Tcl_Obj *prefix)
{
    Tcl_Obj *old = widget->followers[way].prefix;
    int added = (prefix != NULL) - (old != NULL), added_to_marks = way == MARKS ? added : 0;
    widget->document->followers += added;
    widget->document->mark_followers += added_to_marks;
    widget->world->mark_followers += added_to_marks;
    if (prefix != NULL)
        Tcl_IncrRefCount(prefix);
    if (old != NULL)
        Tcl_DecrRefCount(old);
    widget->followers[way] = (Follower){prefix, widget->world->reports_made};
}

static void unlink_widget(Widget *widget)
{
    Widget **place = &widget->world->widgets;
    while (*place != widget)
        place = &(*place)->next;
    *place = widget->next;
}

/* Called when a widget's command is deleted.  A widget that exists is destroyed, unless out of memory. */
static void forget(void *data)
{
    Widget *widget = data;
    World *world = widget->world;
    int is_destroyed = widget->state == EXISTS;
    if (is_destroyed) {
        Tcl_Obj *destroy = Tcl_NewStringObj("destroy", -1);
        Tcl_IncrRefCount(destroy);
        call(world, NULL, &(Command){destroy, 1, &widget->name});
        Tcl_DecrRefCount(destroy);
    }
    unlink_widget(widget);
    for (int way = 0; way < WAYS; way++)
        set_follower(widget, way, NULL);
    Tcl_DecrRefCount(widget->name);
    let_go_document(widget->document);
    free(widget);
    if (is_destroyed && !Tcl_InterpDeleted(world->interp))
        deliver_all(world->interp, world, TCL_OK);
    let_go(world);
}

static int make_widget(Tcl_Interp *interp, World *world, Document *document, const Command *command, Tcl_Obj *name);

/* A command of a widget.  One whose widget was destroyed may have a later one's name, and does nothing any more. */
static int run_widget(void *data, Tcl_Interp *interp, int count, Tcl_Obj *const words[])
{
    Widget *widget = data;
    World *world = widget->world;
    Command command = {widget->name, count - 1, words + 1};
    int is_done;
    if (widget->state != EXISTS) {
        Tcl_SetObjResult(interp, Tcl_ObjPrintf("invalid command name \"%s\"", Tcl_GetString(widget->name)));
        set_fault_code(interp, Tcl_GetObjResult(interp));
        return TCL_ERROR;
    }
    int makes_peer = count > 3 && is_word(words[1], "peer") && is_word(words[2], "create");
    world->holders++;
    int result = makes_peer ? make_widget(interp, world, widget->document, &command, words[3])
                            : give(interp, world, widget->document, &command, &is_done);
    result = deliver_all(interp, world, result);
    let_go(world);
    return result;
}

/* Deletes the command that a new one would stand in the place of; what its traces do is done then. */
static void clear_name(Tcl_Interp *interp, const char *name)
{
    int where = strstr(name, "::") == NULL ? TCL_GLOBAL_ONLY : TCL_NAMESPACE_ONLY;
    Tcl_Command found = Tcl_FindCommand(interp, name, NULL, where);
    if (found != NULL)
        Tcl_DeleteCommandFromToken(interp, found);
}

/* Makes the command of a new widget, and gives the result; without a command there is no widget. */
static int add_command(Tcl_Interp *interp, Widget *widget, int result)
{
    const char *name = Tcl_GetString(widget->name);
    clear_name(interp, name);
    if (widget->state == EXISTS) {
        widget->command = Tcl_CreateObjCommand(interp, name, run_widget, widget, forget);
        if (widget->command == NULL)
            result = fail(interp, "NAME", "there can't be a command of this name");
    }
    if (widget->command == NULL)
        forget(widget);
    else if (widget->state != EXISTS)
        Tcl_DeleteCommandFromToken(interp, widget->command);
    return result;
}

/* Carries out a command that makes a widget of a name on a document, and makes the widget's own command. */
static int make_widget(Tcl_Interp *interp, World *world, Document *document, const Command *command, Tcl_Obj *name)
{
    int is_done;
    Widget *widget = malloc(sizeof *widget + (name == NULL ? 0 : room_of(name) + SLACK));
    if (widget == NULL)
        return fail_for_memory(interp);
    int result = give(interp, world, document, command, &is_done);
    if (!is_done) {
        free(widget);
        return result;
    }
    *widget = (Widget){world, world->widgets, document, ++world->widgets_made, name, NULL, EXISTS, {{NULL, 0}}, 0};
    Tcl_Encoding utf8 = Tcl_GetEncoding(NULL, "utf-8");
    widget->size = write_word(widget->utf8, utf8, name);
    Tcl_FreeEncoding(utf8);
    world->widgets = widget;
    world->holders++;
    document->holders++;
    Tcl_IncrRefCount(name);
    return add_command(interp, widget, result);
}

/* tktext::text W ?option value ..? */
static int make(void *data, Tcl_Interp *interp, int count, Tcl_Obj *const words[])
{
    Document *document = malloc(sizeof *document);
    if (document == NULL)
        return fail_for_memory(interp);
    *document = (Document){1, 0, 0, 0, NULL, 0, 0};
    Tcl_Obj *first = Tcl_NewStringObj("text", -1);
    Tcl_IncrRefCount(first);
    Command command = {first, count - 1, words + 1};
    int result = make_widget(interp, data, document, &command, count > 1 ? words[1] : NULL);
    Tcl_DecrRefCount(first);
    let_go_document(document);
    return result;
}

/* Notes that the widget of a name was destroyed, where it has a command. */
static void note_destroyed(World *world, Tcl_Obj *name)
{
    for (Widget *widget = world->widgets; widget != NULL; widget = widget->next)
        if (widget->state == EXISTS && is_word(widget->name, Tcl_GetString(name)))
            widget->state = IS_DESTROYED;
}

static Widget *first_destroyed(World *world)
{
    Widget *widget = world->widgets;
    while (widget != NULL && widget->state != IS_DESTROYED)
        widget = widget->next;
    return widget;
}

/* Deletes a widget's command.  One that a trace made while Tcl put another in its place was thrown away by Tcl without
   a word, and at its token there may stand another by now. */
static void delete_command(Tcl_Interp *interp, Widget *widget)
{
    Tcl_CmdInfo found;
    if (Tcl_GetCommandInfoFromToken(widget->command, &found) && found.objClientData == widget)
        Tcl_DeleteCommandFromToken(interp, widget->command);
    else
        forget(widget);
}

/* Deletes the commands of destroyed widgets.  Each is found anew, as the traces of one may do anything with others. */
static void delete_destroyed(Tcl_Interp *interp, World *world)
{
    Widget *widget;
    while ((widget = first_destroyed(world)) != NULL) {
        widget->state = IS_DELETED;
        if (widget->command != NULL)
            delete_command(interp, widget);
    }
}

/* tktext::destroy ?W ..? */
static int destroy(void *data, Tcl_Interp *interp, int count, Tcl_Obj *const words[])
{
    World *world = data;
    int is_done;
    Tcl_Obj *first = Tcl_NewStringObj("destroy", -1);
    Tcl_IncrRefCount(first);
    int result = give(interp, world, NULL, &(Command){first, count - 1, words + 1}, &is_done);
    Tcl_DecrRefCount(first);
    if (!is_done)
        return result;
    for (int number = 1; number < count; number++)
        note_destroyed(world, words[number]);
    world->holders++;
    delete_destroyed(interp, world);
    result = deliver_all(interp, world, result);
    let_go(world);
    return result;
}

static Widget *find_widget(World *world, Tcl_Obj *name)
{
    Widget *widget = world->widgets;
    while (widget != NULL && !(widget->state == EXISTS && is_word(widget->name, Tcl_GetString(name))))
        widget = widget->next;
    return widget;
}

/* tktext::onchange W ?prefix?, and the like */
static int follow(World *world, Tcl_Interp *interp, int way, int count, Tcl_Obj *const words[])
{
    int length;
    if (count != 2 && count != 3) {
        Tcl_WrongNumArgs(interp, 1, words, "window ?prefix?");
        return TCL_ERROR;
    }
    Widget *widget = find_widget(world, words[1]);
    if (widget == NULL) {
        Tcl_SetObjResult(interp, Tcl_ObjPrintf("invalid command name \"%s\"", Tcl_GetString(words[1])));
        return TCL_ERROR;
    }
    if (count == 2) {
        if (widget->followers[way].prefix != NULL)
            Tcl_SetObjResult(interp, widget->followers[way].prefix);
        return TCL_OK;
    }
    if (Tcl_ListObjLength(interp, words[2], &length) != TCL_OK)
        return TCL_ERROR;
    set_follower(widget, way, length == 0 ? NULL : words[2]);
    return TCL_OK;
}

static int follow_changes(void *data, Tcl_Interp *interp, int count, Tcl_Obj *const words[])
{
    return follow(data, interp, CHANGES, count, words);
}

static int follow_tags(void *data, Tcl_Interp *interp, int count, Tcl_Obj *const words[])
{
    return follow(data, interp, TAGS, count, words);
}

static int follow_marks(void *data, Tcl_Interp *interp, int count, Tcl_Obj *const words[])
{
    return follow(data, interp, MARKS, count, words);
}

int DLLEXPORT Tktext_Init(Tcl_Interp *interp)
{
    if (Tcl_InitStubs(interp, "8.6", 0) == NULL)
        return TCL_ERROR;
    World *world = malloc(sizeof *world);
    if (world == NULL)
        return fail_for_memory(interp);
    *world = (World){.interp = interp, .handle = TKTEXT_EMPTY, .holders = 5};
    world->end = &world->first;
    if (tktext_new_greatest(&world->handle) != TKTEXT_ANSWER) {
        free(world);
        return fail_for_memory(interp);
    }
    Tcl_CreateObjCommand(interp, "tktext::text", make, world, let_go);
    Tcl_CreateObjCommand(interp, "tktext::destroy", destroy, world, let_go);
    Tcl_CreateObjCommand(interp, "tktext::onchange", follow_changes, world, let_go);
    Tcl_CreateObjCommand(interp, "tktext::ontags", follow_tags, world, let_go);
    Tcl_CreateObjCommand(interp, "tktext::onmarks", follow_marks, world, let_go);
    return Tcl_PkgProvide(interp, "tktext", "2.0");
}
