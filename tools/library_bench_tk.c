/* The text widget of library_bench.c by real Tk.  Its window is withdrawn and the event loop isn't entered, so nothing
   is drawn. */

#include "library_bench.h"

#include <stdio.h>
#include <stdlib.h>
#include <string.h>
#include <tcl.h>
#include <tk.h>

enum { MAXIMUM_NAMES = 64 };

static Tcl_Interp *interpreter;
static Tcl_Obj *words[MAXIMUM_WORDS];
/* The values of names.  As in a compiled procedure, each keeps what Tcl and Tk found for it. */
static Tcl_Obj *names[MAXIMUM_NAMES];
static size_t name_count;

static void must(int code)
{
    if (code == TCL_OK)
        return;
    fprintf(stderr, "library_bench: Tk: %s\n", Tcl_GetStringResult(interpreter));
    exit(3);
}

const char *widget_version(void)
{
    return TK_PATCH_LEVEL;
}

void open_widget(const char *path, bool keeps_undo)
{
    Tcl_FindExecutable(path);
    interpreter = Tcl_CreateInterp();
    must(Tcl_Init(interpreter));
    must(Tk_Init(interpreter));
    must(Tcl_Eval(interpreter, "wm withdraw ."));
    must(Tcl_Eval(interpreter, keeps_undo ? "text .t -undo 1" : "text .t -undo 0"));
}

static Tcl_Obj *new_value(const char *bytes, size_t length)
{
    Tcl_Obj *value = Tcl_NewStringObj(bytes, (int)length);
    Tcl_IncrRefCount(value);
    return value;
}

/* Returns the one value of a name. */
static Tcl_Obj *name_value(const char *bytes, size_t length)
{
    for (size_t at = 0; at < name_count; at++) {
        int known;
        const char *name = Tcl_GetStringFromObj(names[at], &known);
        if ((size_t)known == length && memcmp(name, bytes, length) == 0)
            return names[at];
    }
    if (name_count == MAXIMUM_NAMES)
        exit(3);
    return names[name_count++] = new_value(bytes, length);
}

/* Looks up the values of names.  Those of other words are made when the command is carried out. */
void prepare_call(void)
{
    const char *bytes = command.bytes;
    for (size_t at = 0; at < command.count; at++) {
        if (command.is_name[at])
            words[at] = name_value(bytes, command.lengths[at]);
        bytes += command.lengths[at];
    }
}

static void make_values(void)
{
    const char *bytes = command.bytes;
    for (size_t at = 0; at < command.count; at++) {
        if (!command.is_name[at])
            words[at] = new_value(bytes, command.lengths[at]);
        bytes += command.lengths[at];
    }
}

static void drop_values(void)
{
    for (size_t at = 0; at < command.count; at++)
        if (!command.is_name[at])
            Tcl_DecrRefCount(words[at]);
}

struct answer carry_out(void)
{
    int length;
    make_values();
    int code = Tcl_EvalObjv(interpreter, (int)command.count, words, TCL_EVAL_GLOBAL);
    const char *bytes = Tcl_GetStringFromObj(Tcl_GetObjResult(interpreter), &length);
    drop_values();
    return (struct answer){bytes, (size_t)length, code == TCL_OK};
}

void close_widget(void)
{
    Tcl_DeleteInterp(interpreter);
}
