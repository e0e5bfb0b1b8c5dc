/* Worlds of text widgets: the core of Tk's text widget behind a handle.

   A world holds texts with the widgets on them.  It takes the commands of docs/tktext.1.md, each as a list of words, or
   a script of them, and says the line that the program `tktext` prints for each.  Link with libtktext.a or libtktext.so.

   What a caller owes; none of it is checked:
   - A handle begins as TKTEXT_EMPTY.  A full one isn't copied, and nothing of it is written but by the calls below.
     Each is dropped once by tktext_drop, which frees all of its memory.
   - A handle is given to one call at a time.  Two handles share nothing, so each thread may have its own.
   - Pointers are valid for the length that is given with them, and never null, of no length either; the buffers of a
     call overlap neither one another nor the handle.
   - malloc, realloc and free are those of one allocator.  No call is made in a signal handler.

   What a caller gets, which is proved: any bytes, lengths and numbers are allowed.  No call ends the process, unless
   the stack is too small.  After any code but TKTEXT_ANSWER the world is as it was, also when out of memory.  A call
   keeps no pointer to what it was given.
   Not proved are five calls of a few lines of C: tktext_call_words, tktext_said_line, tktext_code_text, tktext_hint and
   tktext_version.

   Lengths and sizes are in bytes, the limit `chars` in characters; texts are UTF-8, without a byte 0 at their end.  */

#ifndef TKTEXT_H
#define TKTEXT_H

#include <stdbool.h>
#include <stddef.h>
#include <stdint.h>

#ifdef __cplusplus
extern "C" {
#endif

/* The version of this header. */
#define TKTEXT_VERSION "2.0.0.dev0"

/* Where a world is kept: nothing, or one world.  The caller reads `full` alone. */
struct tktext_kept {
    void *at;
};

typedef struct tktext {
    bool full;
    struct tktext_kept kept;
} tktext;

#define TKTEXT_EMPTY { false, { NULL } }

enum {
    TKTEXT_ANSWER = 0,        /* done; of a command: tktext_said has the answer */
    TKTEXT_FAULT = 1,         /* refused: tktext_said has the fault */
    TKTEXT_NO_MEMORY = 2,     /* refused since memory was: the call can be made again */
    TKTEXT_SCRIPT_FAULT = 3,  /* the script can't be read on: tktext_said has the fault */
    TKTEXT_END = 4,           /* no command of the script is at hand */
    TKTEXT_NOT_TEXT = 5,      /* a word isn't UTF-8 */
    TKTEXT_WRONG_LENGTHS = 6, /* there is no word, or the lengths don't add up to the bytes */
    TKTEXT_WRONG_LIMITS = 7,  /* no characters, or a limit above its greatest */
    TKTEXT_WRONG_HANDLE = 8,  /* the handle is full where a world is made, else it is empty */
    TKTEXT_FINISHED = 9       /* the script has ended, so nothing can follow */
};

/* What stands before the text of a fault in what is said, and behind every text: a newline. */
#define TKTEXT_BEFORE_FAULT (sizeof "error: " - 1)
#define TKTEXT_BEHIND 1

/* Makes a world without texts in an empty handle.  The limits, and the greatest of each: characters of a text, its last
   newline included (1 to 134217728), tags of a text besides `sel` (960), shared marks of a text (4096), widgets (64).
   TKTEXT_ANSWER, TKTEXT_NO_MEMORY, TKTEXT_WRONG_LIMITS or TKTEXT_WRONG_HANDLE. */
int32_t tktext_new(tktext *handle, size_t chars, uint16_t tags, uint16_t marks, uint16_t widgets);

/* The same with the greatest limits, which are the program's. */
int32_t tktext_new_greatest(tktext *handle);

/* Carries out one command.  Its words stand one behind the other in the bytes, with nothing between them, each as long as
   its length says: `count` lengths, which add up to `size`.  TKTEXT_ANSWER, TKTEXT_FAULT or TKTEXT_NO_MEMORY, after which
   tktext_said has a line; or, with nothing changed, TKTEXT_NOT_TEXT, TKTEXT_WRONG_LENGTHS or TKTEXT_WRONG_HANDLE. */
int32_t tktext_call(tktext *handle, const uint8_t *bytes, size_t size, const size_t *lengths, size_t count);

/* The same by words that a byte 0 ends each, of any length.  TKTEXT_NO_MEMORY too where the memory to put them one
   behind the other is refused, after which tktext_said has what it had. */
int32_t tktext_call_words(tktext *handle, size_t count, const char *const words[]);

/* Copies what was said last to the room, as far as it goes, writes nothing behind it, and gives the length of all, whatever
   the room.  It is the line that the program prints: an answer and a newline, or `error: `, the text of a fault and a
   newline; nothing before the first command and after TKTEXT_END.  It can be asked again until the next command. */
size_t tktext_said(tktext *handle, uint8_t *room, size_t size);

/* Copies what was said last, all of it and a byte 0, to `*line`, and gives the length without that byte.  `*line` is a
   block of malloc with room for `*room` bytes, or NULL with 0; one with too little room is made greater by realloc.
   Where that is refused it gives SIZE_MAX, and both are as they were.  The caller frees `*line` at last. */
size_t tktext_said_line(tktext *handle, char **line, size_t *room);

/* Copies a word of the command that was given last, counted from 0, as tktext_said does; no text where there is none. */
size_t tktext_word(tktext *handle, size_t word, uint8_t *room, size_t size);

/* Carries out a command as tktext_call does, and keeps a report of what it changed of the text that its widget shows;
   tktext_take_report moves it out.  The report has marks only if `marks` is true.  It is complete before anything
   changes, so after TKTEXT_NO_MEMORY all is as it was.  After any other code than TKTEXT_ANSWER there is nothing to
   report. */
int32_t tktext_call_told(tktext *handle, bool marks, const uint8_t *bytes, size_t size, const size_t *lengths,
                         size_t count);

/* A report: what one command changed, in memory of its own.  It begins as TKTEXT_EMPTY_REPORT, and is dropped once by
   tktext_report_drop; what holds of a handle holds of it too.  tktext_told_to returns which widgets it concerns.  It
   has three lists:
   - Changes of the text: at an offset, `removed` characters were deleted and others were inserted in their place.  Each
     is a change of the text that those before it leave.  Applied in order to the old characters they give the new ones.
     They are exactly what the command does: characters that stay are neither deleted nor inserted again, the last
     position comes first, and adjacent changes are one, as a replacement is.
   - Changes of tags: a tag was added to a range of characters of which none had it, or removed from one of which each
     had it.  Applied in order after the changes of the text, whose new characters have no tag yet, they give the new
     characters with their tags.  Each range is as long as it can be.
   - Marks of the text, which are `insert` and `current` of each of its widgets, and the shared ones.  The list has each
     mark, once, that isn't where the changes of the text alone take it, has another gravity, is new, or is gone.  Any
     other mark is where they take it.  Each change takes a mark by its deletion, and then by its insertion:
     - A mark after the deleted characters moves left by their number; one among them moves to the offset of the change.
     - Then a mark after that offset moves right by the number of inserted characters, and so does a mark at that offset
       if its gravity is right.
   `destroy` reports the `insert` and `current` of each widget that it destroys, as marks that are gone, text by text;
   they may be of several texts (tktext_told_mark_to).  It doesn't report the shared marks of a text that goes with its
   last widget, or the `sel` of the destroyed widgets. */
typedef struct tktext_report {
    bool full;
    struct tktext_kept kept;
} tktext_report;

#define TKTEXT_EMPTY_REPORT { false, { NULL } }

/* Makes an empty report.  TKTEXT_ANSWER, TKTEXT_NO_MEMORY, or TKTEXT_WRONG_HANDLE if the report is full already. */
int32_t tktext_report_new(tktext_report *report);

/* Moves the report of the last call that keeps one (tktext_call_told, tktext_next_told) out of the world into a report,
   whose old lists are dropped; the world then has nothing to report.  It allocates nothing.  TKTEXT_ANSWER; or
   TKTEXT_WRONG_HANDLE, with nothing changed, if the world or the report is empty.  Nothing that the world does later
   changes the report. */
int32_t tktext_take_report(tktext *handle, tktext_report *report);

/* Returns 1 if a report concerns a widget, by the widget's name in UTF-8, and else 0: the report of a widget's command
   concerns each widget that shows the same text, and that of `destroy` each one that still shows a text that lost a
   widget.  The report is one that was just taken, before the world carries out another command.  Nothing changes, and
   nothing is allocated.  0 also if there is no such widget, or the world or the report is empty. */
int32_t tktext_told_to(tktext *handle, tktext_report *report, const uint8_t *widget, size_t size);

/* Drops the report, if there is one, and leaves it TKTEXT_EMPTY_REPORT. */
void tktext_report_drop(tktext_report *report);

/* The calls below read a report, and change nothing.  Of an empty one each number is 0, and each text is empty; a mark
   isn't there. */

/* Returns the number of changes of the text. */
size_t tktext_told(tktext_report *report);

/* Returns the offset of one of them, counted from 0, in characters from the start of the text, whatever part of it the
   widget shows; 0 if there is no such change. */
size_t tktext_told_at(tktext_report *report, size_t change);

/* Returns the number of characters that were deleted there; 0 if there is no such change. */
size_t tktext_told_removed(tktext_report *report, size_t change);

/* Copies the text that was inserted there, as tktext_said does; no text if there is no such change. */
size_t tktext_told_inserted(tktext_report *report, size_t change, uint8_t *room, size_t size);

/* The ends of a change, of each of which the four calls below return the position. */
enum {
    TKTEXT_START = 0,   /* the start of the change */
    TKTEXT_OLD_END = 1, /* the end of what was deleted, in the text before the change */
    TKTEXT_NEW_END = 2  /* the end of what was inserted, in the text after the change; so is any greater number */
};

/* Returns the line of an end of a change, from 1; 0 if there is no such change. */
size_t tktext_told_line(tktext_report *report, size_t change, size_t end);

/* Returns the number of characters in that line before the end, as Tk counts; 0 if there is no such change. */
size_t tktext_told_column(tktext_report *report, size_t change, size_t end);

/* The same in bytes of UTF-8, as parsers count. */
size_t tktext_told_bytes(tktext_report *report, size_t change, size_t end);

/* The same in units of UTF-16, as language servers count. */
size_t tktext_told_units(tktext_report *report, size_t change, size_t end);

/* Returns the number of changes of tags. */
size_t tktext_told_tags(tktext_report *report);

/* Copies the name of the tag of one of them, counted from 0, as tktext_said does; no text if there is no such one. */
size_t tktext_told_tag(tktext_report *report, size_t change, uint8_t *room, size_t size);

/* Copies the name of the widget whose `sel` that tag is in the same way; no text for any other tag, which all peers
   share. */
size_t tktext_told_tag_widget(tktext_report *report, size_t change, uint8_t *room, size_t size);

/* Returns the offset at which it starts, in characters from the start of the text; 0 if there is no such change. */
size_t tktext_told_tag_from(tktext_report *report, size_t change);

/* Returns the offset at which it ends. */
size_t tktext_told_tag_to(tktext_report *report, size_t change);

/* Returns 1 if the tag was added, and 0 if it was removed or there is no such change. */
int32_t tktext_told_tag_on(tktext_report *report, size_t change);

/* Returns the number of marks. */
size_t tktext_told_marks(tktext_report *report);

/* Copies the name of one of these marks, counted from 0, as tktext_said does; no text if there is no such mark. */
size_t tktext_told_mark(tktext_report *report, size_t mark, uint8_t *room, size_t size);

/* Copies the name of the widget whose `insert` or `current` that mark is in the same way; no text for any other mark,
   which all peers share. */
size_t tktext_told_mark_widget(tktext_report *report, size_t mark, uint8_t *room, size_t size);

/* The times for which the two calls below return the position of a mark.  A new mark isn't there before the command,
   and one that is gone isn't there after it. */
enum {
    TKTEXT_BEFORE = 0, /* before the command */
    TKTEXT_AFTER = 1   /* after the command; so is any greater number */
};

/* The offset of a mark that isn't there. */
#define TKTEXT_NO_PLACE SIZE_MAX

/* Returns the offset of a mark, in characters from the start of the text, whatever part of it a widget shows;
   TKTEXT_NO_PLACE if the mark isn't there, or there is no such mark. */
size_t tktext_told_mark_at(tktext_report *report, size_t mark, size_t end);

/* The gravity of a mark: on which side of text that is inserted at the mark it is then. */
enum {
    TKTEXT_RIGHT = 0, /* after the text */
    TKTEXT_LEFT = 1   /* before the text */
};

/* Returns the gravity of a mark; -1 if the mark isn't there, or there is no such mark. */
int32_t tktext_told_mark_gravity(tktext_report *report, size_t mark, size_t end);

/* Returns 1 if a mark is one of the text of a widget that the report concerns, by the widget's name in UTF-8, and else
   0.  Only `destroy` reports marks of several texts; after a widget's command it returns 1 for each mark.  It may be
   called at any time.  0 also if there is no such mark. */
int32_t tktext_told_mark_to(tktext_report *report, size_t mark, const uint8_t *widget, size_t size);

/* Whether `edit undo` would find something to undo in the text that a widget shows, by the widget's name in UTF-8, as Tk's
   `edit canundo` tells: 1 or 0, and -1 where no widget has the name.  Nothing changes, what was said last neither. */
int32_t tktext_can_undo(tktext *handle, const uint8_t *widget, size_t size);

/* The same of `edit redo`. */
int32_t tktext_can_redo(tktext *handle, const uint8_t *widget, size_t size);

/* Takes the next bytes of the world's script, of any number, as they come.  Nothing is carried out yet.
   TKTEXT_ANSWER, TKTEXT_NO_MEMORY, TKTEXT_FINISHED or TKTEXT_WRONG_HANDLE. */
int32_t tktext_feed(tktext *handle, const uint8_t *bytes, size_t size);

/* Ends the script, and so its last command. */
void tktext_finish(tktext *handle);

/* Carries out the next command of the script that is at hand: before the end one that is whole however the script goes on.
   TKTEXT_ANSWER, TKTEXT_FAULT, TKTEXT_NO_MEMORY or TKTEXT_SCRIPT_FAULT, after which tktext_said has a line, and after the
   last of which no further command comes; TKTEXT_END or TKTEXT_WRONG_HANDLE. */
int32_t tktext_next(tktext *handle);

/* Carries out the next command as tktext_next does, and keeps a report as tktext_call_told does. */
int32_t tktext_next_told(tktext *handle, bool marks);

/* The exit status that the program has after so much of the script: 2 after a script fault, 1 after a command that was
   refused, else 0; 255 of an empty handle. */
int32_t tktext_status(tktext *handle);

/* Drops the world, if there is one, and leaves the handle empty. */
void tktext_drop(tktext *handle);

/* A few words that say what a code means, as `a word isn't UTF-8`. */
const char *tktext_code_text(int32_t code);

/* What the fault of a command leaves unsaid, or NULL: of `wrong # args` what has to stand behind the command's first
   word, as `index index`; of a `bad ..` which words there are in its place, as `left or right`.  The fault is its text
   alone, and a byte 0 ends it and each word. */
const char *tktext_hint(size_t count, const char *const words[], const char *fault);

/* The version of the library, and whether it was proved: "2.0.0, proved" or "2.0.0, not proved". */
const char *tktext_version(void);

#ifdef __cplusplus
}
#endif

#endif
