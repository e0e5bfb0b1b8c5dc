/* A client of the library, for tools/library.py:

       client script PIECE    runs the script on standard input, fed in pieces of so many bytes, as the program does
       client words           carries out the commands on standard input: of each how many words, their lengths, the bytes
       client uses            makes calls that a caller may get wrong
       client refusals        refuses growths by tools/refuse_calls.c to the calls that are written in C
       client edits words COUNT, client edits script COUNT
                              so many lines put in, and each taken out again, by the words of the commands or by a
                              script  */

#define _POSIX_C_SOURCE 200809L

#include "tktext.h"

#include <stdio.h>
#include <stdlib.h>
#include <string.h>

static void *checked(void *block)
{
    if (block == NULL)
        exit(3);
    return block;
}

/* Prints what was said. */
static void print_said(tktext *world)
{
    uint8_t small[64];
    size_t length = tktext_said(world, small, sizeof small);
    uint8_t *all = checked(malloc(length + 1));
    all[length] = '#';
    if (tktext_said(world, all, length) != length || all[length] != '#' || memcmp(small, all, length < sizeof small ? length : sizeof small) != 0)
        exit(4);
    fwrite(all, 1, length, stdout);
    free(all);
}

static int32_t run_at_hand(tktext *world, int prints)
{
    int32_t code;
    while ((code = tktext_next(world)) <= TKTEXT_NO_MEMORY)
        if (prints)
            print_said(world);
    if (code == TKTEXT_SCRIPT_FAULT && prints)
        print_said(world);
    return code;
}

static int run_script(size_t piece)
{
    tktext world = TKTEXT_EMPTY;
    if (tktext_new_greatest(&world) != TKTEXT_ANSWER)
        return 3;
    uint8_t *bytes = checked(malloc(piece));
    size_t length;
    int32_t code = TKTEXT_END;
    while (code == TKTEXT_END && (length = fread(bytes, 1, piece, stdin)) > 0) {
        if (tktext_feed(&world, bytes, length) != TKTEXT_ANSWER)
            return 3;
        code = run_at_hand(&world, 1);
    }
    tktext_finish(&world);
    if (code == TKTEXT_END)
        run_at_hand(&world, 1);
    int status = tktext_status(&world);
    tktext_drop(&world);
    free(bytes);
    return status;
}

static int read_number(size_t *number)
{
    uint32_t read;
    int is_read = fread(&read, sizeof read, 1, stdin) == 1;
    *number = is_read ? read : 0;
    return is_read;
}

static int run_words(void)
{
    tktext world = TKTEXT_EMPTY;
    size_t count;
    if (tktext_new_greatest(&world) != TKTEXT_ANSWER)
        return 3;
    while (read_number(&count)) {
        size_t *lengths = checked(malloc((count + 1) * sizeof *lengths)), size = 0;
        for (size_t at = 0; at < count; at++) {
            read_number(&lengths[at]);
            size += lengths[at];
        }
        uint8_t *bytes = checked(malloc(size + 1));
        if (fread(bytes, 1, size, stdin) != size)
            return 3;
        if (tktext_call(&world, bytes, size, lengths, count) > TKTEXT_NO_MEMORY)
            return 3;
        print_said(&world);
        free(bytes);
        free(lengths);
    }
    tktext_drop(&world);
    return 0;
}

static int passed, failed;

static void check(int holds, const char *what)
{
    passed += holds != 0;
    failed += !holds;
    if (!holds)
        printf("FAILED: %s\n", what);
}

static int32_t call(tktext *world, const char *text, size_t first, size_t second)
{
    size_t lengths[2] = {first, second};
    return tktext_call(world, (const uint8_t *)text, strlen(text), lengths, 2);
}

static void check_empty(tktext *world)
{
    uint8_t room[4] = "abcd";
    check(call(world, "text.t", 4, 2) == TKTEXT_WRONG_HANDLE, "a command of an empty handle");
    check(tktext_feed(world, room, 4) == TKTEXT_WRONG_HANDLE, "a piece for an empty handle");
    check(tktext_next(world) == TKTEXT_WRONG_HANDLE, "a turn of an empty handle");
    check(tktext_said(world, room, 4) == 0 && memcmp(room, "abcd", 4) == 0, "what an empty handle says");
    check(tktext_status(world) == 255, "the status of an empty handle");
    check(tktext_can_undo(world, room, 4) == -1 && tktext_can_redo(world, room, 4) == -1, "undo in an empty handle");
    tktext_finish(world);
    tktext_drop(world);
    check(!world->full, "an empty handle stays empty");
}

static void check_limits(void)
{
    tktext world = TKTEXT_EMPTY;
    check(tktext_new(&world, 0, 960, 4096, 64) == TKTEXT_WRONG_LIMITS, "no characters");
    check(tktext_new(&world, 134217729, 960, 4096, 64) == TKTEXT_WRONG_LIMITS, "too many characters");
    check(tktext_new(&world, 134217728, 961, 4096, 64) == TKTEXT_WRONG_LIMITS, "too many tags");
    check(tktext_new(&world, 134217728, 960, 4097, 64) == TKTEXT_WRONG_LIMITS, "too many marks");
    check(tktext_new(&world, 134217728, 960, 4096, 65) == TKTEXT_WRONG_LIMITS, "too many widgets");
    check(!world.full, "wrong limits make no world");
    check(tktext_new(&world, 3, 0, 0, 1) == TKTEXT_ANSWER && world.full, "small limits");
    check(tktext_new(&world, 3, 0, 0, 1) == TKTEXT_WRONG_HANDLE, "a full handle");
    check(call(&world, "text.t", 4, 2) == TKTEXT_ANSWER, "a widget");
    check(call(&world, "text.u", 4, 2) == TKTEXT_FAULT, "a widget too many");
    tktext_drop(&world);
}

static void check_words(tktext *world)
{
    uint8_t room[4] = "abcd";
    check(tktext_said(world, room, 4) == 0, "nothing is said first");
    check(call(world, "text.t", 4, 2) == TKTEXT_ANSWER, "a command");
    check(tktext_said(world, room, 2) == 3 && memcmp(room, ".tcd", 4) == 0, "an answer in too little room");
    check(call(world, "text.t", 4, 1) == TKTEXT_WRONG_LENGTHS, "lengths that are too little");
    check(call(world, "text.t", 4, 3) == TKTEXT_WRONG_LENGTHS, "lengths that are too great");
    check(call(world, "text.t", SIZE_MAX, 7) == TKTEXT_WRONG_LENGTHS, "lengths that go round");
    check(call(world, "text.\xff", 4, 2) == TKTEXT_NOT_TEXT, "a word that isn't UTF-8");
    check(call(world, "text\xc3\xa9", 5, 1) == TKTEXT_NOT_TEXT, "a character that is cut");
    check(tktext_call(world, room, 0, &(size_t){0}, 0) == TKTEXT_WRONG_LENGTHS, "no words");
    check(tktext_call(world, room, 0, &(size_t){0}, 1) == TKTEXT_FAULT, "an empty word");
    check(call(world, "text.t", 4, 2) == TKTEXT_FAULT && tktext_said(world, room, 0) == strlen("error: window name \".t\" already exists\n"), "a fault");
}

static void check_script(tktext *world)
{
    check(tktext_next(world) == TKTEXT_END && tktext_status(world) == 0, "no script");
    check(tktext_feed(world, (const uint8_t *)".t inde", 7) == TKTEXT_ANSWER && tktext_next(world) == TKTEXT_END, "half a command");
    check(tktext_feed(world, (const uint8_t *)"x end\n[", 7) == TKTEXT_ANSWER && tktext_next(world) == TKTEXT_ANSWER, "its other half");
    check(tktext_status(world) == 0, "the status after an answer");
    check(tktext_next(world) == TKTEXT_SCRIPT_FAULT && tktext_next(world) == TKTEXT_SCRIPT_FAULT, "a script fault");
    check(tktext_status(world) == 2, "the status after it");
    tktext_finish(world);
    check(tktext_feed(world, (const uint8_t *)"x", 1) == TKTEXT_FINISHED, "a piece behind the end");
}

static void check_codes(void)
{
    check(strcmp(tktext_code_text(TKTEXT_ANSWER), "done") == 0, "the text of the first code");
    check(strcmp(tktext_code_text(TKTEXT_NOT_TEXT), "a word isn't UTF-8") == 0, "the text of a code");
    for (int32_t code = TKTEXT_ANSWER; code <= TKTEXT_FINISHED; code++)
        check(strcmp(tktext_code_text(code), "unknown code") != 0, "a code without a text");
    check(strcmp(tktext_code_text(TKTEXT_FINISHED + 1), "unknown code") == 0, "a code too great");
    check(strcmp(tktext_code_text(-1), "unknown code") == 0 && strcmp(tktext_code_text(INT32_MIN), "unknown code") == 0, "a code below all");
}

#define WORDS(...) sizeof((const char *[]){__VA_ARGS__}) / sizeof(char *), (const char *[]){__VA_ARGS__}

/* Whether what was said last is a line. */
static int said_is(tktext *world, char **line, size_t *room, const char *wanted)
{
    size_t length = tktext_said_line(world, line, room);
    return length == strlen(wanted) && *room > length && strcmp(*line, wanted) == 0;
}

static bool can(tktext *world, const char *widget, int32_t undo, int32_t redo)
{
    const uint8_t *name = (const uint8_t *)widget;
    return tktext_can_undo(world, name, strlen(widget)) == undo && tktext_can_redo(world, name, strlen(widget)) == redo;
}

/* Whether there is something to undo and to redo, by a widget and by its peer. */
static void check_undo(void)
{
    tktext world = TKTEXT_EMPTY;
    char *line = NULL;
    size_t room = 0;
    tktext_new_greatest(&world);
    tktext_call_words(&world, WORDS("text", ".t", "-undo", "1"));
    tktext_call_words(&world, WORDS(".t", "peer", "create", ".p"));
    check(can(&world, ".t", 0, 0), "nothing to undo at first");
    tktext_call_words(&world, WORDS(".t", "insert", "1.0", "one"));
    check(can(&world, ".t", 1, 0) && can(&world, ".p", 1, 0), "an edit to undo");
    tktext_call_words(&world, WORDS(".t", "edit", "undo"));
    check(can(&world, ".t", 0, 1) && can(&world, ".p", 0, 1), "an edit to make again");
    tktext_call_words(&world, WORDS(".t", "configure", "-undo", "0"));
    check(can(&world, ".t", 0, 0), "no edit is kept");
    tktext_call_words(&world, WORDS(".t", "index", "nowhere"));
    check(can(&world, ".u", -1, -1) && can(&world, "", -1, -1) && can(&world, ".t\xff", -1, -1), "no such widget");
    check(said_is(&world, &line, &room, "error: bad text index \"nowhere\"\n"), "what was said stays");
    free(line);
    tktext_drop(&world);
}

static int32_t call_plain(tktext *world, const char *words, const size_t *lengths, size_t count)
{
    return tktext_call(world, (const uint8_t *)words, strlen(words), lengths, count);
}

/* The report of the last command that was called by call_told or next_told. */
static tktext_report report = TKTEXT_EMPTY_REPORT;

/* Whether it has one change, and it is this one. */
static bool told_is(size_t at, size_t removed, const char *inserted)
{
    uint8_t room[8];
    size_t length = tktext_told_inserted(&report, 0, room, sizeof room);
    return tktext_told(&report) == 1 && tktext_told_at(&report, 0) == at && tktext_told_removed(&report, 0) == removed
        && length == strlen(inserted) && memcmp(room, inserted, length) == 0;
}

/* Carries out a command, and moves its report out of the world. */
static int32_t call_told(tktext *world, const char *words, const size_t *lengths, size_t count)
{
    int32_t code = tktext_call_told(world, true, (const uint8_t *)words, strlen(words), lengths, count);
    tktext_take_report(world, &report);
    return code;
}

/* The next command of the script, in the same way. */
static int32_t next_told(tktext *world)
{
    int32_t code = tktext_next_told(world, true);
    tktext_take_report(world, &report);
    return code;
}

#define LENGTHS(...) (const size_t[]){__VA_ARGS__}, sizeof((const size_t[]){__VA_ARGS__}) / sizeof(size_t)

/* What a command changed, by whichever widget and whether it came by its words or by a script. */
/* Whether one of the ends of the first change is there: its line, and what stands in that before it. */
static bool end_is(size_t end, size_t line, size_t column, size_t bytes, size_t units)
{
    return tktext_told_line(&report, 0, end) == line && tktext_told_column(&report, 0, end) == column
        && tktext_told_bytes(&report, 0, end) == bytes && tktext_told_units(&report, 0, end) == units;
}
static void check_ends(void)
{
    tktext world = TKTEXT_EMPTY;
    check(end_is(TKTEXT_START, 0, 0, 0, 0), "the ends that no world told");
    tktext_new_greatest(&world);
    tktext_report_new(&report);
    tktext_call_words(&world, WORDS("text", ".t"));
    check(call_told(&world, ".tinsert1.0a\xc3\xa9\xf0\x9f\x98\x80\nb", LENGTHS(2, 6, 3, 9)) == TKTEXT_ANSWER
          && end_is(TKTEXT_START, 1, 0, 0, 0) && end_is(TKTEXT_OLD_END, 1, 0, 0, 0)
          && end_is(TKTEXT_NEW_END, 2, 1, 1, 1), "the ends of an insertion");
    check(call_told(&world, ".tdelete1.12.0", LENGTHS(2, 6, 3, 3)) == TKTEXT_ANSWER
          && end_is(TKTEXT_START, 1, 1, 1, 1) && end_is(TKTEXT_OLD_END, 2, 0, 0, 0)
          && end_is(TKTEXT_NEW_END, 1, 1, 1, 1), "the ends of a deletion");
    check(call_told(&world, ".tinsert1.1\xc3\xa9\xf0\x9f\x98\x80", LENGTHS(2, 6, 3, 6)) == TKTEXT_ANSWER
          && end_is(TKTEXT_NEW_END, 1, 3, 7, 4) && end_is(SIZE_MAX, 1, 3, 7, 4), "bytes and units");
    check(tktext_told_line(&report, 1, TKTEXT_START) == 0, "no end of no change");
    tktext_report_drop(&report);
    tktext_drop(&world);
}

/* Whether one of the marks is this one: its name, that of the widget whose own it is, and where it was and is. */
static bool mark_is(size_t mark, const char *name, const char *widget, size_t old, size_t new)
{
    uint8_t room[8];
    size_t length = tktext_told_mark(&report, mark, room, sizeof room);
    bool named = length == strlen(name) && memcmp(room, name, length) == 0;
    length = tktext_told_mark_widget(&report, mark, room, sizeof room);
    return named && length == strlen(widget) && memcmp(room, widget, length) == 0
        && tktext_told_mark_at(&report, mark, TKTEXT_BEFORE) == old
        && tktext_told_mark_at(&report, mark, TKTEXT_AFTER) == new
        && tktext_told_mark_at(&report, mark, SIZE_MAX) == new;
}

/* Whether a mark had one gravity, and has another; -1 where it wasn't there, or isn't. */
static bool gravity_is(size_t mark, int32_t old, int32_t new)
{
    return tktext_told_mark_gravity(&report, mark, TKTEXT_BEFORE) == old
        && tktext_told_mark_gravity(&report, mark, TKTEXT_AFTER) == new
        && tktext_told_mark_gravity(&report, mark, SIZE_MAX) == new;
}

static void check_marks(void)
{
    const size_t none = TKTEXT_NO_PLACE;
    tktext world = TKTEXT_EMPTY;
    check(tktext_told_marks(&report) == 0 && mark_is(0, "", "", none, none) && gravity_is(0, -1, -1), "the marks that no world told");
    tktext_new_greatest(&world);
    tktext_report_new(&report);
    tktext_call_words(&world, WORDS("text", ".t", "-undo", "1"));
    check(call_told(&world, ".tinsert1.0abc", LENGTHS(2, 6, 3, 3)) == TKTEXT_ANSWER && tktext_told_marks(&report) == 0, "marks that go along");
    check(call_told(&world, ".tmarksetm1.1", LENGTHS(2, 4, 3, 1, 3)) == TKTEXT_ANSWER && tktext_told_marks(&report) == 1
          && mark_is(0, "m", "", none, 1) && gravity_is(0, -1, TKTEXT_RIGHT), "a mark that is set");
    check(call_told(&world, ".tmarksetm1.1", LENGTHS(2, 4, 3, 1, 3)) == TKTEXT_ANSWER && tktext_told_marks(&report) == 0, "a mark that stays");
    check(call_told(&world, ".tmarkgravitymleft", LENGTHS(2, 4, 7, 1, 4)) == TKTEXT_ANSWER && tktext_told_marks(&report) == 1
          && mark_is(0, "m", "", 1, 1) && gravity_is(0, TKTEXT_RIGHT, TKTEXT_LEFT), "a mark that is turned");
    check(call_told(&world, ".tinsert1.1x", LENGTHS(2, 6, 3, 1)) == TKTEXT_ANSWER && tktext_told_marks(&report) == 0, "a mark that stays before it");
    check(call_told(&world, ".tmarksetinsert1.0", LENGTHS(2, 4, 3, 6, 3)) == TKTEXT_ANSWER && tktext_told_marks(&report) == 1
          && mark_is(0, "insert", ".t", 4, 0), "a widget's own mark");
    check(call_told(&world, ".teditundo", LENGTHS(2, 4, 4)) == TKTEXT_ANSWER && tktext_told(&report) == 1, "an undo");
    check(call_told(&world, ".tmarkunsetnmm", LENGTHS(2, 4, 5, 1, 1, 1)) == TKTEXT_ANSWER && tktext_told_marks(&report) == 1
          && mark_is(0, "m", "", 0, none) && gravity_is(0, TKTEXT_LEFT, -1), "a mark that goes");
    check(mark_is(1, "", "", none, none) && gravity_is(1, -1, -1), "no such mark");
    check(call_told(&world, ".tpeercreate.p", LENGTHS(2, 4, 6, 2)) == TKTEXT_ANSWER && tktext_told_marks(&report) == 2
          && mark_is(0, "insert", ".p", none, 0) && mark_is(1, "current", ".p", none, 0), "the marks of a peer");
    tktext_call_told(&world, false, (const uint8_t *)".tmarksetn1.0", 13, LENGTHS(2, 4, 3, 1, 3));
    check(tktext_take_report(&world, &report) == TKTEXT_ANSWER && tktext_told_marks(&report) == 0, "marks that nobody asks for");
    tktext_feed(&world, (const uint8_t *)".t mark unset n\n.t mark set n 1.0\n", 34);
    check(next_told(&world) == TKTEXT_ANSWER && mark_is(0, "n", "", 0, none), "a mark by a script");
    check(tktext_next_told(&world, false) == TKTEXT_ANSWER && tktext_take_report(&world, &report) == TKTEXT_ANSWER
          && tktext_told_marks(&report) == 0, "one by a script that nobody asks for");
    tktext_report_drop(&report);
    tktext_drop(&world);
}

/* Whether a report that was just taken concerns a widget, and whether one of its marks does. */
static bool concerns(tktext *world, const char *widget)
{
    return tktext_told_to(world, &report, (const uint8_t *)widget, strlen(widget)) == 1;
}

static bool mark_concerns(size_t mark, const char *widget)
{
    return tktext_told_mark_to(&report, mark, (const uint8_t *)widget, strlen(widget)) == 1;
}

/* Two texts, `.t` with `.p` and `.u` with `.q`, and `.v`, which is alone on a third. */
static void make_texts(tktext *world)
{
    tktext_new_greatest(world);
    tktext_report_new(&report);
    tktext_call_words(world, WORDS("text", ".t"));
    tktext_call_words(world, WORDS(".t", "peer", "create", ".p"));
    tktext_call_words(world, WORDS("text", ".u"));
    tktext_call_words(world, WORDS(".u", "peer", "create", ".q"));
    tktext_call_words(world, WORDS("text", ".v"));
}

static void check_concerned(void)
{
    const size_t none = TKTEXT_NO_PLACE;
    tktext world = TKTEXT_EMPTY;
    check(!concerns(&world, ".t") && !mark_concerns(0, ".t"), "no world, and no report");
    make_texts(&world);
    check(!concerns(&world, ".t"), "an empty report");
    check(call_told(&world, ".pmarksetinsertend", LENGTHS(2, 4, 3, 6, 3)) == TKTEXT_ANSWER && concerns(&world, ".t")
          && concerns(&world, ".p") && !concerns(&world, ".u"), "a command of a peer");
    check(!concerns(&world, ".x") && !concerns(&world, "") && !concerns(&world, ".t\xff"), "no such widget");
    check(call_told(&world, ".tmarksetm1.0", LENGTHS(2, 4, 3, 1, 3)) == TKTEXT_ANSWER && mark_concerns(0, ".p")
          && !mark_concerns(1, ".p") && !mark_concerns(0, ".\xff"), "a mark of a peer's command");
    check(call_told(&world, ".tindexfoo", LENGTHS(2, 5, 3)) == TKTEXT_FAULT && !concerns(&world, ".t"), "a refused one");
    check(call_told(&world, "destroy.p.v.q.x", LENGTHS(7, 2, 2, 2, 2)) == TKTEXT_ANSWER && tktext_told(&report) == 0
          && tktext_told_marks(&report) == 6 && mark_is(0, "insert", ".p", 0, none) && mark_is(1, "current", ".p", 0, none)
          && mark_is(2, "insert", ".q", 0, none) && mark_is(5, "current", ".v", 0, none), "the marks that go");
    check(concerns(&world, ".t") && concerns(&world, ".u") && !concerns(&world, ".p") && !concerns(&world, ".v"),
          "those that are left");
    check(mark_concerns(0, ".t") && !mark_concerns(2, ".t") && mark_concerns(3, ".u") && !mark_concerns(4, ".u"),
          "the marks of each text");
    check(call_told(&world, "text.p", LENGTHS(4, 2)) == TKTEXT_ANSWER && !concerns(&world, ".p"), "a new widget");
    tktext_report_drop(&report);
    tktext_drop(&world);
}

/* Whether one of the changes of tags is this one: a tag, of a `sel` its widget's name, and what becomes of it where. */
static bool tag_is(size_t change, const char *tag, const char *widget, size_t from, size_t to, int on)
{
    uint8_t room[8];
    size_t length = tktext_told_tag(&report, change, room, sizeof room);
    bool named = length == strlen(tag) && memcmp(room, tag, length) == 0;
    length = tktext_told_tag_widget(&report, change, room, sizeof room);
    return named && length == strlen(widget) && memcmp(room, widget, length) == 0
        && tktext_told_tag_from(&report, change) == from && tktext_told_tag_to(&report, change) == to
        && tktext_told_tag_on(&report, change) == on;
}

static void check_tags(void)
{
    tktext world = TKTEXT_EMPTY;
    check(tktext_told_tags(&report) == 0 && tag_is(0, "", "", 0, 0, 0), "the tags that no world told");
    tktext_new_greatest(&world);
    tktext_report_new(&report);
    tktext_call_words(&world, WORDS("text", ".t", "-undo", "1"));
    check(call_told(&world, ".tinsert1.0abcb sel", LENGTHS(2, 6, 3, 3, 5)) == TKTEXT_ANSWER && tktext_told(&report) == 1
          && tktext_told_tags(&report) == 2 && tag_is(0, "sel", ".t", 0, 3, 1)
          && tag_is(1, "b", "", 0, 3, 1), "the tags of a list");
    check(call_told(&world, ".tdelete1.1end", LENGTHS(2, 6, 3, 3)) == TKTEXT_ANSWER && tktext_told(&report) == 1
          && tktext_told_tags(&report) == 0, "tags that go with their characters");
    check(call_told(&world, ".ttagaddb1.0end", LENGTHS(2, 3, 3, 1, 3, 3)) == TKTEXT_ANSWER && tktext_told(&report) == 0
          && tktext_told_tags(&report) == 1 && tag_is(0, "b", "", 1, 2, 1), "a tag where it isn't yet");
    check(call_told(&world, ".teditundo", LENGTHS(2, 4, 4)) == TKTEXT_ANSWER && tktext_told_tags(&report) == 1
          && tag_is(0, "b", "", 1, 3, 1), "what comes back between two that have it");
    check(call_told(&world, ".tdelete1.2end", LENGTHS(2, 6, 3, 3)) == TKTEXT_ANSWER && tktext_told_tags(&report) == 1
          && tag_is(0, "b", "", 2, 3, 0), "the last character loses it where it stands then");
    check(call_told(&world, ".ttagdeletebbc", LENGTHS(2, 3, 6, 1, 1, 1)) == TKTEXT_ANSWER
          && tktext_told_tags(&report) == 1 && tag_is(0, "b", "", 0, 2, 0), "a tag that goes");
    check(call_told(&world, ".tinsert1.0abb ccdb", LENGTHS(2, 6, 3, 2, 3, 2, 1)) == TKTEXT_ANSWER
          && tktext_told_tags(&report) == 2 && tag_is(0, "b", "", 0, 4, 1) && tag_is(1, "c", "", 0, 2, 1),
          "a tag of two texts");
    check(call_told(&world, ".ttagaddb", LENGTHS(2, 3, 3, 1)) == TKTEXT_FAULT && tktext_told_tags(&report) == 0, "a refused one");
    check(tag_is(0, "", "", 0, 0, 0), "no such change of a tag");
    tktext_report_drop(&report);
    tktext_drop(&world);
}

/* A report is in memory of its own: it stays whatever its world does, and outlives it. */
static void check_reports(void)
{
    tktext world = TKTEXT_EMPTY;
    tktext_report other = TKTEXT_EMPTY_REPORT;
    check(tktext_take_report(&world, &report) == TKTEXT_WRONG_HANDLE, "neither a world nor a report");
    check(tktext_report_new(&report) == TKTEXT_ANSWER && tktext_report_new(&report) == TKTEXT_WRONG_HANDLE, "a report is made once");
    check(tktext_take_report(&world, &report) == TKTEXT_WRONG_HANDLE && report.full, "a report, but no world");
    tktext_new_greatest(&world);
    tktext_call_words(&world, WORDS("text", ".t"));
    tktext_call_told(&world, false, (const uint8_t *)".tinsert1.0a", 12, LENGTHS(2, 6, 3, 1));
    check(tktext_take_report(&world, &other) == TKTEXT_WRONG_HANDLE, "a world, but no report");
    tktext_call_words(&world, WORDS(".t", "insert", "1.0", "b"));
    check(tktext_take_report(&world, &report) == TKTEXT_ANSWER && told_is(0, 0, "a"), "a plain call leaves the report");
    check(tktext_report_new(&other) == TKTEXT_ANSWER && tktext_take_report(&world, &other) == TKTEXT_ANSWER
          && tktext_told(&other) == 0, "the world has nothing left to report");
    check(call_told(&world, ".tdelete1.0", LENGTHS(2, 6, 3)) == TKTEXT_ANSWER && told_is(0, 1, ""), "another replaces it");
    tktext_drop(&world);
    check(told_is(0, 1, ""), "it outlives its world");
    tktext_report_drop(&other);
    tktext_report_drop(&report);
    tktext_report_drop(&report);
    check(!report.full && tktext_told(&report) == 0, "a report that was dropped twice is empty");
}

static void check_told(void)
{
    uint8_t room[4] = "abcd";
    tktext world = TKTEXT_EMPTY;
    check(call_told(&world, "text.t", LENGTHS(4, 2)) == TKTEXT_WRONG_HANDLE && tktext_told(&report) == 0, "told by no world");
    check(tktext_told_inserted(&report, 0, room, 4) == 0 && tktext_word(&world, 0, room, 4) == 0, "what no world told");
    tktext_new_greatest(&world);
    tktext_report_new(&report);
    check(call_told(&world, "text.t-undo1", LENGTHS(4, 2, 5, 1)) == TKTEXT_ANSWER && tktext_told(&report) == 0, "a widget tells nothing");
    check(call_told(&world, ".tinsert1.0\xc3\xa9\\b", LENGTHS(2, 6, 3, 4)) == TKTEXT_ANSWER && told_is(0, 0, "\xc3\xa9\\b"), "an insertion");
    check(tktext_told_inserted(&report, 0, room, 1) == 4 && memcmp(room, "\xc3" "bcd", 4) == 0, "a change in too little room");
    check(tktext_told_at(&report, 1) == 0 && tktext_told_removed(&report, SIZE_MAX) == 0 && tktext_told_inserted(&report, 1, room, 4) == 0, "no such change");
    tktext_call_words(&world, WORDS(".t", "peer", "create", ".p"));
    check(tktext_take_report(&world, &report) == TKTEXT_ANSWER && tktext_told(&report) == 0, "what was moved out isn't left");
    check(call_told(&world, ".pdelete1.1end", LENGTHS(2, 6, 3, 3)) == TKTEXT_ANSWER && told_is(1, 2, ""), "a deletion by a peer");
    check(tktext_word(&world, 0, room, 4) == 2 && memcmp(room, ".p", 2) == 0 && tktext_word(&world, 4, room, 4) == 0, "whose words they were");
    check(call_told(&world, ".tdelete5.0", LENGTHS(2, 6, 3)) == TKTEXT_ANSWER && tktext_told(&report) == 0, "nothing that is deleted");
    tktext_feed(&world, (const uint8_t *)".t edit undo\n.t insert x y\n", 27);
    check(next_told(&world) == TKTEXT_ANSWER && told_is(1, 0, "\\b"), "an undo by a script");
    check(next_told(&world) == TKTEXT_FAULT && tktext_told(&report) == 0, "a refused command tells nothing");
    check(call_told(&world, ".tinsert1.0a", LENGTHS(2, 6, 3, 1)) == TKTEXT_ANSWER && told_is(0, 0, "a"), "a further one");
    check(call_told(&world, ".t\xff", LENGTHS(2, 1)) == TKTEXT_NOT_TEXT && tktext_told(&report) == 0, "no words tell nothing");
    tktext_report_drop(&report);
    tktext_drop(&world);
}

static void check_comfort(void)
{
    static char text[100001];
    tktext world = TKTEXT_EMPTY;
    char *line = NULL;
    size_t room = 0;
    check(tktext_call_words(&world, WORDS("text", ".t")) == TKTEXT_WRONG_HANDLE, "words for an empty handle");
    check(said_is(&world, &line, &room, ""), "the line of an empty handle");
    check(tktext_new_greatest(&world) == TKTEXT_ANSWER, "a world");
    check(said_is(&world, &line, &room, ""), "no line first");
    check(tktext_call_words(&world, WORDS("text", ".t")) == TKTEXT_ANSWER && said_is(&world, &line, &room, ".t\n"), "words");
    memset(text, 'x', sizeof text - 1);
    check(tktext_call_words(&world, WORDS(".t", "insert", "1.0", text)) == TKTEXT_ANSWER, "a long word");
    check(tktext_call_words(&world, WORDS(".t", "get", "1.0", "1.end")) == TKTEXT_ANSWER, "a long answer");
    check(tktext_said_line(&world, &line, &room) == sizeof text && memcmp(line, text, sizeof text - 1) == 0 && room == sizeof text + 1, "a long line");
    check(tktext_call_words(&world, WORDS(".t", "index", "")) == TKTEXT_FAULT, "an empty last word");
    check(said_is(&world, &line, &room, "error: bad text index \"\"\n") && room == sizeof text + 1, "a line in more room than it needs");
    check(tktext_call_words(&world, 0, (const char *[]){""}) == TKTEXT_WRONG_LENGTHS, "no words");
    check(tktext_call_words(&world, WORDS(".t", "index", "\xff")) == TKTEXT_NOT_TEXT, "a word that isn't UTF-8");
    check(tktext_call_words(&world, WORDS(".t", "index", "\xc3", "\xa9")) == TKTEXT_NOT_TEXT, "two words that are one character");
    check(said_is(&world, &line, &room, "error: bad text index \"\"\n"), "what was said stays");
    tktext_call(&world, (const uint8_t *)".tindexa\0b", 10, (const size_t[]){2, 5, 3}, 3);
    check(tktext_said_line(&world, &line, &room) == 28 && memcmp(line, "error: bad text index \"a\0b\"\n", 29) == 0, "a byte 0 within a line");
    free(line);
    tktext_drop(&world);
}

static int hint_is(const char *wanted, const char *fault, size_t count, const char *const words[])
{
    const char *hint = tktext_hint(count, words, fault);
    return hint == NULL || wanted == NULL ? hint == wanted : strcmp(hint, wanted) == 0;
}

static void check_hints(void)
{
    static const char wrong[] = "wrong # args", state[] = "disabled or normal", none[] = "bad option \"x\"";
    static const char options[] = "-autoseparators, -endline, -maxundo, -startline, -state, or -undo";
    check(hint_is("index index", wrong, WORDS(".t", "index")), "the form of a subcommand");
    check(hint_is("tag add tagName index ?index ...?", wrong, WORDS(".t", "tag", "add", "x")), "the form of a member");
    check(hint_is("tag option ?arg ...?", wrong, WORDS(".t", "tag")), "the form of a family");
    check(hint_is("option ?arg ...?", wrong, WORDS(".t")), "the form of a widget");
    check(hint_is("pathName ?option value ...?", wrong, WORDS("text")), "the form of text");
    check(hint_is("?pathName ...?", wrong, WORDS("destroy")), "the form of destroy");
    check(hint_is("create or names", none, WORDS(".t", "peer", "x")), "the members of a family");
    check(strncmp(tktext_hint(WORDS(".t", "x"), none), "cget, compare, ", 15) == 0, "the subcommands");
    check(hint_is("-all, -mark, -tag, or -text", none, WORDS(".t", "dump", "x", "1.0")), "the switches");
    check(hint_is(options, none, WORDS(".t", "cget", "x")), "the options of cget");
    check(hint_is(options, none, WORDS(".t", "configure", "-state", "y", "x")), "the options");
    check(hint_is(state, none, WORDS(".t", "configure", "-undo", "1", "-state", "x")), "the states");
    check(hint_is(state, "bad option \"-undo\"", WORDS("text", ".t", "-state", "-undo")), "a state that is an option");
    check(hint_is(options, none, WORDS(".t", "peer", "create", ".u", "x", "-undo")), "the options of a peer");
    check(hint_is("<, <=, ==, >=, >, or !=", "bad comparison operator \"x\"", WORDS(".t", "compare", "1.0", "x", "1.0")), "the comparisons");
    check(hint_is("left or right", "bad mark gravity \"x\"", WORDS(".t", "mark", "gravity", "insert", "x")), "the gravities");
    check(hint_is(NULL, "bad text index \"x\"", WORDS(".t", "index", "x")), "no hint for an index");
    check(hint_is(NULL, none, WORDS(".t", "index", "x")), "no hint for a command without options");
    check(hint_is(NULL, none, 0, (const char *[]){""}), "no hint without words");
    check(hint_is(NULL, "", WORDS("")), "no hint for no fault");
}

/* A growth refused to the calls in C: they say so, and answer when they are made again. */
static int try_refusals(void)
{
    tktext world = TKTEXT_EMPTY;
    char *line = NULL;
    size_t room = 0;
    check(tktext_new_greatest(&world) == TKTEXT_ANSWER, "a world");
    check(tktext_call_words(&world, WORDS("text", ".t")) == TKTEXT_ANSWER, "a widget");
    setenv("TKTEXT_REFUSE", "a:1", 1);
    check(tktext_said_line(&world, &line, &room) == SIZE_MAX && line == NULL && room == 0, "a line without memory");
    setenv("TKTEXT_REFUSE", "b:1", 1);
    check(tktext_call_words(&world, WORDS(".t", "insert", "1.0", "one")) == TKTEXT_NO_MEMORY, "words without memory");
    check(said_is(&world, &line, &room, ".t\n"), "what was said stays");
    for (int growth = 2; growth < 4; growth++) {
        setenv("TKTEXT_REFUSE", growth == 2 ? "c:2" : "d:3", 1);
        check(tktext_call_words(&world, WORDS(".t", "insert", "1.0", "one")) == TKTEXT_NO_MEMORY, "a command without memory");
        setenv("TKTEXT_REFUSE", "", 1);
        check(said_is(&world, &line, &room, "error: out of memory\n"), "what is said then");
    }
    check(tktext_call_words(&world, WORDS(".t", "get", "1.0", "end")) == TKTEXT_ANSWER && said_is(&world, &line, &room, "\n\n"), "the text is as it was");
    check(tktext_call_words(&world, WORDS(".t", "insert", "1.0", "one")) == TKTEXT_ANSWER, "the words again");
    check(tktext_call_words(&world, WORDS(".t", "get", "1.0", "end")) == TKTEXT_ANSWER, "a longer answer");
    char *kept = line;
    size_t kept_room = room = 1;
    setenv("TKTEXT_REFUSE", "e:1", 1);
    check(tktext_said_line(&world, &line, &room) == SIZE_MAX && line == kept && room == kept_room, "a longer line without memory");
    setenv("TKTEXT_REFUSE", "", 1);
    check(said_is(&world, &line, &room, "one\n\n"), "the line again");
    free(line);
    tktext_drop(&world);
    printf("%d passed, %d failed\n", passed, failed);
    return failed != 0;
}

static int try_uses(void)
{
    tktext world = TKTEXT_EMPTY;
    check_codes();
    check_comfort();
    check_hints();
    check_empty(&world);
    check_limits();
    check(tktext_new_greatest(&world) == TKTEXT_ANSWER, "a world");
    check_words(&world);
    check_script(&world);
    check_undo();
    check_reports();
    check_told();
    check_tags();
    check_ends();
    check_marks();
    check_concerned();
    tktext_drop(&world);
    check_empty(&world);
    printf("%d passed, %d failed\n", passed, failed);
    return failed != 0;
}

#define TEXT "a line of a text that is put in here"

/* Ends the program where a call didn't do what it was to do. */
static void must(int32_t code)
{
    if (code != TKTEXT_ANSWER)
        exit(3);
}

/* Inserts `count` lines and deletes each, by the words of the commands or by a script. */
static void edit_lines(long count, int by_words)
{
    static const char script[] = ".t insert 1.0 {" TEXT "}\n.t delete 1.0 2.0\n";
    static const size_t insert[] = {2, 6, 3, sizeof TEXT - 1}, erase[] = {2, 6, 3, 3};
    tktext world = TKTEXT_EMPTY;
    must(tktext_new_greatest(&world));
    must(call(&world, "text.t", 4, 2));
    for (long number = 0; number < count; number++) {
        uint8_t room[16];
        if (by_words) {
            must(tktext_call(&world, (const uint8_t *)".tinsert1.0" TEXT, 11 + sizeof TEXT - 1, insert, 4));
            tktext_said(&world, room, sizeof room);
            must(tktext_call(&world, (const uint8_t *)".tdelete1.02.0", 14, erase, 4));
            tktext_said(&world, room, sizeof room);
        } else {
            must(tktext_feed(&world, (const uint8_t *)script, sizeof script - 1));
            for (int32_t code; (code = tktext_next(&world)) != TKTEXT_END;) {
                must(code);
                tktext_said(&world, room, sizeof room);
            }
        }
    }
    tktext_drop(&world);
}

/* Fills a text with `count` lines, deletes it, and undoes that, with or without a report. */
static void undo_all(long count, bool is_told)
{
    tktext world = TKTEXT_EMPTY;
    must(tktext_new_greatest(&world));
    must(call_plain(&world, "text.t-undo1", LENGTHS(4, 2, 5, 1)));
    for (long number = 0; number < count; number++)
        must(call_plain(&world, ".tinsertend" TEXT "\n", LENGTHS(2, 6, 3, sizeof TEXT)));
    must(call_plain(&world, ".tdelete1.0end", LENGTHS(2, 6, 3, 3)));
    must((is_told ? call_told : call_plain)(&world, ".teditundo", LENGTHS(2, 4, 4)));
    tktext_drop(&world);
    tktext_report_drop(&report);
}

int main(int count, char **words)
{
    if (count == 3 && strcmp(words[1], "script") == 0)
        return run_script(strtoul(words[2], NULL, 10));
    if (count == 2 && strcmp(words[1], "words") == 0)
        return run_words();
    if (count == 2 && strcmp(words[1], "uses") == 0)
        return try_uses();
    if (count == 2 && strcmp(words[1], "refusals") == 0)
        return try_refusals();
    if (count == 4 && strcmp(words[1], "edits") == 0) {
        edit_lines(strtol(words[3], NULL, 10), strcmp(words[2], "words") == 0);
        return 0;
    }
    if (count == 4 && strcmp(words[1], "undo") == 0) {
        must(tktext_report_new(&report));
        undo_all(strtol(words[3], NULL, 10), strcmp(words[2], "told") == 0);
        return 0;
    }
    return 2;
}
