/* Random calls of the library, over include/tktext.h:

       objcopy --redefine-sym malloc=library_malloc --redefine-sym realloc=library_realloc \
               --redefine-sym free=library_free out/libtktext.a fuzzed.a
       cc -Iinclude tools/fuzz_library.c fuzzed.a -o fuzz_library
       fuzz_library FIRST COUNT           runs of the seeds from FIRST on
       fuzz_library FIRST COUNT SECONDS   the same, and no further run after so many seconds

   In each run two worlds take the same commands, one by their words and one by a script that is fed in pieces, and say
   the same.  Growths of memory are refused in both: then the world's state is as it was, as its answers to many
   questions tell, and the command answers when it is given again.  Some commands are given by strings.  Between them
   come wrong lengths, wrong limits, bytes that are no text or no script, dropped worlds and new ones.  Rooms and buffers
   are blocks of just the length that is told, for a sanitizer to watch, and at a run's end no block of the library is
   left.

   Runs are done in a process of their own.  Where one fails or ends it, its seed is printed with its calls, and the
   next goes on.  The last line is `N passed, M failed`. */

#define _DEFAULT_SOURCE

#include "tktext.h"

#include <stdarg.h>
#include <stdio.h>
#include <stdlib.h>
#include <string.h>
#include <sys/mman.h>
#include <sys/wait.h>
#include <time.h>
#include <unistd.h>

#define MOST_WORDS 300
#define MOST_LOGGED 200000
#define ENOUGH_FAILURES 5
#define FAILED_STATUS 3

/* ---- What the process of the runs tells the one that waits for it */

static struct shared {
    unsigned long seed, passed, calls, refused;
    size_t logged;
    char log[MOST_LOGGED];
} *shared;

/* Notes a call, or what is wrong. */
static void note(const char *form, ...)
{
    va_list values;
    va_start(values, form);
    size_t room = MOST_LOGGED - shared->logged;
    int length = vsnprintf(shared->log + shared->logged, room, form, values);
    va_end(values);
    shared->logged += (size_t)length < room ? (size_t)length : room - 1;
}

static void fail(const char *what)
{
    note("%s\n", what);
    _exit(FAILED_STATUS);
}

static void check(int holds, const char *what)
{
    if (!holds)
        fail(what);
}

/* ---- The library's allocator, which counts blocks and refuses growths */

static long blocks;
static unsigned long growths, refused_growth;
static int refuses_all_behind;

static int is_refused(void)
{
    growths++;
    if (refused_growth == 0 || growths < refused_growth)
        return 0;
    return refuses_all_behind || growths == refused_growth;
}

void *library_malloc(size_t size)
{
    void *block = is_refused() ? NULL : malloc(size);
    blocks += block != NULL;
    return block;
}

void *library_realloc(void *block, size_t size)
{
    if (is_refused())
        return NULL;
    void *moved = realloc(block, size);
    blocks += block == NULL && moved != NULL;
    return moved;
}

void library_free(void *block)
{
    blocks -= block != NULL;
    free(block);
}

/* From here on the growth with a number is refused, counted from 1, and perhaps all behind it. */
static void refuse(unsigned long number, int all_behind)
{
    refused_growth = growths + number;
    refuses_all_behind = all_behind;
}

static void refuse_none(void)
{
    refused_growth = 0;
}

/* ---- Chance */

static uint64_t state_of_chance;

static uint64_t chance(void)
{
    uint64_t mixed = state_of_chance += 0x9e3779b97f4a7c15u;
    mixed = (mixed ^ (mixed >> 30)) * 0xbf58476d1ce4e5b9u;
    mixed = (mixed ^ (mixed >> 27)) * 0x94d049bb133111ebu;
    return mixed ^ (mixed >> 31);
}

static unsigned below(unsigned count)
{
    return (unsigned)(chance() % count);
}

static int in(unsigned count)
{
    return below(count) == 0;
}

/* ---- Bytes */

/* A block of just so many bytes, also of none. */
static uint8_t *block_of(size_t size)
{
    uint8_t *block = malloc(size);
    check(block != NULL || size == 0, "the harness has no memory");
    return block == NULL ? malloc(1) : block;
}

static uint8_t *copy_of(const void *bytes, size_t size)
{
    uint8_t *copy = block_of(size);
    memcpy(copy, bytes, size);
    return copy;
}

static uint8_t *random_bytes(size_t size)
{
    uint8_t *bytes = block_of(size);
    for (size_t at = 0; at < size; at++)
        bytes[at] = (uint8_t)chance();
    return bytes;
}

/* How long the character is that stands first in these bytes; 0 where none does. */
static size_t character_length(const uint8_t *bytes, size_t size)
{
    static const uint32_t least[] = {0, 0x80, 0x800, 0x10000};
    uint8_t first = bytes[0];
    size_t more = first < 0x80 ? 0 : first >= 0xc0 && first < 0xe0 ? 1 : first >= 0xe0 && first < 0xf0 ? 2 : 3;
    if (more >= size || (first >= 0x80 && first < 0xc0) || first >= 0xf8)
        return 0;
    uint32_t number = more == 0 ? first : first & (0x3f >> more);
    for (size_t at = 1; at <= more; at++) {
        if ((bytes[at] & 0xc0) != 0x80)
            return 0;
        number = number << 6 | (bytes[at] & 0x3f);
    }
    return number < least[more] || number > 0x10ffff || (number >= 0xd800 && number < 0xe000) ? 0 : more + 1;
}

static int is_text(const uint8_t *bytes, size_t size)
{
    for (size_t at = 0, length; at < size; at += length)
        if ((length = character_length(bytes + at, size - at)) == 0)
            return 0;
    return 1;
}

/* ---- Commands */

/* How many of the first widgets' names are those that there may be. */
#define FOUND_WIDGETS 6

struct command {
    size_t count, lengths[MOST_WORDS], size;
    uint8_t *bytes;
};

static const char *widgets[] = {".t", ".t", ".t", ".p", ".q", ".u", "text", "destroy", ".gone", "foo", "", "."};
static const char *subcommands[] = {
    "insert", "insert", "delete", "replace", "get", "index", "compare", "count", "tag", "tag", "mark", "mark", "edit",
    "search", "dump", "peer", "configure", "cget", "foo",
};
static const char *second_words[] = {
    "add", "remove", "delete", "names", "raise", "lower", "ranges", "nextrange", "prevrange", "set", "unset", "gravity",
    "next", "previous", "undo", "redo", "separator", "reset", "modified", "create", "names", "zz",
};
static const char *indices[] = {
    "1.0", "end", "1.end", "2.0", "1.3", "1.1", "2.2", "3.0", "0.0", "99.99", "insert", "current", "m", "n", "x.first",
    "x.last", "sel.first", "b c.last", "end-1c", "1.0+3c", "1.0 + 1 lines", "end - 2 lines", "insert wordstart",
    "insert wordend", "1.0 linestart", "m lineend", "1.0 + 99999999999999999999999c", "end-18446744073709551616c",
    "1.18446744073709551615", "4294967296.0", "", "q", "1.", "1.0 + 2 any chars",
    "18446744073709551616.18446744073709551616", "1.0+9223372036854775807l",
};
static const char *texts[] = {
    "a", "b", "ab", "aba", "a\nb", "\n", "x y", "foo_bar", "\xc3\xa9", "\xc3\x9f", "\xce\xa3\xcf\x82", "1", "", " ",
    "\t", "\n\n", "{", "}", "\\", "\"", "#", "[", "$", "-", "\xe6\x97\xa5\xe6\x9c\xac", "\xf0\x9d\x92\xb3", "\xc5\xbf",
    "A", "aaaaaaaaaaaaaaaaaaaaaaaaaaaaaaaaaaaaaaaaaaaaaaaaaaaaaaaaaaaaaaaaaaaaaaaaaaaaaaaaaaaaaaaaaaaaaaaaaaaaaaaaaaaa",
};
static const char *names[] = {
    "x", "y", "z", "b c", "m", "n", "sel", "insert", "current", "", "left", "right", "1.0", "end", "a+1c", "t1", "t2",
    "t3", "t4", "t5",
};
static const char *searches[] = {"-all", "-nocase", "-overlap", "-backwards", "-strictlimits", "-forwards", "-exact"};
static const char *options[] = {"-undo", "-maxundo", "-autoseparators", "-state", "-startline", "-endline"};
static const char *counts[] = {"-chars", "-indices", "-lines"};
static const char *dumps[] = {"-text", "-tag", "-mark"};
static const char *values[] = {"1", "0", "2", "3", "normal", "disabled", "", "true", "{", "a {", "\\"};
static const char *others[] = {"<", "<=", "==", "!=", ">", "--", "-n", "-b", "-zz", "left", "right"};

#define ONE_OF(list) (list)[below(sizeof(list) / sizeof *(list))]

static void add_bytes(struct command *command, const void *bytes, size_t size)
{
    command->bytes = realloc(command->bytes, command->size + size + 1);
    check(command->bytes != NULL, "the harness has no memory");
    memcpy(command->bytes + command->size, bytes, size);
    command->size += size;
    command->lengths[command->count++] = size;
}

static void add(struct command *command, const char *word)
{
    add_bytes(command, word, strlen(word));
}

/* Words as they come, well-formed or not. */
static void add_any(struct command *command)
{
    char place[32];
    uint8_t *bytes;
    unsigned size;
    switch (below(8)) {
    case 0: case 1: add(command, ONE_OF(indices)); break;
    case 2: add(command, ONE_OF(texts)); break;
    case 3: add(command, ONE_OF(names)); break;
    case 4: add(command, in(2) ? ONE_OF(options) : ONE_OF(searches)); break;
    case 5: add(command, in(2) ? ONE_OF(values) : in(2) ? ONE_OF(counts) : ONE_OF(others)); break;
    case 6:
        snprintf(place, sizeof place, "%u.%u", below(8), below(12));
        add(command, place);
        break;
    default:
        size = below(40);
        bytes = random_bytes(size);
        add_bytes(command, bytes, size);
        free(bytes);
    }
}

/* What stands in the place of a word that is left out. */
static const char left_out[] = "left out";

static const char *maybe(const char *word)
{
    return in(2) ? word : left_out;
}

static void add_all(struct command *command, const char *const *words)
{
    for (; *words != NULL; words++)
        if (*words != left_out)
            add(command, *words);
}

#define ADD(command, ...) add_all(command, (const char *[]){__VA_ARGS__, NULL})

static void add_edit(struct command *command)
{
    switch (below(8)) {
    case 0: case 1: case 2:
        ADD(command, "insert", ONE_OF(indices), ONE_OF(texts));
        if (in(2))
            ADD(command, ONE_OF(names), maybe(ONE_OF(texts)));
        break;
    case 3: ADD(command, "delete", ONE_OF(indices), maybe(ONE_OF(indices))); break;
    case 4: ADD(command, "replace", ONE_OF(indices), ONE_OF(indices), ONE_OF(texts), maybe(ONE_OF(names))); break;
    case 5: ADD(command, "edit", "undo"); break;
    case 6: ADD(command, "edit", "redo"); break;
    default: ADD(command, "configure", "-undo", "1");
    }
}

static void add_tag_or_mark(struct command *command)
{
    switch (below(9)) {
    case 0: case 1: ADD(command, "tag", "add", ONE_OF(names), ONE_OF(indices), ONE_OF(indices)); break;
    case 2: ADD(command, "tag", "remove", ONE_OF(names), ONE_OF(indices), ONE_OF(indices)); break;
    case 3:
        ADD(command, "tag", in(2) ? "nextrange" : "prevrange", ONE_OF(names), ONE_OF(indices), maybe(ONE_OF(indices)));
        break;
    case 4: ADD(command, "tag", in(2) ? "raise" : "lower", ONE_OF(names), maybe(ONE_OF(names))); break;
    case 5: ADD(command, "tag", "delete", ONE_OF(names)); break;
    case 6: ADD(command, "mark", "set", ONE_OF(names), ONE_OF(indices)); break;
    case 7: ADD(command, "mark", "unset", ONE_OF(names)); break;
    default: ADD(command, "mark", "gravity", ONE_OF(names), in(2) ? "left" : "right");
    }
}

static void add_question(struct command *command)
{
    switch (below(5)) {
    case 0: ADD(command, "index", ONE_OF(indices)); break;
    case 1: ADD(command, "get", ONE_OF(indices), ONE_OF(indices)); break;
    case 2: ADD(command, "count", maybe(ONE_OF(counts)), ONE_OF(indices), ONE_OF(indices)); break;
    case 3:
        ADD(command, "search", maybe(ONE_OF(searches)), maybe(ONE_OF(searches)), "--");
        ADD(command, ONE_OF(texts), ONE_OF(indices), maybe(ONE_OF(indices)));
        break;
    default: ADD(command, "dump", maybe(ONE_OF(dumps)), ONE_OF(indices), maybe(ONE_OF(indices)));
    }
}

static void add_setting(struct command *command)
{
    static const char *lines[] = {"0", "1", "2", "3", "4"};
    if (in(2)) {
        ADD(command, "configure", ONE_OF(options), ONE_OF(values));
        return;
    }
    ADD(command, "peer", "create", ONE_OF(widgets));
    if (in(2))
        ADD(command, in(2) ? "-startline" : "-endline", ONE_OF(lines));
}

static void add_widget_command(struct command *command)
{
    unsigned kind = below(64);
    add(command, widgets[below(FOUND_WIDGETS)]);
    if (kind < 26)
        add_edit(command);
    else if (kind < 41)
        add_tag_or_mark(command);
    else if (kind < 56)
        add_question(command);
    else
        add_setting(command);
}

static struct command random_command(void)
{
    struct command command = {.count = 0, .size = 0, .bytes = NULL};
    unsigned kind = below(100);
    if (kind < 8) {
        ADD(&command, "text", ONE_OF(widgets));
        for (unsigned left = below(3); left > 0; left--)
            ADD(&command, ONE_OF(options), ONE_OF(values));
    } else if (kind < 11) {
        ADD(&command, "destroy", maybe(ONE_OF(widgets)));
    } else if (kind < 75) {
        add_widget_command(&command);
    } else if (kind < 77) {
        ADD(&command, ".t", ONE_OF(subcommands));
        for (unsigned left = below(MOST_WORDS - 2); left > 0; left--)
            add(&command, ONE_OF(indices));
    } else {
        ADD(&command, ONE_OF(widgets), ONE_OF(subcommands), maybe(ONE_OF(second_words)));
        for (unsigned left = below(6); left > 0; left--)
            add_any(&command);
    }
    return command;
}

static int has_texts(const struct command *command)
{
    const uint8_t *word = command->bytes;
    for (size_t number = 0; number < command->count; word += command->lengths[number++])
        if (!is_text(word, command->lengths[number]))
            return 0;
    return 1;
}

static void note_command(const struct command *command)
{
    const uint8_t *byte = command->bytes;
    for (size_t number = 0; number < command->count; number++) {
        note(" {");
        for (size_t left = command->lengths[number]; left > 0; left--, byte++)
            note(*byte >= ' ' && *byte < 0x7f && *byte != '\\' ? "%c" : "\\x%02x", *byte);
        note("}");
    }
    note("\n");
}

/* A command as a line of a script, each word in quotes. */
static uint8_t *quoted(const struct command *command, size_t *size)
{
    uint8_t *line = block_of(2 * command->size + 3 * command->count + 1), *end = line;
    const uint8_t *byte = command->bytes;
    for (size_t number = 0; number < command->count; number++) {
        *end++ = '"';
        for (size_t left = command->lengths[number]; left > 0; left--) {
            if (strchr("\"\\[$", *byte) != NULL && *byte != 0)
                *end++ = '\\';
            *end++ = *byte++;
        }
        *end++ = '"';
        *end++ = ' ';
    }
    *end++ = '\n';
    *size = (size_t)(end - line);
    return line;
}

/* ---- What a world says */

/* What was said, by rooms of two lengths, behind which nothing may be written. */
static uint8_t *said(tktext *world, size_t *size)
{
    uint8_t nothing[1], *all, *front;
    *size = tktext_said(world, nothing, 0);
    all = block_of(*size);
    check(tktext_said(world, all, *size) == *size, "what was said has two lengths");
    size_t room = below(256);
    front = block_of(room);
    memset(front, 0xee, room);
    check(tktext_said(world, front, room) == *size, "what was said has a length by its room");
    size_t filled = room < *size ? room : *size;
    check(memcmp(front, all, filled) == 0, "what was said differs by its room");
    for (size_t at = filled; at < room; at++)
        check(front[at] == 0xee, "the room was written behind what was said");
    free(front);
    return all;
}

static void check_same(tktext *one, tktext *other)
{
    size_t size, other_size;
    uint8_t *line = said(one, &size), *other_line = said(other, &other_size);
    if (size != other_size || memcmp(line, other_line, size) != 0) {
        note("said %.*s and %.*s", (int)size, line, (int)other_size, other_line);
        fail("two worlds answer differently");
    }
    free(line);
    free(other_line);
}

static void check_memory_line(tktext *world)
{
    static const char wanted[] = "error: out of memory\n";
    size_t size;
    uint8_t *line = said(world, &size);
    check(size == strlen(wanted) && memcmp(line, wanted, size) == 0, "want of memory has another text");
    free(line);
}

static uint64_t mix(uint64_t sum, const uint8_t *bytes, size_t size)
{
    for (size_t at = 0; at < size; at++)
        sum = (sum ^ bytes[at]) * 1099511628211u;
    return (sum ^ size) * 1099511628211u;
}

/* A number of a world's state: its answers to these questions. */
static uint64_t state_of(tktext *world)
{
    static const char *questions[] = {
        ".t dump 1.0 end", ".t tag names", ".t mark names", ".t peer names", ".t index insert", ".t edit modified",
        ".t cget -undo", ".t tag ranges x", ".p dump 1.0 end", ".p tag names", ".p index insert", ".p cget -startline",
        ".u dump 1.0 end", ".u mark names", ".t mark gravity m", ".t cget -state", ".q dump 1.0 end",
        ".t cget -maxundo", ".t cget -endline", ".p cget -endline", ".p cget -state",
    };
    uint64_t sum = 14695981039346656037u;
    for (size_t number = 0; number < sizeof questions / sizeof *questions; number++) {
        size_t lengths[4], count = 0, size = 0;
        uint8_t bytes[32], room[256], *line = room;
        for (const char *at = questions[number]; *at != 0; at += *at == ' ') {
            lengths[count] = strcspn(at, " ");
            memcpy(bytes + size, at, lengths[count]);
            size += lengths[count];
            at += lengths[count++];
        }
        uint8_t code = (uint8_t)tktext_call(world, bytes, size, lengths, count);
        size_t length = tktext_said(world, room, sizeof room);
        if (length > sizeof room) {
            line = block_of(length);
            tktext_said(world, line, length);
        }
        sum = mix(mix(sum, &code, 1), line, length);
        if (line != room)
            free(line);
    }
    return sum;
}

/* ---- The two worlds */

static struct limits {
    size_t chars;
    uint16_t tags, marks, widgets;
} limits;

static tktext by_words, by_script;
static tktext_report report;
static int is_finished;

static void make(tktext *world)
{
    int32_t code = tktext_new(world, limits.chars, limits.tags, limits.marks, limits.widgets);
    check(code == TKTEXT_ANSWER, "no world is made");
}

static void make_both(void)
{
    make(&by_words);
    make(&by_script);
    check(tktext_report_new(&report) == TKTEXT_ANSWER, "no report is made");
    is_finished = 0;
}

static void check_empty(tktext *world)
{
    uint8_t room[4] = "abcd";
    size_t length = 0;
    check(!world->full, "a dropped world's handle is full");
    check(tktext_call(world, room, 0, &length, 1) == TKTEXT_WRONG_HANDLE, "a command of no world");
    check(tktext_feed(world, room, 4) == TKTEXT_WRONG_HANDLE, "a piece for no world");
    check(tktext_next(world) == TKTEXT_WRONG_HANDLE && tktext_status(world) == 255, "a turn of no world");
    check(tktext_said(world, room, 4) == 0 && memcmp(room, "abcd", 4) == 0, "what no world says");
    check(tktext_take_report(world, &report) == TKTEXT_WRONG_HANDLE && tktext_told(&report) == 0, "a report of no world");
    tktext_finish(world);
    tktext_drop(world);
}

static void drop_both(void)
{
    note("drop\n");
    tktext_drop(&by_words);
    tktext_drop(&by_script);
    tktext_report_drop(&report);
    check(blocks == 0, "blocks are left behind");
    check_empty(&by_words);
}

/* Whether two ends of a change are one place. */
static int is_one_place(size_t change, size_t one, size_t other)
{
    return tktext_told_line(&report, change, one) == tktext_told_line(&report, change, other)
        && tktext_told_column(&report, change, one) == tktext_told_column(&report, change, other)
        && tktext_told_bytes(&report, change, one) == tktext_told_bytes(&report, change, other)
        && tktext_told_units(&report, change, one) == tktext_told_units(&report, change, other);
}

/* The ends of a change: in lines that there are, where each character has one byte to four, and one unit or two; and a
   change that takes nothing out, or puts nothing in, has two ends in one place. */
static void check_ends(size_t change, int takes_out, int puts_in)
{
    for (size_t end = TKTEXT_START; end <= TKTEXT_NEW_END; end++) {
        size_t column = tktext_told_column(&report, change, end), bytes = tktext_told_bytes(&report, change, end);
        size_t units = tktext_told_units(&report, change, end);
        check(tktext_told_line(&report, change, end) > 0, "an end in no line");
        check(column <= bytes && bytes <= 4 * column && column <= units && units <= 2 * column, "a column of no text");
    }
    check(takes_out || is_one_place(change, TKTEXT_START, TKTEXT_OLD_END), "what isn't taken out has an end");
    check(puts_in || is_one_place(change, TKTEXT_START, TKTEXT_NEW_END), "what isn't put in has an end");
}

/* The changes of tags: each of some characters and with a name, and a widget's name of `sel` alone. */
static void check_tags(void)
{
    uint8_t tag[4], widget[4];
    size_t count = tktext_told_tags(&report);
    for (size_t at = 0; at < count; at++) {
        size_t length = tktext_told_tag(&report, at, tag, 4), owner = tktext_told_tag_widget(&report, at, widget, 4);
        check(tktext_told_tag_from(&report, at) < tktext_told_tag_to(&report, at), "an idle change of a tag is told");
        check((owner > 0) == (length == 3 && memcmp(tag, "sel", 3) == 0), "a tag of a widget's own");
    }
    check(tktext_told_tag(&report, count, tag, 4) == 0 && tktext_told_tag_to(&report, count) == 0, "a tag too many");
    check(tktext_told_tag_on(&report, count) == 0 && tktext_told_tag_widget(&report, count, tag, 4) == 0, "a tag too many");
}

/* Where the changes of the text take a mark from an offset, by its gravity. */
static size_t carried(size_t at, int32_t gravity)
{
    size_t count = tktext_told(&report);
    for (size_t change = 0; change < count; change++) {
        size_t from = tktext_told_at(&report, change), to = from + tktext_told_removed(&report, change);
        at = at > to ? at - (to - from) : at > from ? from : at;
        if (at > from || (at == from && gravity == TKTEXT_RIGHT)) {
            uint8_t none[1];
            size_t length = tktext_told_inserted(&report, change, none, 0);
            uint8_t *text = block_of(length);
            tktext_told_inserted(&report, change, text, length);
            for (size_t byte = 0; byte < length; byte++)
                at += (text[byte] & 0xc0) != 0x80;
            free(text);
        }
    }
    return at;
}

/* The marks: each with a name, of a widget if it is `insert` or `current`, and elsewhere than the changes of the text
   take it, with another gravity, new, or gone. */
static void check_marks(void)
{
    uint8_t name[8], widget[4];
    size_t count = tktext_told_marks(&report);
    for (size_t mark = 0; mark < count; mark++) {
        size_t length = tktext_told_mark(&report, mark, name, sizeof name);
        size_t owner = tktext_told_mark_widget(&report, mark, widget, sizeof widget);
        int is_own = length == 6 ? memcmp(name, "insert", 6) == 0 : length == 7 && memcmp(name, "current", 7) == 0;
        size_t old = tktext_told_mark_at(&report, mark, TKTEXT_BEFORE);
        size_t new = tktext_told_mark_at(&report, mark, TKTEXT_AFTER);
        int32_t was = tktext_told_mark_gravity(&report, mark, TKTEXT_BEFORE);
        int32_t is = tktext_told_mark_gravity(&report, mark, TKTEXT_AFTER);
        check((owner > 0) == is_own, "a mark of a widget's own");
        check((old == TKTEXT_NO_PLACE) == (was == -1) && (new == TKTEXT_NO_PLACE) == (is == -1), "a gravity nowhere");
        check(old != TKTEXT_NO_PLACE || new != TKTEXT_NO_PLACE, "a mark that neither was nor is");
        check(was != is || new != carried(old, was), "a mark that goes along is told");
    }
    check(tktext_told_mark(&report, count, name, 4) == 0, "a mark too many");
    check(tktext_told_mark_widget(&report, count, name, 4) == 0, "a mark too many");
    check(tktext_told_mark_at(&report, count, in(3)) == TKTEXT_NO_PLACE, "a mark too many");
    check(tktext_told_mark_gravity(&report, count, in(3)) == -1, "a mark too many");
    check(tktext_told_mark_to(&report, count, widget, in(4)) == 0, "a mark too many");
}

/* What a call that reports left in its world, moved out: nothing of a refused command, no change that is a no-op, and
   no marks unless these were asked for. */
static void check_told(tktext *world, int32_t code, int marks)
{
    uint8_t room[4];
    check(tktext_take_report(world, &report) == TKTEXT_ANSWER, "a report isn't moved");
    size_t count = tktext_told(&report);
    check(code == TKTEXT_ANSWER || count + tktext_told_tags(&report) + tktext_told_marks(&report) == 0,
          "a refused command tells of a change");
    check(marks || tktext_told_marks(&report) == 0, "marks are told that nobody asks for");
    check_tags();
    check_marks();
    for (size_t at = 0; at < count; at++) {
        int takes_out = tktext_told_removed(&report, at) > 0, puts_in = tktext_told_inserted(&report, at, room, 4) > 0;
        check(takes_out || puts_in, "an idle change is told");
        check_ends(at, takes_out, puts_in);
    }
    check(tktext_told_at(&report, count) == 0 && tktext_told_inserted(&report, count, room, 4) == 0, "a change too many");
    check(tktext_told_line(&report, count, in(4)) == 0, "a place too many");
}

static int32_t call(tktext *world, const struct command *command)
{
    int tells = in(2), marks = in(2);
    uint8_t *bytes = copy_of(command->bytes, command->size);
    size_t *lengths = (size_t *)(void *)copy_of(command->lengths, command->count * sizeof *lengths);
    int32_t code = tells ? tktext_call_told(world, marks, bytes, command->size, lengths, command->count)
                         : tktext_call(world, bytes, command->size, lengths, command->count);
    shared->calls++;
    if (tells)
        check_told(world, code, marks);
    free(bytes);
    free(lengths);
    return code;
}

/* A growth was refused for the world that goes first: nothing is changed in it, so its state is the other's. */
static void check_refused(void)
{
    shared->refused++;
    note("  refused\n");
    check(state_of(&by_words) == state_of(&by_script), "a refused call changed the world");
}

/* A command by its words; where a growth is refused for it, it is given again. */
static int32_t call_refused(const struct command *command)
{
    refuse(1 + below(in(3) ? 60 : 12), in(2));
    int32_t code = call(&by_words, command);
    refuse_none();
    if (code != TKTEXT_NO_MEMORY)
        return code;
    check_memory_line(&by_words);
    check_refused();
    return call(&by_words, command);
}

/* A piece of the script; where a growth is refused for it, it is fed again. */
static void feed(const uint8_t *bytes, size_t size, int is_refused)
{
    uint8_t *piece = copy_of(bytes, size);
    if (is_refused)
        refuse(1 + below(4), in(2));
    int32_t code = tktext_feed(&by_script, piece, size);
    refuse_none();
    if (is_refused && code == TKTEXT_NO_MEMORY) {
        check_refused();
        code = tktext_feed(&by_script, piece, size);
    }
    check(code == TKTEXT_ANSWER, "a piece isn't taken");
    free(piece);
}

/* The next command of the script, which is this one; where a growth is refused for it, it is given by its words. */
static int32_t take_turn(const struct command *command, int is_refused)
{
    int tells = in(2), marks = in(2);
    if (is_refused)
        refuse(1 + below(12), in(2));
    int32_t code = tells ? tktext_next_told(&by_script, marks) : tktext_next(&by_script);
    refuse_none();
    if (tells)
        check_told(&by_script, code, marks);
    shared->calls++;
    if (!is_refused || code != TKTEXT_NO_MEMORY)
        return code;
    check_memory_line(&by_script);
    check_refused();
    return call(&by_script, command);
}

/* The command by the script, in two pieces, or by its words where the script has ended. */
static int32_t call_by_script(const struct command *command, int is_refused)
{
    if (is_finished)
        return call(&by_script, command);
    size_t size;
    uint8_t *line = quoted(command, &size);
    size_t cut = below((unsigned)size);
    feed(line, cut, is_refused && in(4));
    check(tktext_next(&by_script) == TKTEXT_END, "half a command is carried out");
    feed(line + cut, size - cut, is_refused && in(4));
    free(line);
    return take_turn(command, is_refused);
}

/* A command by its words and by the script, or the other way round; growths may be refused for the first. */
static void try_texts(const struct command *command)
{
    int32_t code, other_code;
    if (in(3)) {
        other_code = call_by_script(command, in(2));
        code = call(&by_words, command);
    } else {
        code = in(2) ? call_refused(command) : call(&by_words, command);
        other_code = call_by_script(command, 0);
    }
    check(code == TKTEXT_ANSWER || code == TKTEXT_FAULT, "a command has another code");
    check(code == other_code, "the two worlds' codes differ");
    check_same(&by_words, &by_script);
    check(is_finished || tktext_next(&by_script) == TKTEXT_END, "the script has a command more");
}

static void try_command(void)
{
    struct command command = random_command();
    note_command(&command);
    if (has_texts(&command))
        try_texts(&command);
    else
        check(call_refused(&command) == TKTEXT_NOT_TEXT, "a word that isn't text is taken");
    free(command.bytes);
}

/* The words of a command as strings, each in a block of just its size. */
static const char **strings_of(const struct command *command)
{
    const char **words = (const char **)(void *)block_of(command->count * sizeof *words);
    const uint8_t *bytes = command->bytes;
    for (size_t number = 0; number < command->count; number++) {
        char *word = (char *)block_of(command->lengths[number] + 1);
        memcpy(word, bytes, command->lengths[number]);
        word[command->lengths[number]] = 0;
        bytes += command->lengths[number];
        words[number] = word;
    }
    return words;
}

/* What was said by a block that grows is what was said, also where its growth was refused first.  What a fault leaves
   unsaid may be asked of any words. */
static void check_line(tktext *world, size_t count, const char *const words[])
{
    size_t size, room = 0;
    char *line = NULL;
    uint8_t *wanted = said(world, &size);
    if (in(2)) {
        refuse(1, 0);
        check(tktext_said_line(world, &line, &room) == SIZE_MAX && line == NULL && room == 0, "a line without memory");
        refuse_none();
    }
    check(tktext_said_line(world, &line, &room) == size && room == size + 1, "the line has another length");
    check(memcmp(line, wanted, size) == 0 && line[size] == 0, "the line differs from what was said");
    line[size - TKTEXT_BEHIND] = 0;
    if (size > TKTEXT_BEFORE_FAULT)
        tktext_hint(count, words, line + TKTEXT_BEFORE_FAULT);
    tktext_hint(count, words, in(2) ? "wrong # args" : "bad option ");
    library_free(line);
    free(wanted);
}

/* A command by strings, where its words can be; where a growth is refused for it, it is given again. */
static void try_strings(void)
{
    struct command command = random_command();
    note_command(&command);
    if (has_texts(&command) && memchr(command.bytes, 0, command.size) == NULL) {
        const char **words = strings_of(&command);
        if (in(2))
            refuse(1 + below(12), in(2));
        int32_t code = tktext_call_words(&by_words, command.count, words);
        refuse_none();
        if (code == TKTEXT_NO_MEMORY) {
            check_refused();
            code = tktext_call_words(&by_words, command.count, words);
        }
        shared->calls++;
        check(code == call(&by_script, &command), "the two worlds' codes differ");
        check_same(&by_words, &by_script);
        check_line(&by_words, command.count, words);
        for (size_t number = 0; number < command.count; number++)
            free((void *)words[number]);
        free(words);
    }
    free(command.bytes);
}

/* Lengths that don't add up to the bytes, or do by chance. */
static void try_lengths(void)
{
    size_t size = below(20), count = below(6), left = size;
    size_t *lengths = (size_t *)(void *)block_of(count * sizeof *lengths);
    uint8_t *bytes = random_bytes(size), *word = bytes;
    int adds_up = count > 0, are_texts = 1;
    for (size_t number = 0; number < count; number++) {
        lengths[number] = number + 1 == count && in(2) ? left : in(4) ? (size_t)0 - below(12) : below(8);
        adds_up = adds_up && lengths[number] <= left;
        if (adds_up) {
            are_texts = are_texts && is_text(word, lengths[number]);
            word += lengths[number];
            left -= lengths[number];
        }
    }
    adds_up = adds_up && left == 0;
    note("lengths, %zu of %zu bytes, which %s\n", count, size, adds_up ? "add up" : "don't add up");
    int32_t code = tktext_call(&by_words, bytes, size, lengths, count);
    if (adds_up && are_texts) {
        check(code <= TKTEXT_FAULT, "right lengths have another code");
        check(tktext_call(&by_script, bytes, size, lengths, count) == code, "the two worlds' codes differ");
        check_same(&by_words, &by_script);
    } else {
        int is_right = code == TKTEXT_NOT_TEXT ? !are_texts : code == TKTEXT_WRONG_LENGTHS && !adds_up;
        check(is_right, "wrong lengths have another code");
    }
    free(bytes);
    free(lengths);
}

/* Bytes that may be no script, in a world of their own, to their end. */
static void try_script(void)
{
    tktext world = TKTEXT_EMPTY;
    size_t size = below(60), taken;
    uint8_t *bytes = random_bytes(size), byte = ' ';
    int32_t code = TKTEXT_END;
    for (size_t at = 0; at < size; at++)
        bytes[at] = in(2) ? (uint8_t) "{}[]\"\\;#\n \tat.$x"[below(17)] : in(4) ? bytes[at] : bytes[at] & 0x7f;
    note("a script of %zu bytes\n", size);
    check(tktext_new_greatest(&world) == TKTEXT_ANSWER, "no world is made");
    for (size_t at = 0; at < size; at += taken) {
        taken = 1 + below((unsigned)(size - at));
        uint8_t *piece = copy_of(bytes + at, taken);
        check(tktext_feed(&world, piece, taken) == TKTEXT_ANSWER, "a piece isn't taken");
        free(piece);
        while ((code = tktext_next(&world)) <= TKTEXT_NO_MEMORY)
            shared->calls++;
        check(code == TKTEXT_END || (code == TKTEXT_SCRIPT_FAULT && tktext_status(&world) == 2), "a script's code");
    }
    tktext_finish(&world);
    while ((code = tktext_next(&world)) <= TKTEXT_NO_MEMORY)
        shared->calls++;
    check(tktext_feed(&world, &byte, 1) == TKTEXT_FINISHED, "a piece behind the end is taken");
    tktext_drop(&world);
    free(bytes);
}

/* Numbers that may be no limits, and a world whose growth is refused. */
static void try_limits(void)
{
    tktext world = TKTEXT_EMPTY;
    long before = blocks;
    size_t chars = in(2) ? below(3) : (size_t)chance() >> below(64);
    uint16_t tags = (uint16_t)below(1100), marks = (uint16_t)(chance() >> below(16)), shown = (uint16_t)below(80);
    note("limits %zu %u %u %u\n", chars, tags, marks, shown);
    int are_right = chars >= 1 && chars <= 134217728 && tags <= 960 && marks <= 4096 && shown <= 64;
    int32_t code = tktext_new(&world, chars, tags, marks, shown);
    check(code == (are_right ? TKTEXT_ANSWER : TKTEXT_WRONG_LIMITS), "limits have another code");
    check(world.full == are_right, "a handle is full or not against its code");
    tktext_drop(&world);
    refuse(1 + below(3), in(2));
    code = tktext_new_greatest(&world);
    refuse_none();
    check(code == TKTEXT_ANSWER || code == TKTEXT_NO_MEMORY, "a new world has another code");
    check(world.full == (code == TKTEXT_ANSWER), "a handle is full though its world was refused");
    tktext_drop(&world);
    check(blocks == before, "a world leaves blocks behind");
}

static void finish_script(void)
{
    uint8_t byte = 'x';
    note("finish\n");
    tktext_finish(&by_script);
    is_finished = 1;
    check(tktext_feed(&by_script, &byte, 1) == TKTEXT_FINISHED, "a piece behind the end is taken");
    check(tktext_next(&by_script) == TKTEXT_END, "a finished script goes on");
}

static void check_full(void)
{
    check(tktext_new_greatest(&by_words) == TKTEXT_WRONG_HANDLE, "a world is made in a full handle");
    check((unsigned)tktext_status(&by_script) <= 1, "the status is another than of commands");
}

static void take_step(void)
{
    unsigned kind = below(100);
    if (kind < 76)
        try_command();
    else if (kind < 84)
        try_strings();
    else if (kind < 88)
        try_lengths();
    else if (kind < 91)
        try_script();
    else if (kind < 94)
        try_limits();
    else if (kind < 97)
        check(state_of(&by_words) == state_of(&by_script), "the two worlds' states differ");
    else if (kind < 98)
        finish_script();
    else if (kind < 99)
        check_full();
    else {
        drop_both();
        make_both();
    }
}

static void run(unsigned long seed)
{
    state_of_chance = seed;
    shared->seed = seed;
    shared->logged = 0;
    limits = (struct limits){134217728, 960, 4096, 64};
    if (in(4))
        limits = (struct limits){1 + below(256), (uint16_t)below(6), (uint16_t)below(4), (uint16_t)below(4)};
    note("limits %zu %u %u %u\n", limits.chars, limits.tags, limits.marks, limits.widgets);
    make_both();
    for (unsigned left = 5 + below(60); left > 0; left--)
        take_step();
    check(state_of(&by_words) == state_of(&by_script), "the two worlds' states differ");
    drop_both();
    shared->passed++;
}

/* ---- The runs */

static int is_over(time_t until)
{
    return until != 0 && time(NULL) >= until;
}

/* Runs from a seed on in a process of their own, and gives the seed of the next, behind one that failed. */
static unsigned long run_from(unsigned long seed, unsigned long end, time_t until, int *failures)
{
    int status;
    fflush(stdout);
    pid_t process = fork();
    if (process == 0) {
        while (seed < end && !is_over(until))
            run(seed++);
        _exit(0);
    }
    if (process < 0 || waitpid(process, &status, 0) != process)
        exit(2);
    if (WIFEXITED(status) && WEXITSTATUS(status) == 0)
        return end;
    ++*failures;
    printf("FAILED: seed %lu, status %#x, after these calls:\n%s\n", shared->seed, (unsigned)status, shared->log);
    return shared->seed + 1;
}

int main(int count, char **words)
{
    if (count < 3 || count > 4)
        return 2;
    unsigned long seed = strtoul(words[1], NULL, 10), end = seed + strtoul(words[2], NULL, 10);
    time_t until = count == 4 ? time(NULL) + atol(words[3]) : 0;
    int failures = 0;
    shared = mmap(NULL, sizeof *shared, PROT_READ | PROT_WRITE, MAP_SHARED | MAP_ANONYMOUS, -1, 0);
    if (shared == MAP_FAILED)
        return 2;
    while (seed < end && failures < ENOUGH_FAILURES)
        seed = run_from(seed, end, until, &failures);
    printf("%lu calls, %lu of them refused memory\n", shared->calls, shared->refused);
    printf("%lu passed, %d failed\n", shared->passed, failures);
    return failures != 0 || shared->passed == 0;
}
