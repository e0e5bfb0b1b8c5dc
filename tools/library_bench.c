/* The workloads of tools/library_bench.py, on a text widget in this process:

       library_bench version                      prints the version of the implementation
       library_bench WORKLOAD LINES OPERATIONS    runs a workload on a text of LINES lines

   A run prints the number of operations, and a line for each kind of command in them: the calls, the blocks that they
   allocated, the maximum of one call, and the kind.  Each run makes the same random choices.  It compares each answer,
   and the text, tags and marks at its end, with a plain model, which is an array of lines.  At the first difference it
   ends with status 1. */

#include "library_bench.h"

#include <stdint.h>
#include <stdio.h>
#include <stdlib.h>
#include <string.h>

enum {
    MINIMUM_LENGTH = 40,
    MAXIMUM_LENGTH = 60,
    LONG_LINE = 1 << 20,
    MAXIMUM_EDITED = 10,
    MARKS = 100,
    KEYS_IN_ROW = 40,
    TAGS = 4,
    FIELD = MINIMUM_LENGTH / TAGS,
    COLOURED_STEP = 10,
    MAXIMUM_KINDS = 8,
    PAGE = 4096
};

/* A line of the model without its newline.  `start` is its offset in the text as it was made. */
struct line {
    char *bytes;
    size_t length, capacity, start;
};

struct position {
    size_t line, column;
};

/* The counts of one kind of command; `maximum` is the blocks of one call. */
struct kind {
    const char *name;
    unsigned long calls, blocks, maximum;
};

static const char *const tag_names[TAGS] = {"keyword", "name", "number", "string"};

struct command command;
unsigned long blocks_allocated;
static struct answer answer;
static const char *command_kind = "";
static struct kind kinds[MAXIMUM_KINDS];
static struct line *lines;
static size_t line_count;
/* The tags of each character of the text, newlines included: bit n is set if it has tag n. */
static unsigned char *tag_bits;
static char wanted[MAXIMUM_BYTES];
static uint64_t seed;

static void fail(const char *what)
{
    fprintf(stderr, "library_bench: '%s' of %s: %s\n", command_kind, widget_version(), what);
    exit(1);
}

static void *checked(void *block)
{
    if (block == NULL)
        fail("out of memory");
    return block;
}

/* Returns a random number below a bound, by the generator SplitMix64. */
static size_t below(size_t bound)
{
    uint64_t mixed = seed += 0x9e3779b97f4a7c15;
    mixed = (mixed ^ mixed >> 30) * 0xbf58476d1ce4e5b9;
    mixed = (mixed ^ mixed >> 27) * 0x94d049bb133111eb;
    return (mixed ^ mixed >> 31) % bound;
}

/* ---- Commands */

static void add_word(const char *bytes, size_t length, bool is_name)
{
    if (command.count == MAXIMUM_WORDS || length > MAXIMUM_BYTES - command.size)
        fail("too many bytes or words");
    memcpy(command.bytes + command.size, bytes, length);
    command.size += length;
    command.is_name[command.count] = is_name;
    command.lengths[command.count++] = length;
}

static void add_name(const char *name)
{
    add_word(name, strlen(name), true);
}

static void add_text(const char *text)
{
    add_word(text, strlen(text), false);
}

static void add_index(size_t line, size_t column)
{
    char text[48];
    snprintf(text, sizeof text, "%zu.%zu", line + 1, column);
    add_text(text);
}

static void add_mark(size_t mark)
{
    char text[24];
    snprintf(text, sizeof text, "m%zu", mark);
    add_text(text);
}

/* Begins a command with the widget's name and the one or two words of its kind. */
static void begin(const char *kind)
{
    const char *blank = strchr(kind, ' ');
    command.size = command.count = 0;
    command_kind = kind;
    add_name(".t");
    add_word(kind, blank == NULL ? strlen(kind) : (size_t)(blank - kind), true);
    if (blank != NULL)
        add_name(blank + 1);
}

/* Carries out the command.  tools/library_bench.py names this function to callgrind, so it stays a function. */
__attribute__((noinline, noclone)) void counted_call(void)
{
    answer = carry_out();
}

/* Returns the counts of the command's kind. */
static struct kind *kind_counts(void)
{
    struct kind *kind = kinds;
    while (kind->name != NULL && strcmp(kind->name, command_kind) != 0)
        kind++;
    if (kind == kinds + MAXIMUM_KINDS - 1)
        fail("too many kinds of commands");
    kind->name = command_kind;
    return kind;
}

static void count_call(void)
{
    unsigned long before = blocks_allocated;
    counted_call();
    unsigned long blocks = blocks_allocated - before;
    struct kind *kind = kind_counts();
    kind->calls++;
    kind->blocks += blocks;
    kind->maximum = blocks > kind->maximum ? blocks : kind->maximum;
}

static void call(bool is_counted)
{
    prepare_call();
    if (is_counted)
        count_call();
    else
        answer = carry_out();
    if (!answer.is_done)
        fail("refused");
}

/* Ends the program if the answer isn't this text. */
static void wants(const char *text, size_t length)
{
    if (answer.length != length || memcmp(answer.bytes, text, length) != 0)
        fail("wrong answer");
}

static void wants_text(const char *text)
{
    wants(text, strlen(text));
}

static void wants_index(size_t line, size_t column)
{
    char text[48];
    snprintf(text, sizeof text, "%zu.%zu", line + 1, column);
    wants_text(text);
}

/* ---- The model */

static void set_random_text(char *bytes, size_t count)
{
    static const char characters[] = "abcdefghijklmnopqrstuvwxyz      ";
    for (size_t at = 0; at < count; at++)
        bytes[at] = characters[below(sizeof characters - 1)];
}

static void drop_lines(void)
{
    for (size_t number = 0; number < line_count; number++)
        free(lines[number].bytes);
    free(lines);
    free(tag_bits);
}

/* Makes lines of random lengths; the same arguments make the same lines. */
static void make_lines(size_t count, size_t minimum, size_t maximum)
{
    size_t start = 0;
    drop_lines();
    seed = 1;
    line_count = count;
    lines = checked(calloc(count, sizeof *lines));
    for (size_t number = 0; number < count; number++) {
        size_t length = minimum + below(maximum - minimum + 1);
        lines[number] = (struct line){checked(malloc(length)), length, length, start};
        set_random_text(lines[number].bytes, length);
        start += length + 1;
    }
    tag_bits = checked(calloc(start, 1));
}

/* Writes the text with a newline after each line to `wanted`, and returns its length. */
static size_t write_text(void)
{
    size_t size = 0;
    for (size_t number = 0; number < line_count; number++) {
        const struct line *line = &lines[number];
        if (line->length + 2 > MAXIMUM_BYTES - size)
            fail("the text is too long");
        memcpy(wanted + size, line->bytes, line->length);
        size += line->length;
        wanted[size++] = '\n';
    }
    return size;
}

static void load(bool is_counted)
{
    size_t size = write_text();
    begin("insert");
    add_name("1.0");
    add_word(wanted, size, false);
    call(is_counted);
    wants_text("");
}

static void load_lines(size_t count)
{
    make_lines(count, MINIMUM_LENGTH, MAXIMUM_LENGTH);
    load(false);
}

static void check_text(void)
{
    size_t size = write_text();
    wanted[size++] = '\n';
    begin("get");
    add_name("1.0");
    add_name("end");
    call(false);
    wants(wanted, size);
}

static struct position random_position(void)
{
    size_t line = below(line_count);
    return (struct position){line, below(lines[line].length + 1)};
}

/* ---- Edits */

static void insert_in_model(struct line *line, size_t column, const char *bytes, size_t count)
{
    if (line->length + count > line->capacity) {
        line->capacity = 2 * (line->length + count);
        line->bytes = checked(realloc(line->bytes, line->capacity));
    }
    memmove(line->bytes + column + count, line->bytes + column, line->length - column);
    memcpy(line->bytes + column, bytes, count);
    line->length += count;
}

static void insert_at(struct position at, size_t count, bool is_counted)
{
    char bytes[MAXIMUM_EDITED];
    set_random_text(bytes, count);
    begin("insert");
    add_index(at.line, at.column);
    add_word(bytes, count, false);
    call(is_counted);
    wants_text("");
    insert_in_model(&lines[at.line], at.column, bytes, count);
}

static void delete_at(struct position at, size_t count, bool is_counted)
{
    struct line *line = &lines[at.line];
    begin("delete");
    add_index(at.line, at.column);
    add_index(at.line, at.column + count);
    call(is_counted);
    wants_text("");
    memmove(line->bytes + at.column, line->bytes + at.column + count, line->length - at.column - count);
    line->length -= count;
}

/* Inserts or deletes a few characters at a random position of a line. */
static void edit_somewhere(bool is_counted)
{
    size_t count = 1 + below(MAXIMUM_EDITED);
    bool is_deletion = below(2) == 0;
    struct position at = random_position();
    size_t length = lines[at.line].length;
    if (!is_deletion || length < count)
        insert_at(at, count, is_counted);
    else
        delete_at((struct position){at.line, below(length - count + 1)}, count, is_counted);
}

static void run_edits(size_t operations)
{
    for (size_t number = 0; number < operations; number++)
        edit_somewhere(true);
    check_text();
}

static void run_edit(size_t count, size_t operations)
{
    load_lines(count);
    run_edits(operations);
}

static void run_long_line(size_t count, size_t operations)
{
    make_lines(count, LONG_LINE, LONG_LINE);
    load(false);
    run_edits(operations);
}

/* Makes edits, each a group of its own, then undoes all. */
static void run_undo(size_t count, size_t operations)
{
    load_lines(count);
    for (size_t number = 0; number < operations; number++) {
        begin("edit separator");
        call(false);
        edit_somewhere(false);
    }
    check_text();
    for (size_t number = 0; number < operations; number++) {
        begin("edit undo");
        call(true);
    }
    make_lines(count, MINIMUM_LENGTH, MAXIMUM_LENGTH);
    check_text();
}

static void set_insert(struct position at)
{
    begin("mark set");
    add_name("insert");
    add_index(at.line, at.column);
    call(false);
}

/* Types characters, KEYS_IN_ROW at each position. */
static void run_key(size_t count, size_t operations)
{
    struct position at = {0, 0};
    load_lines(count);
    for (size_t number = 0; number < operations; number++) {
        char key;
        if (number % KEYS_IN_ROW == 0)
            set_insert(at = random_position());
        set_random_text(&key, 1);
        begin("insert");
        add_name("insert");
        add_word(&key, 1, false);
        call(true);
        wants_text("");
        insert_in_model(&lines[at.line], at.column++, &key, 1);
    }
    begin("index");
    add_name("insert");
    call(false);
    wants_index(at.line, at.column);
    check_text();
}

static void run_load(size_t count, size_t operations)
{
    if (operations != count)
        fail("the numbers of lines and operations differ");
    make_lines(count, MINIMUM_LENGTH, MAXIMUM_LENGTH);
    load(true);
    check_text();
}

/* ---- Tags */

static void tag_in_model(struct position at, size_t length, size_t tag, bool is_on)
{
    unsigned char *bits = tag_bits + lines[at.line].start + at.column, bit = (unsigned char)(1 << tag);
    for (size_t column = 0; column < length; column++)
        bits[column] = is_on ? bits[column] | bit : bits[column] & ~bit;
}

static void add_range(struct position at, size_t length)
{
    add_index(at.line, at.column);
    add_index(at.line, at.column + length);
}

/* Adds a tag to a range of a line. */
static void tag_range(struct position at, size_t length, size_t tag)
{
    begin("tag add");
    add_name(tag_names[tag]);
    add_range(at, length);
    call(true);
    wants_text("");
    tag_in_model(at, length, tag, true);
}

/* Appends an index to the list in `wanted`, and returns its new size. */
static size_t write_index(size_t line, size_t column, size_t size)
{
    const char *form = size == 0 ? "%zu.%zu" : " %zu.%zu";
    return size + (size_t)snprintf(wanted + size, MAXIMUM_BYTES - size, form, line + 1, column);
}

/* Appends the ends of a line's ranges of a tag. */
static size_t write_ranges(size_t line, size_t tag, size_t size)
{
    const unsigned char *bits = tag_bits + lines[line].start;
    for (size_t column = 0; column <= lines[line].length; column++) {
        bool was_on = column > 0 && bits[column - 1] >> tag & 1;
        if ((bits[column] >> tag & 1) != was_on)
            size = write_index(line, column, size);
    }
    return size;
}

static void check_tags(void)
{
    for (size_t tag = 0; tag < TAGS; tag++) {
        size_t size = 0;
        for (size_t line = 0; line < line_count; line++)
            size = write_ranges(line, tag, size);
        begin("tag ranges");
        add_name(tag_names[tag]);
        call(false);
        wants(wanted, size);
    }
}

static void run_tag(size_t count, size_t operations)
{
    load_lines(count);
    for (size_t number = 0; number < operations; number++) {
        size_t line = below(count), length = 1 + below(MAXIMUM_EDITED);
        size_t column = below(lines[line].length - length + 1);
        tag_range((struct position){line, column}, length, below(TAGS));
    }
    check_tags();
}

/* Returns a random range in a tag's own fourth of the columns that each line has. */
static struct position random_field(size_t line, size_t tag, size_t *length)
{
    *length = 1 + below(FIELD / 2);
    return (struct position){line, tag * FIELD + below(FIELD / 2)};
}

/* Adds each tag to a range of every tenth line, by one command for each tag. */
static void colour_lines(void)
{
    for (size_t tag = 0; tag < TAGS; tag++) {
        begin("tag add");
        add_name(tag_names[tag]);
        for (size_t line = 0; line < line_count; line += COLOURED_STEP) {
            size_t length;
            struct position at = random_field(line, tag, &length);
            add_range(at, length);
            tag_in_model(at, length, tag, true);
        }
        call(false);
    }
}

/* Removes each tag from a line, then adds each to another range of it. */
static void recolour(size_t line)
{
    for (size_t tag = 0; tag < TAGS; tag++) {
        begin("tag remove");
        add_name(tag_names[tag]);
        add_range((struct position){line, 0}, lines[line].length);
        call(true);
        wants_text("");
        tag_in_model((struct position){line, 0}, lines[line].length, tag, false);
    }
    for (size_t tag = 0; tag < TAGS; tag++) {
        size_t length;
        struct position at = random_field(line, tag, &length);
        tag_range(at, length, tag);
    }
}

static void run_recolour(size_t count, size_t operations)
{
    load_lines(count);
    colour_lines();
    for (size_t number = 0; number < operations; number++)
        recolour(COLOURED_STEP * below((count + COLOURED_STEP - 1) / COLOURED_STEP));
    check_tags();
}

/* ---- Marks and positions */

static void set_mark(size_t mark, struct position at, bool is_counted)
{
    begin("mark set");
    add_mark(mark);
    add_index(at.line, at.column);
    call(is_counted);
    wants_text("");
}

static void run_mark(size_t count, size_t operations)
{
    struct position marks[MARKS];
    load_lines(count);
    for (size_t mark = 0; mark < MARKS; mark++)
        set_mark(mark, marks[mark] = random_position(), false);
    for (size_t number = 0; number < operations; number++) {
        size_t mark = below(MARKS);
        set_mark(mark, marks[mark] = random_position(), true);
    }
    for (size_t mark = 0; mark < MARKS; mark++) {
        begin("index");
        add_mark(mark);
        call(false);
        wants_index(marks[mark].line, marks[mark].column);
    }
}

static void run_position(size_t count, size_t operations)
{
    load_lines(count);
    for (size_t number = 0; number < operations; number++) {
        struct position at = random_position();
        char offset[24], index[48];
        begin("count");
        add_name("-chars");
        add_name("1.0");
        add_index(at.line, at.column);
        call(true);
        snprintf(offset, sizeof offset, "%zu", lines[at.line].start + at.column);
        wants_text(offset);
        begin("index");
        snprintf(index, sizeof index, "1.0 + %s chars", offset);
        add_text(index);
        call(true);
        wants_index(at.line, at.column);
    }
}

static void run_line_read(size_t count, size_t operations)
{
    load_lines(count);
    for (size_t number = 0; number < operations; number++) {
        size_t line = below(count);
        char end[48];
        snprintf(end, sizeof end, "%zu.end", line + 1);
        begin("get");
        add_index(line, 0);
        add_text(end);
        call(true);
        wants(lines[line].bytes, lines[line].length);
    }
}

static const struct workload {
    const char *name;
    bool keeps_undo;
    void (*run)(size_t count, size_t operations);
} workloads[] = {
    {"edit", false, run_edit},
    {"edit_with_undo", true, run_edit},
    {"tag", false, run_tag},
    {"recolour", false, run_recolour},
    {"mark", false, run_mark},
    {"position", false, run_position},
    {"line_read", false, run_line_read},
    {"key", true, run_key},
    {"load", false, run_load},
    {"undo", true, run_undo},
    {"long_line", false, run_long_line},
};

static const struct workload *find_workload(const char *name)
{
    for (size_t at = 0; at < sizeof workloads / sizeof *workloads; at++)
        if (strcmp(workloads[at].name, name) == 0)
            return &workloads[at];
    return NULL;
}

static void print_counts(size_t operations)
{
    printf("%zu\n", operations);
    for (const struct kind *kind = kinds; kind->name != NULL; kind++)
        printf("%lu %lu %lu %s\n", kind->calls, kind->blocks, kind->maximum, kind->name);
}

/* Runs a workload at the same position in a page of the stack, whatever the size of the environment: the instructions
   of a copy depend on its addresses in a page. */
static void run_in_page(const struct workload *workload, size_t count, size_t operations)
{
    uintptr_t position = (uintptr_t)__builtin_frame_address(0) % PAGE;
    volatile char padding[position + 1];
    padding[0] = 0;
    (void)padding;
    workload->run(count, operations);
}

int main(int count, char **words)
{
    const struct workload *workload = count == 4 ? find_workload(words[1]) : NULL;
    if (count == 2 && strcmp(words[1], "version") == 0) {
        puts(widget_version());
        return 0;
    }
    if (workload == NULL)
        return 2;
    size_t operations = strtoul(words[3], NULL, 10);
    open_widget(words[0], workload->keeps_undo);
    run_in_page(workload, strtoul(words[2], NULL, 10), operations);
    print_counts(operations);
    drop_lines();
    close_widget();
    return 0;
}
