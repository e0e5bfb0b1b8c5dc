/* What library_bench.c needs of a text widget `.t` in its process.  library_bench_tktext.c implements it by the
   library, and library_bench_tk.c by real Tk. */

#ifndef LIBRARY_BENCH_H
#define LIBRARY_BENCH_H

#include <stdbool.h>
#include <stddef.h>

enum { MAXIMUM_WORDS = 1 << 15, MAXIMUM_BYTES = 1 << 23 };

/* The next command.  Its words follow one another in `bytes` with nothing between them.  A name is a word that a caller
   keeps from one command to the next: the widget's name, a subcommand, a tag. */
struct command {
    char bytes[MAXIMUM_BYTES];
    size_t size;
    size_t lengths[MAXIMUM_WORDS];
    bool is_name[MAXIMUM_WORDS];
    size_t count;
};

/* The result of a command, which is valid until the next one; `is_done` is false after an error. */
struct answer {
    const char *bytes;
    size_t length;
    bool is_done;
};

extern struct command command;
/* The number of blocks that were allocated so far, in a build that counts them; else 0. */
extern unsigned long blocks_allocated;

/* Returns the version of the implementation. */
const char *widget_version(void);

/* Creates the widget, with or without undo.  `path` is the path of this program. */
void open_widget(const char *path, bool keeps_undo);

/* Prepares what a caller keeps from earlier commands.  It isn't counted. */
void prepare_call(void);

/* Carries out the command, from the bytes of its words to the bytes of its answer.  callgrind counts this. */
struct answer carry_out(void);

void close_widget(void);

#endif
