/* The text widget of library_bench.c by the library.  With -DCOUNTS_BLOCKS and the linker's options `--wrap=malloc` and
   `--wrap=realloc` it counts the calls by which the library allocates. */

#include "library_bench.h"
#include "tktext.h"

#include <stdint.h>
#include <stdlib.h>

static tktext world = TKTEXT_EMPTY;
static uint8_t line[MAXIMUM_BYTES];

#ifdef COUNTS_BLOCKS
void *__real_malloc(size_t);
void *__real_realloc(void *, size_t);

void *__wrap_malloc(size_t size)
{
    blocks_allocated++;
    return __real_malloc(size);
}

void *__wrap_realloc(void *block, size_t size)
{
    blocks_allocated++;
    return __real_realloc(block, size);
}
#endif

const char *widget_version(void)
{
    return tktext_version();
}

void open_widget(const char *path, bool keeps_undo)
{
    static const size_t lengths[] = {4, 2, 5, 1};
    const char *words = keeps_undo ? "text.t-undo1" : "text.t-undo0";
    (void)path;
    if (tktext_new_greatest(&world) != TKTEXT_ANSWER)
        exit(3);
    if (tktext_call(&world, (const uint8_t *)words, 12, lengths, 4) != TKTEXT_ANSWER)
        exit(3);
}

void prepare_call(void)
{
}

struct answer carry_out(void)
{
    const uint8_t *bytes = (const uint8_t *)command.bytes;
    int32_t code = tktext_call(&world, bytes, command.size, command.lengths, command.count);
    size_t length = tktext_said(&world, line, sizeof line);
    return (struct answer){(const char *)line, length - TKTEXT_BEHIND, code == TKTEXT_ANSWER};
}

void close_widget(void)
{
    tktext_drop(&world);
}
