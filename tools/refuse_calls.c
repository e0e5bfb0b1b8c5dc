/* Stands in the place of the allocator of libtktext.a, for tests, and refuses one growth of memory.

       cc -shared -o refused.so -Wl,--wrap=malloc,--wrap=realloc tools/refuse_calls.c -Wl,--whole-archive libtktext.a

   The environment variable TKTEXT_REFUSE is `NAME:NUMBER`: of the growths since it has this value, the one with the number,
   counted from 1, answers NULL, but for those that the process makes outside the library.  A new name counts anew. */

#include <stddef.h>
#include <stdlib.h>
#include <string.h>

extern void *__real_malloc(size_t);
extern void *__real_realloc(void *, size_t);

static char known[64];
static unsigned long growths;

static int is_refused(void)
{
    const char *value = getenv("TKTEXT_REFUSE");
    const char *number = value == NULL ? NULL : strchr(value, ':');
    if (number == NULL)
        return 0;
    if (strncmp(value, known, sizeof known - 1) != 0) {
        strncpy(known, value, sizeof known - 1);
        growths = 0;
    }
    growths++;
    return growths == strtoul(number + 1, NULL, 10);
}

void *__wrap_malloc(size_t size)
{
    return is_refused() ? NULL : __real_malloc(size);
}

void *__wrap_realloc(void *block, size_t size)
{
    return is_refused() ? NULL : __real_realloc(block, size);
}
