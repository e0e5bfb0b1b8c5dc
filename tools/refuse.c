/* A preloaded allocator that refuses one growth of memory.

       cc -shared -fPIC -O1 -o refuse.so tools/refuse.c
       REFUSE_GROWTH=7 GROWTH_REPORT=count.txt LD_PRELOAD=$PWD/refuse.so program < script

   Growths are the calls of malloc, calloc, realloc (one that only frees aside), aligned_alloc,
   memalign and posix_memalign from the beginning of main to its end. The one with the number
   REFUSE_GROWTH, counted from 1, answers NULL (ENOMEM); all others, and all of them where the variable
   is missing or 0, are handed on. A realloc to no more bytes than the block has counts as one too: refused,
   it leaves the block as it is, and the file KEPT_REPORT is made. The file GROWTH_REPORT holds the number of
   growths so far as decimal digits. It is written anew at each growth, so it is right however the program
   ends. The file LEFT_REPORT holds, once the program has ended, how many blocks were not freed. */

#define _GNU_SOURCE
#include <dlfcn.h>
#include <errno.h>
#include <fcntl.h>
#include <malloc.h>
#include <stddef.h>
#include <stdio.h>
#include <stdlib.h>
#include <unistd.h>

extern void *__libc_malloc(size_t);
extern void *__libc_calloc(size_t, size_t);
extern void *__libc_realloc(void *, size_t);
extern void *__libc_memalign(size_t, size_t);
extern void __libc_free(void *);

typedef int (*main_function)(int, char **, char **);
typedef int (*start_function)(main_function, int, char **, void (*)(void), void (*)(void), void (*)(void), void *);

static main_function program_main;
static int armed;                /* main began and has not returned */
static unsigned long growths;    /* how many there were */
static unsigned long refused;    /* the number of the one to refuse, 0 for none */
static int report = -1;          /* the report's file, -1 for none */
static long blocks;              /* how many are not freed */

static void write_report(void)
{
    char digits[24];
    size_t place = sizeof digits;
    unsigned long rest = growths;
    int kept = errno;
    do {
        digits[--place] = '0' + rest % 10;
        rest /= 10;
    } while (rest != 0);
    if (report >= 0 && pwrite(report, digits + place, sizeof digits - place, 0) < 0)
        _exit(125);
    errno = kept;
}

/* Counts one growth, and says whether it is the one to refuse. */
static int is_refused(void)
{
    if (!armed)
        return 0;
    growths++;
    write_report();
    if (growths != refused)
        return 0;
    errno = ENOMEM;
    return 1;
}

/* A block that is new, if there is one. */
static void *with(void *block)
{
    blocks += block != NULL;
    return block;
}

void *malloc(size_t size)
{
    return is_refused() ? NULL : with(__libc_malloc(size));
}

void *calloc(size_t count, size_t size)
{
    return is_refused() ? NULL : with(__libc_calloc(count, size));
}

/* Notes that a block stays, which was to have no more bytes than it has. */
static void note_kept(void)
{
    const char *path = getenv("KEPT_REPORT");
    int kept = errno;
    int file = path == NULL ? -1 : open(path, O_WRONLY | O_CREAT | O_TRUNC, 0600);
    if (file >= 0)
        close(file);
    errno = kept;
}

void *realloc(void *block, size_t size)
{
    int only_frees = block != NULL && size == 0;
    if (!only_frees && is_refused()) {
        if (block != NULL && size <= malloc_usable_size(block))
            note_kept();
        return NULL;
    }
    void *moved = __libc_realloc(block, size);
    blocks += (block == NULL && moved != NULL) - only_frees;
    return moved;
}

void *memalign(size_t alignment, size_t size)
{
    return is_refused() ? NULL : with(__libc_memalign(alignment, size));
}

void free(void *block)
{
    blocks -= block != NULL;
    __libc_free(block);
}

void *aligned_alloc(size_t alignment, size_t size)
{
    return memalign(alignment, size);
}

int posix_memalign(void **block, size_t alignment, size_t size)
{
    void *made = memalign(alignment, size);
    if (made == NULL)
        return ENOMEM;
    *block = made;
    return 0;
}

__attribute__((destructor)) static void report_left(void)
{
    const char *path = getenv("LEFT_REPORT");
    long left = blocks;
    FILE *file = path == NULL ? NULL : fopen(path, "w");
    if (file != NULL) {
        fprintf(file, "%ld\n", left);
        fclose(file);
    }
}

static int counted_main(int count, char **words, char **environment)
{
    const char *number = getenv("REFUSE_GROWTH");
    const char *file = getenv("GROWTH_REPORT");
    refused = number == NULL ? 0 : strtoul(number, NULL, 10);
    report = file == NULL ? -1 : open(file, O_WRONLY | O_CREAT | O_TRUNC | O_CLOEXEC, 0666);
    write_report();
    armed = 1;
    int status = program_main(count, words, environment);
    armed = 0;
    return status;
}

/* The C library's start of a program, with `counted_main` in the place of main. */
int __libc_start_main(main_function begin, int count, char **words, void (*before)(void), void (*after)(void),
                      void (*unload)(void), void *stack_end)
{
    start_function start = (start_function)dlsym(RTLD_NEXT, "__libc_start_main");
    program_main = begin;
    return start(counted_main, count, words, before, after, unload, stack_end);
}
