/* A preloaded allocator that weighs what a program holds.

       cc -shared -fPIC -O1 -o weigh.so tools/weigh.c
       WEIGHT_REPORT=weight.txt LD_PRELOAD=$PWD/weigh.so program

   A block weighs its usable size and the 8 bytes that the C library keeps beside it; built with -DASKED, as asked.so,
   what was asked for and no more.  When the program ends, the file WEIGHT_REPORT holds four numbers: the bytes and the
   blocks that were not freed, the most bytes at once, and the bytes in use when the program last read from a file. */

#define _GNU_SOURCE
#include <malloc.h>
#include <stdio.h>
#include <stdlib.h>
#include <string.h>
#include <sys/syscall.h>
#include <unistd.h>

extern void *__libc_malloc(size_t);
extern void *__libc_realloc(void *, size_t);
extern void __libc_free(void *);

#ifdef ASKED
/* What was asked for stands before each block, which stays aligned. */
enum { HEAD = 16 };

static long weight(const char *place) { return *(const size_t *)place; }
static void note(char *place, size_t size) { *(size_t *)place = size; }
#else
enum { HEAD = 0 };

static long weight(char *place) { return malloc_usable_size(place) + 8; }
static void note(char *place, size_t size) { (void)place, (void)size; }
#endif

static long held, blocks, most, held_at_read;

static void *add(char *place)
{
    held += weight(place);
    blocks++;
    if (held > most)
        most = held;
    return place + HEAD;
}

/* The place of a block, which counts no more. */
static char *take(void *block)
{
    char *place = (char *)block - HEAD;
    held -= weight(place);
    blocks--;
    return place;
}

void *malloc(size_t size)
{
    char *place = __libc_malloc(size + HEAD);
    if (!place)
        return NULL;
    note(place, size);
    return add(place);
}

void *calloc(size_t count, size_t size)
{
    void *block = malloc(count * size);
    return block ? memset(block, 0, count * size) : NULL;
}

void free(void *block)
{
    if (block)
        __libc_free(take(block));
}

void *realloc(void *block, size_t size)
{
    char *place, *moved;
    if (!block)
        return malloc(size);
    place = take(block);
    moved = __libc_realloc(place, size + HEAD);
    if (!moved) {
        if (size + HEAD)
            add(place);
        return NULL;
    }
    note(moved, size);
    return add(moved);
}

ssize_t read(int file, void *bytes, size_t size)
{
    held_at_read = held;
    return syscall(SYS_read, file, bytes, size);
}

__attribute__((destructor)) static void report(void)
{
    const char *path = getenv("WEIGHT_REPORT");
    FILE *file;
    long numbers[4] = {held, blocks, most, held_at_read};
    if (path && (file = fopen(path, "w"))) {
        fprintf(file, "%ld %ld %ld %ld\n", numbers[0], numbers[1], numbers[2], numbers[3]);
        fclose(file);
    }
}
