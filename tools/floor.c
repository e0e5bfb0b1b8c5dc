/* What a line of a text costs at least at a random place, whatever keeps it: in a plain array of pointers to lines of
   two blocks each, a record and 40 bytes of text.

       floor look COUNT        looks at the text of each line once, in a random order
       floor free COUNT        gives the two blocks of each line back, in a random order

   Prints the nanoseconds for a line, the least of several rounds. bench_tree.py builds and runs it. */

#include <stdio.h>
#include <stdlib.h>
#include <string.h>
#include <time.h>

enum { ROUNDS = 4, LENGTH = 40, NUMBERS = 9 };

struct line {
    char *text;
    size_t numbers[NUMBERS];
};

static double now(void)
{
    struct timespec time;
    clock_gettime(CLOCK_MONOTONIC, &time);
    return time.tv_sec * 1e9 + time.tv_nsec;
}

static void *taken(size_t bytes)
{
    void *block = malloc(bytes);
    if (!block) {
        fputs("no memory\n", stderr);
        exit(1);
    }
    return block;
}

/* The numbers below a count in a random order. */
static void shuffle(size_t *order, size_t count)
{
    unsigned long long state = 88172645463325252ULL;
    for (size_t index = 0; index < count; index++)
        order[index] = index;
    for (size_t index = count - 1; index > 0; index--) {
        state ^= state << 13;
        state ^= state >> 7;
        state ^= state << 17;
        size_t other = state % (index + 1);
        size_t kept = order[index];
        order[index] = order[other];
        order[other] = kept;
    }
}

/* The nanoseconds of one round. */
static double timed(size_t count, int frees, size_t *seen)
{
    struct line **lines = taken(count * sizeof *lines);
    size_t *order = taken(count * sizeof *order);
    for (size_t index = 0; index < count; index++) {
        lines[index] = taken(sizeof **lines);
        lines[index]->text = taken(LENGTH);
        memset(lines[index]->text, 'x', LENGTH);
    }
    shuffle(order, count);
    double begin = now();
    for (size_t index = 0; index < count; index++) {
        struct line *line = lines[order[index]];
        *seen += line->text[0];
        if (frees) {
            free(line->text);
            free(line);
        }
    }
    double end = now();
    for (size_t index = 0; !frees && index < count; index++) {
        free(lines[index]->text);
        free(lines[index]);
    }
    free(lines);
    free(order);
    return end - begin;
}

int main(int argc, char **argv)
{
    size_t count = argc == 3 ? strtoul(argv[2], NULL, 10) : 0;
    if (count == 0)
        return 2;
    int frees = strcmp(argv[1], "free") == 0;
    size_t seen = 0;
    double least = 0;
    for (int round = 0; round < ROUNDS; round++) {
        double took = timed(count, frees, &seen);
        if (round == 0 || took < least)
            least = took;
    }
    printf("%.2f\n", least / count);
    return seen == 0;
}
