/* Two peers of one text, and a dump of each.  `make examples` builds and runs it:

       cc -Iinclude examples/peers.c out/libtktext.a -o out/peers && out/peers */

#include "tktext.h"

#include <stdio.h>
#include <stdlib.h>

/* Carries out the command of some words, and prints what is said, or why nothing is. */
static int32_t say(tktext *world, size_t count, const char *const words[])
{
    char *line = NULL;
    size_t room = 0;
    int32_t code = tktext_call_words(world, count, words);
    if (code > TKTEXT_FAULT)
        fprintf(stderr, "%s\n", tktext_code_text(code));
    else if (tktext_said_line(world, &line, &room) != SIZE_MAX)
        fputs(line, stdout);
    free(line);
    return code;
}

#define SAY(world, ...) \
    say(world, sizeof((const char *[]){__VA_ARGS__}) / sizeof(char *), (const char *[]){__VA_ARGS__})

int main(void)
{
    tktext world = TKTEXT_EMPTY;
    if (tktext_new_greatest(&world) != TKTEXT_ANSWER)
        return 1;
    SAY(&world, "text", ".a", "-undo", "1");
    SAY(&world, ".a", "insert", "1.0", "one\ntwo\nthree");
    SAY(&world, ".a", "peer", "create", ".b", "-startline", "2");
    SAY(&world, ".b", "tag", "add", "bold", "1.0", "1.end");
    SAY(&world, ".b", "insert", "1.0", "number ");
    SAY(&world, ".a", "dump", "1.0", "end");
    SAY(&world, ".b", "dump", "1.0", "end");
    int refused = SAY(&world, ".b", "index", "nowhere") == TKTEXT_FAULT;
    tktext_drop(&world);
    return refused ? 0 : 1;
}
