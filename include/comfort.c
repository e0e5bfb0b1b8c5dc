/* The calls of tktext.h that make others easier to use.  They aren't proved, and reach a world by proved ones alone. */

#include "tktext.h"

#include <stdlib.h>
#include <string.h>

const char *tktext_code_text(int32_t code)
{
    static const char *const texts[] = {
        [TKTEXT_ANSWER] = "done",
        [TKTEXT_FAULT] = "refused",
        [TKTEXT_NO_MEMORY] = "out of memory",
        [TKTEXT_SCRIPT_FAULT] = "the script can't be read on",
        [TKTEXT_END] = "no command of the script is at hand",
        [TKTEXT_NOT_TEXT] = "a word isn't UTF-8",
        [TKTEXT_WRONG_LENGTHS] = "there is no word, or the lengths don't add up to the bytes",
        [TKTEXT_WRONG_LIMITS] = "no characters, or a limit above its maximum",
        [TKTEXT_WRONG_HANDLE] = "the handle is full where a world is made, or else it is empty",
        [TKTEXT_FINISHED] = "the script has ended, so nothing can follow",
    };
    return code >= TKTEXT_ANSWER && code <= TKTEXT_FINISHED ? texts[code] : "unknown code";
}

/* The bytes of all words together, and whether their number and that of their lengths can be told. */
static bool add_up(size_t count, const char *const words[], size_t *size)
{
    *size = 0;
    for (size_t at = 0; at < count; at++) {
        size_t length = strlen(words[at]);
        if (length >= SIZE_MAX - *size)
            return false;
        *size += length;
    }
    return count < (SIZE_MAX - *size) / sizeof(size_t);
}

int32_t tktext_call_words(tktext *handle, size_t count, const char *const words[])
{
    size_t size, filled = 0;
    /* One length more, so that the block isn't empty. */
    size_t *lengths = add_up(count, words, &size) ? malloc((count + 1) * sizeof *lengths + size) : NULL;
    if (lengths == NULL)
        return TKTEXT_NO_MEMORY;
    uint8_t *bytes = (uint8_t *)(lengths + count + 1);
    for (size_t at = 0; at < count; at++) {
        lengths[at] = strlen(words[at]);
        memcpy(bytes + filled, words[at], lengths[at]);
        filled += lengths[at];
    }
    int32_t code = tktext_call(handle, bytes, size, lengths, count);
    free(lengths);
    return code;
}

size_t tktext_said_line(tktext *handle, char **line, size_t *room)
{
    uint8_t nothing;
    size_t length = tktext_said(handle, &nothing, 0);
    if (length >= *room) {
        char *grown = length < SIZE_MAX ? realloc(*line, length + 1) : NULL;
        if (grown == NULL)
            return SIZE_MAX;
        *line = grown;
        *room = length + 1;
    }
    tktext_said(handle, (uint8_t *)*line, length);
    (*line)[length] = 0;
    return length;
}
