/* The call of tktext.h that tells what a fault leaves unsaid.  It isn't proved, and meets no world.  What it tells
   stands in forms.h, which tools/forms.py writes from the definitions of the commands. */

#include "tktext.h"

#include <string.h>

/* A command: the words that it begins with behind a widget's name, all that may stand there, and which switches it
   takes; after how many arguments options stand, or -1, and whether each has a value. */
struct form {
    const char *first, *second, *words, *switches;
    int options_after, has_values;
};

/* Subcommands that begin with the same word: what may stand behind a widget's name, and which they are. */
struct family {
    const char *name, *words, *members;
};

#include "forms.h"

#define COUNT_OF(table) (sizeof(table) / sizeof *(table))

static bool is(const char *word, const char *other)
{
    return strcmp(word, other) == 0;
}

static bool begins(const char *fault, const char *text)
{
    return strncmp(fault, text, strlen(text)) == 0;
}

/* The form of a command, if its words name one. */
static const struct form *form_of(size_t count, const char *const words[])
{
    if (is(words[0], "text"))
        return &text_form;
    if (is(words[0], "destroy"))
        return &destroy_form;
    for (const struct form *form = forms; form < forms + COUNT_OF(forms); form++) {
        size_t spelled = form->second == NULL ? 1 : 2;
        if (count > spelled && is(words[1], form->first) && (spelled == 1 || is(words[2], form->second)))
            return form;
    }
    return NULL;
}

/* The family that the word behind a widget's name begins, if there is one. */
static const struct family *family_of(size_t count, const char *const words[])
{
    for (const struct family *family = families; count > 1 && family < families + COUNT_OF(families); family++)
        if (is(words[1], family->name))
            return family;
    return NULL;
}

static bool is_option(const char *word)
{
    for (size_t at = 0; at < COUNT_OF(option_names); at++)
        if (is(word, option_names[at]))
            return true;
    return false;
}

/* Whether each word in the place of an option is one. */
static bool has_good_options(const struct form *form, size_t count, const char *const words[])
{
    size_t at = 1 + (form->first != NULL) + (form->second != NULL) + (size_t)form->options_after;
    size_t end = form->has_values ? count : at + 1;
    for (; at < count && at < end; at += 2)
        if (!is_option(words[at]))
            return false;
    return true;
}

/* Which words may stand in the place of a bad option. */
static const char *options_of(size_t count, const char *const words[])
{
    const struct form *form = form_of(count, words);
    const struct family *family = family_of(count, words);
    if (form == NULL)
        return family == NULL ? subcommands : family->members;
    if (form->switches != NULL)
        return form->switches;
    if (form->options_after < 0)
        return NULL;
    return has_good_options(form, count, words) ? states : options;
}

/* What has to stand behind the first word. */
static const char *arguments_of(size_t count, const char *const words[])
{
    const struct form *form = form_of(count, words);
    const struct family *family = family_of(count, words);
    if (form != NULL)
        return form->words;
    return family == NULL ? "option ?arg ...?" : family->words;
}

const char *tktext_hint(size_t count, const char *const words[], const char *fault)
{
    if (count == 0)
        return NULL;
    if (is(fault, "wrong # args"))
        return arguments_of(count, words);
    if (begins(fault, "bad option "))
        return options_of(count, words);
    if (begins(fault, "bad comparison operator "))
        return comparisons;
    return begins(fault, "bad mark gravity ") ? gravities : NULL;
}
