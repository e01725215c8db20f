/* A file with words for names: the lines "in 3 recalc" and "out 5 finish" of a text file like those of examples/intercom. Its other lines are passed over, and so is what
 * follows a #. A word has letters, digits, _ and -, as there, and bytes from 80 on for letters of other alphabets. */
#include "explain.h"

#include <string.h>

#define WORDS 4          /* of a line: one more than are wanted, to see that there are too many */
#define WORD_LENGTH 1000 /* at most */

static int is_blank(char c)
{
    return c == ' ' || c == '\t' || c == '\r' || c == '\v' || c == '\f';
}

/* The first words of a line, up to a #; how many there are, and at most WORDS. */
static unsigned split(struct word *words, const char *at, const char *end)
{
    unsigned count = 0;
    const char *comment = memchr(at, '#', (size_t)(end - at));
    if (comment != NULL)
        end = comment;
    while (count < WORDS) {
        while (at < end && is_blank(*at))
            at++;
        const char *start = at;
        while (at < end && !is_blank(*at))
            at++;
        if (at == start)
            break;
        words[count].at = start;
        words[count++].length = at - start > WORD_LENGTH ? WORD_LENGTH + 1 : (int)(at - start);
    }
    return count;
}

static int same(struct word a, struct word b)
{
    return a.length == b.length && memcmp(a.at, b.at, (size_t)a.length) == 0;
}

static int is(struct word word, const char *text)
{
    return (size_t)word.length == strlen(text) && memcmp(word.at, text, (size_t)word.length) == 0;
}

/* A name's number, or NAMES if the word is none. */
static unsigned number_of(struct word word)
{
    unsigned number = 0;
    for (int i = 0; i < word.length; i++) {
        if (word.at[i] < '0' || word.at[i] > '9' || number >= NAMES)
            return NAMES;
        number = 10 * number + (unsigned)(word.at[i] - '0');
    }
    return number < NAMES ? number : NAMES;
}

static int is_letter(unsigned char c)
{
    return (c >= 'a' && c <= 'z') || (c >= 'A' && c <= 'Z') || (c >= '0' && c <= '9') || c == '_' || c == '-' || c >= 0x80;
}

static int is_proper(struct word word)
{
    for (int i = 0; i < word.length; i++)
        if (!is_letter((unsigned char)word.at[i]))
            return 0;
    return word.length <= WORD_LENGTH;
}

static int is_taken(const struct names *names, struct word word)
{
    for (unsigned i = 0; i < NAMES; i++)
        if (same(names->words[i], word))
            return 1;
    return 0;
}

/* NULL, or what is wrong with a line whose first word is in or out. */
static const char *add(struct names *names, const struct word *words, unsigned count)
{
    if (count != 3)
        return "in or out is followed by a number and a word";
    unsigned number = number_of(words[1]);
    if (number == NAMES)
        return "a name's number is 0 to 63";
    if (!is_proper(words[2]))
        return "a word has letters, digits, _ and -";
    if (has(names->given, number))
        return "this number has a word already";
    if (is_taken(names, words[2]))
        return "this word stands for another number already";
    names->words[number] = words[2];
    names->given |= (uint64_t)1 << number;
    if (is(words[0], "out"))
        names->outputs |= (uint64_t)1 << number;
    return NULL;
}

const char *read_names(struct names *names, struct bytes file, size_t *line)
{
    const char *at = (const char *)file.at, *end = at + file.length, *wrong = NULL;
    for (*line = 1; at < end && wrong == NULL; (*line)++) {
        struct word words[WORDS];
        const char *stop = memchr(at, '\n', (size_t)(end - at));
        unsigned count = split(words, at, stop != NULL ? stop : end);
        if (count > 0 && (is(words[0], "in") || is(words[0], "out")))
            wrong = add(names, words, count);
        at = stop != NULL ? stop + 1 : end;
    }
    (*line)--;
    return wrong;
}
