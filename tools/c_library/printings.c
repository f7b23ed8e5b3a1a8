/*
 * Asks the library of names whose answers are known, and compares.
 *
 * Each line of standard input is one name: the limits of reading, of printing and of the text's length ("any" for
 * none), the options ("p", "r" and "l", or "-" for none), the code that is expected, and the name and its text, both in
 * hexadecimal behind an "x".
 */
#include "cpp_demangle.h"

#include <stdio.h>

enum { MOST = 1 << 16, MARK = 0xa5 };

struct question {
    struct cpp_demangle_options options;
    uint32_t code;
    size_t name_len, text_len;
    char name[MOST], text[MOST];
};

static size_t bytes_of(const char *digits, char *bytes)
{
    size_t count = 0;
    unsigned value;

    for (digits++; sscanf(digits, "%2x", &value) == 1; digits += 2)
        bytes[count++] = (char)value;
    return count;
}

static bool next(struct question *question)
{
    static char limit[32], words[8], name[2 * MOST], text[2 * MOST];
    struct cpp_demangle_options *options = &question->options;

    if (scanf("%u %u %31s %7s %u %131071s %131071s", &options->parse_limit, &options->print_limit, limit, words,
              &question->code, name, text) != 7)
        return false;
    options->output_limit = strcmp(limit, "any") == 0 ? CPP_DEMANGLE_ANY_LENGTH : strtoul(limit, NULL, 10);
    options->no_params = strchr(words, 'p') != NULL;
    options->no_return_type = strchr(words, 'r') != NULL;
    options->hide_literal_types = strchr(words, 'l') != NULL;
    question->name_len = bytes_of(name, question->name);
    question->text_len = bytes_of(text, question->text);
    return true;
}

/* Whether the bytes from one place to another are as they were. */
static bool is_marked(const char *room, size_t from, size_t to)
{
    for (; from < to; from++)
        if ((unsigned char)room[from] != MARK)
            return false;
    return true;
}

/* Whether the answer is the expected one in a buffer of this length, in a block of so many bytes. */
static bool is_right(const struct question *question, size_t room_len)
{
    size_t text_len = 77, kept = 0;
    char *room = (char *)malloc(room_len + 1);
    uint32_t code, due = question->code;
    bool right;

    if (!room)
        return false;
    memset(room, MARK, room_len + 1);
    code = cpp_demangle_text(question->name, question->name_len, &question->options, room, room_len, &text_len);
    if (due == CPP_DEMANGLE_DONE && question->text_len > room_len)
        due = CPP_DEMANGLE_NO_ROOM;
    right = code == due && text_len == question->text_len;
    if (due == CPP_DEMANGLE_DONE) {
        kept = text_len < room_len ? text_len + 1 : text_len;
        right = right && memcmp(room, question->text, text_len) == 0 && (kept == text_len || room[text_len] == 0);
    }
    right = right && is_marked(room, kept, room_len + 1);
    free(room);
    return right;
}

int main(void)
{
    static struct question question;
    unsigned long count = 0, wrong = 0;

    while (next(&question)) {
        size_t exact = question.text_len;
        bool right = is_right(&question, MOST) && is_right(&question, exact + 1) && is_right(&question, exact);

        right = right && is_right(&question, exact / 2) && is_right(&question, 0);
        count++;
        if (!right) {
            wrong++;
            printf("differs: %.*s\n", (int)question.name_len, question.name);
        }
    }
    printf("%lu names, %lu differ\n", count, wrong);
    return wrong || !count;
}
