/*
 * Asks the library of names whose parts are known, and compares.
 *
 * Each line of standard input is one name: the code that is expected, the kind, the arity ("any" for none), and then in
 * hexadecimal behind an "x" the name, its scope ("-" for none), its base and what is behind that.
 */
#include "cpp_demangle.h"

#include <stdio.h>

enum { MOST = 1 << 12 };

struct question {
    uint32_t code;
    struct cpp_demangle_places due;
    size_t name_len, text_len;
    char name[MOST], text[3 * MOST];
};

static size_t bytes_of(const char *digits, char *bytes)
{
    size_t count = 0;
    unsigned value;

    for (digits++; sscanf(digits, "%2x", &value) == 1; digits += 2)
        bytes[count++] = (char)value;
    return count;
}

static bool next(struct question *question)
{
    static char arity[32], name[2 * MOST], scope[2 * MOST], base[2 * MOST], after[2 * MOST];
    struct cpp_demangle_places *due = &question->due;
    char *text = question->text;

    if (scanf("%u %u %31s %8191s %8191s %8191s %8191s", &question->code, &due->kind, arity, name, scope, base,
              after) != 7)
        return false;
    question->name_len = bytes_of(name, question->name);
    due->arity = strcmp(arity, "any") == 0 ? CPP_DEMANGLE_NO_ARITY : strtoul(arity, NULL, 10);
    due->has_scope = strcmp(scope, "-") != 0;
    due->scope_len = due->has_scope ? bytes_of(scope, text) : 0;
    if (due->has_scope)
        memcpy(text + due->scope_len, "::", 2);
    due->base_at = due->has_scope ? due->scope_len + 2 : 0;
    due->base_len = bytes_of(base, text + due->base_at);
    question->text_len = due->base_at + due->base_len;
    question->text_len += bytes_of(after, text + question->text_len);
    return true;
}

static bool are_due(const struct cpp_demangle_places *told, const struct cpp_demangle_places *due)
{
    return told->kind == due->kind && told->has_scope == due->has_scope && told->scope_len == due->scope_len
        && told->base_at == due->base_at && told->base_len == due->base_len && told->arity == due->arity;
}

/* Whether the answer is the expected one, in a buffer that is long enough and in one that isn't. */
static bool is_right(const struct question *question)
{
    const struct cpp_demangle_options options = cpp_demangle_default_options();
    struct cpp_demangle_places told;
    static char room[3 * MOST];
    size_t text_len;
    bool right;

    right = cpp_demangle_parts(question->name, question->name_len, &options, room, sizeof room, &text_len, &told)
            == question->code
        && text_len == question->text_len && are_due(&told, &question->due);
    if (question->code != CPP_DEMANGLE_DONE)
        return right;
    right = right && memcmp(room, question->text, text_len) == 0 && room[text_len] == 0;
    return right
        && cpp_demangle_parts(question->name, question->name_len, &options, room, question->text_len - 1, &text_len,
                              &told) == CPP_DEMANGLE_NO_ROOM
        && text_len == question->text_len && are_due(&told, &question->due);
}

int main(void)
{
    static struct question question;
    unsigned long count = 0, wrong = 0;

    while (next(&question)) {
        count++;
        if (!is_right(&question)) {
            wrong++;
            printf("differs: %.*s\n", (int)question.name_len, question.name);
        }
    }
    printf("%lu names, %lu differ\n", count, wrong);
    return wrong || !count;
}
