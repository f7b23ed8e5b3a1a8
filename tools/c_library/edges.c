/* What the library and its header do at their edges: lengths, null, options, codes, blocks of malloc. */
#include "cpp_demangle.h"

#include <stdio.h>

static int failed = 0;

static void holds(bool fact, const char *what)
{
    if (!fact) {
        failed = 1;
        printf("not so: %s\n", what);
    }
}

static void check_lengths(void)
{
    const struct cpp_demangle_options options = cpp_demangle_default_options();
    const size_t above = (size_t)PTRDIFF_MAX + 1;
    char room[8] = "kept";
    size_t len = 9;

    holds(cpp_demangle_text(NULL, 0, &options, room, 8, &len) == CPP_DEMANGLE_UNEXPECTED_END, "null is an empty name");
    holds(len == 0 && strcmp(room, "kept") == 0, "and leaves the buffer");
    holds(cpp_demangle_text("_Z1fv", 5, &options, NULL, 0, &len) == CPP_DEMANGLE_NO_ROOM, "null is an empty buffer");
    holds(len == 3, "and the length is told");
    len = 9;
    holds(cpp_demangle_text("_Z1fv", above, &options, room, 8, &len) == CPP_DEMANGLE_BAD_LENGTH, "a long name");
    holds(cpp_demangle_text("_Z1fv", 5, &options, room, above, &len) == CPP_DEMANGLE_BAD_LENGTH, "a long buffer");
    holds(cpp_demangle_cause_text(1, room, above, &len) == CPP_DEMANGLE_BAD_LENGTH, "also for a code");
    holds(len == 0 && strcmp(room, "kept") == 0, "and each leaves the buffer");
}

static uint32_t code_of(const char *name, uint32_t parse_limit, uint32_t print_limit, size_t output_limit)
{
    struct cpp_demangle_options options = cpp_demangle_default_options();
    char room[64];
    size_t len;

    options.parse_limit = parse_limit;
    options.print_limit = print_limit;
    options.output_limit = output_limit;
    return cpp_demangle_text(name, strlen(name), &options, room, sizeof room, &len);
}

static void check_codes(void)
{
    holds(code_of("_Z1fv", 96, 128, CPP_DEMANGLE_ANY_LENGTH) == CPP_DEMANGLE_DONE, "done");
    holds(code_of("_Z", 96, 128, CPP_DEMANGLE_ANY_LENGTH) == CPP_DEMANGLE_UNEXPECTED_END, "cut off");
    holds(code_of("main", 96, 128, CPP_DEMANGLE_ANY_LENGTH) == CPP_DEMANGLE_UNEXPECTED_TEXT, "no linker name");
    holds(code_of("_ZTC1a99999999999999999999_1b", 96, 128, 9) == CPP_DEMANGLE_OVERFLOW, "a number");
    holds(code_of("_Z1fv", 1, 128, CPP_DEMANGLE_ANY_LENGTH) == CPP_DEMANGLE_NAME_TOO_DEEP, "one level to read");
    holds(code_of("_Z1fv", 96, 1, CPP_DEMANGLE_ANY_LENGTH) == CPP_DEMANGLE_TEXT_TOO_DEEP, "one level to print");
    holds(code_of("_Z1fT_", 96, 128, CPP_DEMANGLE_ANY_LENGTH) == CPP_DEMANGLE_BAD_TEMPLATE_ARG, "no argument");
    holds(code_of("C1", 96, 128, CPP_DEMANGLE_ANY_LENGTH) == CPP_DEMANGLE_BAD_LEAF_NAME, "a constructor alone");
    holds(code_of("_Z1fv", 96, 128, 3) == CPP_DEMANGLE_DONE, "three bytes");
    holds(code_of("_Z1fv", 96, 128, 2) == CPP_DEMANGLE_TEXT_TOO_LONG, "two bytes");
    holds(code_of("_Z1fv", 0, 128, 3) == CPP_DEMANGLE_BAD_OPTION, "no level to read");
    holds(code_of("_Z1fv", 96, 0, 3) == CPP_DEMANGLE_BAD_OPTION, "no level to print");
    holds(cpp_demangle_version() == CPP_DEMANGLE_VERSION, "header and library have one version");
}

static void check_causes(void)
{
    char room[128], before[128] = "";
    size_t len;
    uint32_t code;

    for (code = CPP_DEMANGLE_DONE; code <= CPP_DEMANGLE_UNKNOWN_CODE; code++) {
        holds(cpp_demangle_cause_text(code, room, sizeof room, &len) == CPP_DEMANGLE_DONE, "a code has a text");
        holds(len == strlen(room) && len > 0 && strcmp(room, before) != 0, "and one of its own");
        memcpy(before, room, sizeof room);
    }
    holds(cpp_demangle_cause_text(code, room, sizeof room, &len) == CPP_DEMANGLE_UNKNOWN_CODE, "no code");
    holds(len == 0 && strcmp(room, before) == 0, "and leaves the buffer");
    holds(cpp_demangle_cause_text(UINT32_MAX, room, sizeof room, &len) == CPP_DEMANGLE_UNKNOWN_CODE, "no code either");
    holds(cpp_demangle_cause_text(0, room, 3, &len) == CPP_DEMANGLE_NO_ROOM && len == 4, "three bytes for four");
    holds(cpp_demangle_cause_text(0, room, 4, &len) == CPP_DEMANGLE_DONE && len == 4, "four bytes without a zero");
    holds(memcmp(room, "done", 4) == 0, "are the text");
}

/* A name whose text is longer than any buffer of the header: many parameters. */
static void make_long(char *name, char *text)
{
    int i;

    strcpy(name, "_Z1f");
    strcpy(text, "f(");
    for (i = 0; i < 500; i++) {
        strcat(name, "i");
        strcat(text, i ? ", int" : "int");
    }
    strcat(text, ")");
}

static void check_blocks(void)
{
    static char name[1024], text[4096];
    size_t len = 64, kept;
    int status = 5;
    char *answer = cpp_demangle_cxa("_ZN1a1bEv", NULL, NULL, &status), *longer;

    holds(answer && status == 0 && strcmp(answer, "a::b()") == 0, "a new block");
    free(answer);
    answer = (char *)malloc(len);
    holds(answer && cpp_demangle_cxa("_Z1fv", answer, &len, NULL) == answer && len == 64, "the caller's block");
    holds(answer && strcmp(answer, "f()") == 0, "has the text");
    make_long(name, text);
    longer = cpp_demangle_cxa(name, answer, &len, &status);
    holds(longer && status == 0 && strcmp(longer, text) == 0 && len == strlen(text) + 1, "a longer block");
    kept = len;
    holds(!cpp_demangle_cxa("main", longer, &len, &status) && status == -2 && len == kept, "no text");
    holds(!cpp_demangle_cxa(NULL, longer, &len, &status) && status == -3, "no name");
    holds(!cpp_demangle_cxa("_Z1fv", longer, NULL, &status) && status == -3, "no length");
    free(longer);
    answer = cpp_demangle_cxa(name, NULL, &len, NULL);
    holds(answer && strcmp(answer, text) == 0 && len == strlen(text) + 1, "a new long block, and no status");
    free(answer);
}

int main(void)
{
    check_lengths();
    check_codes();
    check_causes();
    check_blocks();
    if (!failed)
        printf("all as it should be\n");
    return failed;
}
