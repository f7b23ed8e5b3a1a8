/* Calls the library for each line of standard input, and prints how many bytes all texts have. */
#include "cpp_demangle.h"

#include <stdio.h>

int main(void)
{
    const struct cpp_demangle_options options = cpp_demangle_default_options();
    static char name[1 << 16], room[1 << 16];
    unsigned long total = 0;
    size_t text_len;

    while (fgets(name, sizeof name, stdin)) {
        cpp_demangle_text(name, strcspn(name, "\n"), &options, room, sizeof room, &text_len);
        total += text_len;
    }
    printf("%lu\n", total);
    return 0;
}
