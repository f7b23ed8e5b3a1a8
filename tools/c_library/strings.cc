// The wrapper for std::string.
#include "cpp_demangle.h"

#include <cstdio>

int main()
{
    std::string text = "kept", name = "_Z1f", due = "f(";
    bool right = cpp_demangle_string("main", text) == CPP_DEMANGLE_UNEXPECTED_TEXT && text == "kept";
    cpp_demangle_options options = cpp_demangle_default_options();

    right = right && cpp_demangle_string("", text) == CPP_DEMANGLE_UNEXPECTED_END && text == "kept";
    right = right && cpp_demangle_string("_ZN1a1bEv", text) == CPP_DEMANGLE_DONE && text == "a::b()";
    options.no_params = true;
    right = right && cpp_demangle_string("_ZN1a1bEv", text, options) == CPP_DEMANGLE_DONE && text == "a::b";
    for (int i = 0; i < 500; i++) {
        name += "i";
        due += i ? ", int" : "int";
    }
    right = right && cpp_demangle_string(name, text) == CPP_DEMANGLE_DONE && text == due + ")";
    std::puts(right ? "all as it should be" : "differs");
    return right ? 0 : 1;
}
