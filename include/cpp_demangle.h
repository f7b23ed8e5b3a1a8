/*
 * C++ linker names (Itanium C++ ABI, chapter 5.1) as the names in the source.
 *
 * The calls that libcpp_demangle.a exports are proved to keep what is promised of them here, for callers that hand in
 * what the parameters say; the inline functions at the end are tested. Every call may be made by any thread at any
 * time, but in a signal handler or in the forked child of a process with threads. Nothing is kept between calls.
 */
#ifndef CPP_DEMANGLE_H
#define CPP_DEMANGLE_H

#include <stdbool.h>
#include <stddef.h>
#include <stdint.h>
#include <stdlib.h>
#include <string.h>

#ifdef __cplusplus
#include <string>

extern "C" {
#endif

/* The number of the interface that this header declares; cpp_demangle_version() tells that of the library. */
#define CPP_DEMANGLE_VERSION 1

/* The output limit that stands for none. */
#define CPP_DEMANGLE_ANY_LENGTH SIZE_MAX

/* What the calls answer. A code keeps its number. */
enum cpp_demangle_code {
    /* What was asked for was done. */
    CPP_DEMANGLE_DONE = 0,

    /* The bytes are no linker name: */
    CPP_DEMANGLE_UNEXPECTED_END = 1,  /* they end where the grammar wants more */
    CPP_DEMANGLE_UNEXPECTED_TEXT = 2, /* they are none that the grammar has there */
    CPP_DEMANGLE_OVERFLOW = 3,        /* a number in them is above 2^63 - 1 */
    CPP_DEMANGLE_NAME_TOO_DEEP = 4,   /* or they nest as deep as parse_limit */

    /* They are one, but it has no text: */
    CPP_DEMANGLE_BAD_TEMPLATE_ARG = 5,     /* a template parameter without an argument */
    CPP_DEMANGLE_FORWARD_TEMPLATE_ARG = 6, /* one that stands for itself or a later argument */
    CPP_DEMANGLE_BAD_LEAF_NAME = 7,        /* a constructor or destructor outside any class */
    CPP_DEMANGLE_TEXT_TOO_DEEP = 8,        /* its text nests as deep as print_limit */
    CPP_DEMANGLE_NOT_UTF8 = 9,             /* the bytes of a literal are no text */
    CPP_DEMANGLE_TEXT_TOO_LONG = 10,       /* the text is longer than output_limit */

    /* There was no memory. */
    CPP_DEMANGLE_OUT_OF_MEMORY = 11,

    /* The call can't be done: */
    CPP_DEMANGLE_NO_ROOM = 12,     /* the text is longer than the buffer */
    CPP_DEMANGLE_BAD_OPTION = 13,  /* parse_limit or print_limit is 0 */
    CPP_DEMANGLE_BAD_LENGTH = 14,  /* a length is above PTRDIFF_MAX */
    CPP_DEMANGLE_UNKNOWN_CODE = 15 /* the number is none of these */
};

/* How a name is read and printed. */
struct cpp_demangle_options {
    uint32_t parse_limit;    /* levels of nesting in a name; 1 or more */
    uint32_t print_limit;    /* levels of nesting in its text; 1 or more */
    size_t output_limit;     /* the most bytes of its text, 0 included, or CPP_DEMANGLE_ANY_LENGTH */
    bool no_params;          /* without the parameters of functions */
    bool no_return_type;     /* without the result types of function templates */
    bool hide_literal_types; /* without the types of literals in expressions */
};

/*
 * The number of the library's interface. Where it isn't CPP_DEMANGLE_VERSION, header and library don't belong together.
 */
uint32_t cpp_demangle_version(void);

/*
 * Puts the text of a linker name into a buffer.
 *
 * name, name_len: the bytes of the name, all of them; no zero ends them.
 * options:        how it is read and printed; not null.
 * room, room_len: the buffer, and how many bytes it has. It shares none with the other arguments.
 * text_len:       set to the number of bytes of the text, a zero behind it not counted; not null.
 *
 * CPP_DEMANGLE_DONE: the text stands at the front of the buffer, with a zero behind it where it is shorter than the
 * buffer; the bytes behind that are as they were. CPP_DEMANGLE_NO_ROOM: the text is longer than the buffer. In these
 * two cases *text_len is the text's length; in all others it is 0. But for CPP_DEMANGLE_DONE the buffer is as it was,
 * and nothing is ever written behind it.
 *
 * Every other code comes exactly for its own cause, but for CPP_DEMANGLE_OUT_OF_MEMORY, which may come at any time; so
 * without it one name has one answer under the same options. The text is the one that cppfilt prints.
 */
uint32_t cpp_demangle_text(const char *name, size_t name_len, const struct cpp_demangle_options *options, char *room,
                           size_t room_len, size_t *text_len);

/* What a name is of. A kind keeps its number. */
enum cpp_demangle_kind {
    CPP_DEMANGLE_NO_KIND = 0,  /* it has no text */
    CPP_DEMANGLE_FUNCTION = 1, /* a function, f(): _Z1fv */
    CPP_DEMANGLE_DATA = 2,     /* a variable, A::x: _ZN1A1xE */
    CPP_DEMANGLE_SPECIAL = 3,  /* what the compiler makes, the virtual table of A: _ZTV1A */
    CPP_DEMANGLE_BLOCK = 4,    /* what one of Apple's blocks is compiled to: ___Z1fv_block_invoke */
    CPP_DEMANGLE_KEYED = 5,    /* what runs constructors or destructors of a file's variables: _GLOBAL__I__Z1fv */
    CPP_DEMANGLE_TYPE = 6      /* a type alone, int*: Pi */
};

/* The arity that stands for none. */
#define CPP_DEMANGLE_NO_ARITY SIZE_MAX

/* Where the parts of a name stand in its text. */
struct cpp_demangle_places {
    uint32_t kind;    /* a cpp_demangle_kind */
    bool has_scope;   /* whether it is in a class or a namespace; the text begins with that one's */
    size_t scope_len; /* bytes of the scope; 0 where there is none */
    size_t base_at;   /* where the name in it begins: behind the scope and ::, or 0 */
    size_t base_len;  /* bytes of the name in its scope, template arguments included; behind it are parameters */
    size_t arity;     /* how many parameters a function has, or CPP_DEMANGLE_NO_ARITY */
};

/*
 * Puts the text of a linker name into a buffer, as cpp_demangle_text does under these options and no_return_type, and
 * tells where its parts stand in it. Codes, buffer and *text_len are as of that call. places isn't null; where the
 * answer is neither CPP_DEMANGLE_DONE nor CPP_DEMANGLE_NO_ROOM, it is set to no kind, no scope, zeros and no arity.
 */
uint32_t cpp_demangle_parts(const char *name, size_t name_len, const struct cpp_demangle_options *options, char *room,
                            size_t room_len, size_t *text_len, struct cpp_demangle_places *places);

/*
 * Puts what a code says, in English, into a buffer, as cpp_demangle_text does a name's text, and with its answers
 * CPP_DEMANGLE_DONE, CPP_DEMANGLE_NO_ROOM and CPP_DEMANGLE_BAD_LENGTH; CPP_DEMANGLE_UNKNOWN_CODE exactly where the
 * number is no code. It takes no memory.
 */
uint32_t cpp_demangle_cause_text(uint32_t code, char *room, size_t room_len, size_t *text_len);

/* The options of cppfilt where none is given. */
static inline struct cpp_demangle_options cpp_demangle_default_options(void)
{
    struct cpp_demangle_options options = {96, 128, CPP_DEMANGLE_ANY_LENGTH, false, false, false};
    return options;
}

/*
 * The text of a name and a zero in a block of malloc: *block, of *block_len bytes or null, where they fit in it; else a
 * longer one, which takes its place, and *block is freed. It answers CPP_DEMANGLE_DONE or another code of
 * cpp_demangle_text, never CPP_DEMANGLE_NO_ROOM, and then *block and *block_len are as they were.
 */
static inline uint32_t cpp_demangle_block(const char *name, size_t name_len,
                                          const struct cpp_demangle_options *options, char **block, size_t *block_len)
{
    char near_room[512];
    char *longer, *room = *block ? *block : near_room;
    size_t room_len = *block ? *block_len : sizeof near_room;
    size_t text_len = 0;
    uint32_t code = cpp_demangle_text(name, name_len, options, room, room_len, &text_len);

    if (code == CPP_DEMANGLE_DONE && room == *block && text_len < room_len)
        return code;
    if (code != CPP_DEMANGLE_DONE && code != CPP_DEMANGLE_NO_ROOM)
        return code;
    longer = (char *)malloc(text_len + 1);
    if (!longer)
        return CPP_DEMANGLE_OUT_OF_MEMORY;
    if (code == CPP_DEMANGLE_DONE)
        memcpy(longer, room, text_len);
    else
        code = cpp_demangle_text(name, name_len, options, longer, text_len, &text_len);
    if (code != CPP_DEMANGLE_DONE) {
        free(longer);
        return code;
    }
    longer[text_len] = 0;
    free(*block);
    *block = longer;
    *block_len = text_len + 1;
    return code;
}

/*
 * As abi::__cxa_demangle: the text of a name that ends in a zero, as a block of malloc that the caller frees, or null.
 *
 * buffer may be null, or a block of malloc of *length bytes. Where the text and a zero fit in it, it is the answer;
 * else a longer block is, and buffer is freed. Where length isn't null it is set to the bytes of the block that is
 * answered. Where null is answered, buffer stays the caller's, and *length is as it was. status may be null; else it is
 * set to 0, to -1 where there is no memory, to -2 where the name has no text, and to -3 where name is null, or length
 * is and buffer isn't.
 */
static inline char *cpp_demangle_cxa(const char *name, char *buffer, size_t *length, int *status)
{
    const struct cpp_demangle_options options = cpp_demangle_default_options();
    char *block = buffer;
    size_t block_len = buffer && length ? *length : 0;
    int ended = -3;

    if (name && (length || !buffer)) {
        uint32_t code = cpp_demangle_block(name, strlen(name), &options, &block, &block_len);
        ended = code == CPP_DEMANGLE_DONE ? 0 : code == CPP_DEMANGLE_OUT_OF_MEMORY ? -1 : -2;
    }
    if (ended == 0 && length)
        *length = block_len;
    if (status)
        *status = ended;
    return ended == 0 ? block : NULL;
}

#ifdef __cplusplus
}

/*
 * The text of a name as a string: CPP_DEMANGLE_DONE and the text, or another code of cpp_demangle_text, never
 * CPP_DEMANGLE_NO_ROOM, and text as it was. It throws what std::string throws for want of memory.
 */
inline uint32_t cpp_demangle_string(const std::string &name, std::string &text,
                                    const cpp_demangle_options &options = cpp_demangle_default_options())
{
    std::string room(256, '\0');
    std::size_t text_len = 0;
    uint32_t code = cpp_demangle_text(name.data(), name.size(), &options, &room[0], room.size(), &text_len);
    if (code == CPP_DEMANGLE_NO_ROOM) {
        room.resize(text_len);
        code = cpp_demangle_text(name.data(), name.size(), &options, &room[0], room.size(), &text_len);
    }
    if (code == CPP_DEMANGLE_DONE) {
        room.resize(text_len);
        text.swap(room);
    }
    return code;
}
#endif

#endif
