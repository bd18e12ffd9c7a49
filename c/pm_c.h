/* Token streams of Rust, read, listed, printed, made and looked up by a proved library. dev/header.py makes this
 * file of the sources of crates/pm_c.
 *
 * Link libpm_c.a and three functions of a heap: the toolchain's liblibc_c.a, or heap.c beside this file.
 *
 * Texts are UTF-8, and a text is given as its bytes and their number. Positions count characters: the first text of a
 * session begins at 1, and each later one a position behind the end of the one before. A span goes from `lo` up to
 * `hi`. All numbers of bytes are named so.
 *
 * A session holds the texts and streams that it read, and what it prints, lists or makes until the next such call:
 * records of trees, records of pieces, a text, and bytes. Its handle goes into a call by value and comes back by
 * `back`, so that `pm_parse(s, &s, ..)` is the usual form. Use one session on one thread at a time, and always on the
 * same one. Sessions share nothing, so each thread may have its own. Nothing here is for signal handlers.
 *
 * No pointer may be null, not even to no bytes, and what one points to overlaps with nothing else of the call. All else
 * is answered by a code. A call that isn't PM_DONE leaves the session live and as it was, but for these: PM_NO_MEMORY
 * and, of pm_list, PM_TOO_LONG may leave other records and another text; PM_FAULT and PM_TOO_LONG of pm_parse, and
 * PM_NO_LITERAL of pm_read_literal, leave the text that was read as a file of the session; PM_NO_MEMORY of pm_parse may
 * leave it. A buffer is written only where it is PM_DONE.
 */
#ifndef PM_C_H
#define PM_C_H
#include <stdbool.h>
#include <stddef.h>
#include <stdint.h>

/* Rises with each change that a caller sees. */
#define PM_VERSION 3

#ifdef __cplusplus
extern "C" {
#endif

/* A session. {0} is none: it isn't live and owns nothing. Copies of a handle are one session. */
typedef struct pm_session {
    void *at;
    bool live;
} pm_session;

/* The codes. */
enum {
    /* The call succeeded. */
    PM_DONE = 0,
    /* The text has a syntax error at the position `number`. */
    PM_FAULT = 1,
    /* The positions of the session's texts would pass 4294967295. */
    PM_MAP_FULL = 2,
    /* Memory ran out. */
    PM_NO_MEMORY = 3,
    /* The bytes aren't UTF-8. */
    PM_NOT_UTF8 = 4,
    /* The session has no stream with this number. */
    PM_NO_STREAM = 5,
    /* The buffer's length is not exactly that of what is to be copied. */
    PM_NO_ROOM = 6,
    /* The handle isn't live: it has no session. */
    PM_NOT_LIVE = 7,
    /* A count doesn't fit in 32 bits. */
    PM_TOO_LONG = 8,
    /* The name is empty. */
    PM_NAME_EMPTY = 9,
    /* The name has digits only. */
    PM_NAME_NUMBER = 10,
    /* The name is not that of an identifier. */
    PM_NAME_INVALID = 11,
    /* The name can't be raw: `_`, `super`, `self`, `Self` or `crate`. */
    PM_NAME_RESERVED = 12,
    /* The text is not a literal. */
    PM_NO_LITERAL = 13,
    /* The literal is of another kind, or has a suffix. */
    PM_OTHER_KIND = 14,
    /* The literal's content has an error: `number` is one of the values of pm_escape. */
    PM_NOT_UNESCAPED = 15,
    /* No text of the session contains the span. */
    PM_NOT_HELD = 16,
    /* The number is not a character, or one of the bytes is zero. */
    PM_NO_CHARACTER = 17,
    /* No text of the session contains both spans. */
    PM_NOT_JOINED = 18
};

/* The faults of a literal's content, in the order of EscapeError. */
enum pm_escape {
    PM_ESCAPE_ZERO_CHARS = 0,
    PM_ESCAPE_MORE_THAN_ONE_CHAR = 1,
    PM_ESCAPE_LONE_SLASH = 2,
    PM_ESCAPE_INVALID_ESCAPE = 3,
    PM_ESCAPE_BARE_CARRIAGE_RETURN = 4,
    PM_ESCAPE_BARE_CARRIAGE_RETURN_IN_RAW_STRING = 5,
    PM_ESCAPE_ESCAPE_ONLY_CHAR = 6,
    PM_ESCAPE_TOO_SHORT_HEX_ESCAPE = 7,
    PM_ESCAPE_INVALID_CHAR_IN_HEX_ESCAPE = 8,
    PM_ESCAPE_OUT_OF_RANGE_HEX_ESCAPE = 9,
    PM_ESCAPE_NO_BRACE_IN_UNICODE_ESCAPE = 10,
    PM_ESCAPE_INVALID_CHAR_IN_UNICODE_ESCAPE = 11,
    PM_ESCAPE_EMPTY_UNICODE_ESCAPE = 12,
    PM_ESCAPE_UNCLOSED_UNICODE_ESCAPE = 13,
    PM_ESCAPE_LEADING_UNDERSCORE_UNICODE_ESCAPE = 14,
    PM_ESCAPE_OVERLONG_UNICODE_ESCAPE = 15,
    PM_ESCAPE_LONE_SURROGATE_UNICODE_ESCAPE = 16,
    PM_ESCAPE_OUT_OF_RANGE_UNICODE_ESCAPE = 17,
    PM_ESCAPE_UNICODE_ESCAPE_IN_BYTE = 18,
    PM_ESCAPE_NON_ASCII_CHAR_IN_BYTE = 19,
    PM_ESCAPE_NUL_IN_C_STR = 20,
    PM_ESCAPE_UNSKIPPED_WHITESPACE_WARNING = 21,
    PM_ESCAPE_MULTIPLE_SKIPPED_LINES_WARNING = 22
};

/* Why a text doesn't parse. */
enum pm_reason {
    PM_REASON_UNCLOSED_COMMENT = 1,
    PM_REASON_BARE_RETURN_IN_DOC = 2,
    PM_REASON_UNCLOSED_STRING = 3,
    PM_REASON_UNCLOSED_RAW_STRING = 4,
    PM_REASON_TOO_MANY_HASHES = 5,
    PM_REASON_HASHES_WITHOUT_QUOTE = 6,
    PM_REASON_RESERVED_RAW_NAME = 7,
    PM_REASON_UNCLOSED_CHARACTER = 8,
    PM_REASON_CONTENT = 9,
    PM_REASON_DIGIT_LIFETIME = 10,
    PM_REASON_HASH_AFTER_LIFETIME = 11,
    PM_REASON_NO_DIGITS = 12,
    PM_REASON_BAD_DIGIT = 13,
    PM_REASON_BAD_NUMBER_END = 14,
    PM_REASON_MISPLACED_MARK = 15,
    PM_REASON_NO_TOKEN = 16,
    PM_REASON_STRAY_CLOSER = 17,
    PM_REASON_MISMATCHED_CLOSER = 18,
    PM_REASON_UNCLOSED_OPENER = 19
};

/* The result of a call. If the code is not PM_DONE, only `code` has a meaning, and `number` if the code's comment names
 * it. */
typedef struct pm_answer {
    /* The code of the call. */
    uint32_t code;
    /* A number, whose meaning the comment of the call gives. */
    uint32_t number;
    /* The number of bytes in what the call made, unless its comment gives another meaning. */
    size_t bytes;
} pm_answer;

/* A tree of a stream, as pm_list lists it. */
typedef struct pm_tree {
    /* 0 for a group, 1 for an identifier, 2 for a mark, 3 for a literal. */
    uint8_t kind;
    /* For a group 0 for ( ), 1 for { }, 2 for [ ], 3 for no delimiters; for a mark 1 if it is joint; else 0. */
    uint8_t detail;
    /* The position where it begins, in characters. */
    uint32_t lo;
    /* The position where it ends, in characters. */
    uint32_t hi;
    /* The byte offset of its text in the session's text; for a mark its character; for a group 0. */
    uint32_t start;
    /* The number of bytes in its text; for a group the number of trees directly inside it; for a mark 0. */
    uint32_t count;
} pm_tree;

/* A piece of a text. */
typedef struct pm_piece {
    /* 0 for the mark U+FEFF at the start, 1 for a white character, 2 for a comment, 3 for a doc comment, 4 for an
     * opener, 5 for a closer, 6 for a literal, 7 for a mark, 8 for an identifier. */
    uint8_t kind;
    /* 1 for a doc comment with `!`, for a joint mark and for an identifier with `r#`; else 0. */
    uint8_t detail;
    /* The byte offset in the text where it begins. */
    uint32_t start;
    /* The number of its bytes. */
    uint32_t count;
} pm_piece;

/* Why a text doesn't parse, and where. All offsets are in bytes of the text. */
typedef struct pm_explanation {
    /* The code of the call. */
    uint32_t code;
    /* 0 if the text parses, else one of the values of pm_reason. */
    uint32_t reason;
    /* For an error in the content of a literal, one of the values of pm_escape; else 0. */
    uint32_t detail;
    /* The offset at which the text is rejected. */
    size_t fault;
    /* The offset where the part that is wrong begins. It may be later than `fault`: for a digit that is too large for
     * the base, say. */
    size_t start;
    /* The offset where the part that is wrong ends. */
    size_t end;
    /* The offset where the innermost opener begins that no closer before the error matches; 0 if there is none. */
    size_t opener_start;
    /* The offset where that opener ends; 0 if there is none. */
    size_t opener_end;
} pm_explanation;

/* A line and a column. */
typedef struct pm_line_column {
    /* The code of the call. */
    uint32_t code;
    /* The line, counted from 1. */
    size_t line;
    /* The column in characters, counted from 0. */
    size_t column;
} pm_line_column;

/* A part of a text, in byte offsets or in positions. */
typedef struct pm_range {
    /* The code of the call. */
    uint32_t code;
    /* Where the part begins. */
    size_t start;
    /* Where the part ends. */
    size_t end;
} pm_range;

/* Makes a session and writes its handle to `out`. pm_session_free frees it. A session whose handle was in `out` before
 * is lost. Codes: PM_NO_MEMORY. */
uint32_t pm_session_new(pm_session *out);

/* Frees a session with all that it holds. No copy of its handle may be used from then on. Codes: PM_NOT_LIVE. */
uint32_t pm_session_free(pm_session session);

/* Every call below that has `back` also answers PM_NOT_LIVE, and then doesn't write it. */

/* Reads a text into a new stream of the session, with the number `number`. The text is a file of the session from then
 * on, also after PM_FAULT and PM_TOO_LONG. It is none after PM_NOT_UTF8 and PM_MAP_FULL, and may be one after
 * PM_NO_MEMORY. Codes: PM_FAULT, PM_MAP_FULL, PM_NO_MEMORY, PM_NOT_UTF8, PM_TOO_LONG. */
pm_answer pm_parse(pm_session session, pm_session *back, const uint8_t *text, size_t bytes);

/* Frees a stream of the session. A later stream may get its number. Codes: PM_NO_STREAM. */
uint32_t pm_stream_free(pm_session session, pm_session *back, uint32_t stream);

/* Prints a stream into the session's text, which then has `bytes` bytes. Codes: PM_NO_MEMORY, PM_NO_STREAM. */
pm_answer pm_print(pm_session session, pm_session *back, uint32_t stream);

/* Prints a text into the session's text, which then has `bytes` bytes, as pm_parse and pm_print would, but makes no
 * stream and no file. The position of a syntax error counts from 1. Codes: PM_FAULT, PM_MAP_FULL, PM_NO_MEMORY,
 * PM_NOT_UTF8. */
pm_answer pm_reprint(pm_session session, pm_session *back, const uint8_t *text, size_t bytes);

/* Lists a stream. The session's records become its trees in reading order, and the session's text the texts of its
 * identifiers and literals, one after another. `number` counts the records, and `bytes` the bytes of the text. Codes:
 * PM_NO_MEMORY, PM_NO_STREAM, PM_TOO_LONG. */
pm_answer pm_list(pm_session session, pm_session *back, uint32_t stream);

/* Lists all pieces of a text as the session's records, with white characters and comments, and makes no file. `number`
 * counts the records. The pieces end at the byte offset `bytes`, and cover the text exactly if that is its length.
 * Codes: PM_NO_MEMORY, PM_NOT_UTF8, PM_TOO_LONG. */
pm_answer pm_pieces(pm_session session, pm_session *back, const uint8_t *text, size_t bytes);

/* Copies the session's text into a buffer of exactly its length. A buffer of any other length is not written. Codes:
 * PM_NO_ROOM. */
uint32_t pm_copy_text(pm_session session, pm_session *back, uint8_t *into, size_t bytes);

/* Copies the session's bytes into a buffer of exactly their number. A buffer of any other length is not written. Codes:
 * PM_NO_ROOM. */
uint32_t pm_copy_bytes(pm_session session, pm_session *back, uint8_t *into, size_t bytes);

/* Copies the records of pm_list into a buffer of exactly their number. A buffer of any other length is not written.
 * Codes: PM_NO_ROOM. */
uint32_t pm_copy_trees(pm_session session, pm_session *back, pm_tree *into, size_t count);

/* Copies the records of pm_pieces into a buffer of just their number. A buffer of any other length is not written.
 * Codes: PM_NO_ROOM. */
uint32_t pm_copy_pieces(pm_session session, pm_session *back, pm_piece *into, size_t count);

/* Returns why a text doesn't parse, and where. It makes no file and needs no session, so any thread may call it. Codes:
 * PM_MAP_FULL, PM_NO_MEMORY, PM_NOT_UTF8. */
pm_explanation pm_explain(const uint8_t *text, size_t bytes);

/* Checks whether `name`, which is given without `r#`, is the name of an identifier: of a raw one if `raw` is true, else
 * of a plain one. Any thread may call it. Codes: PM_NAME_EMPTY, PM_NAME_NUMBER, PM_NAME_INVALID, PM_NAME_RESERVED,
 * PM_NOT_UTF8, PM_NO_MEMORY. */
uint32_t pm_ident_check(const uint8_t *name, size_t bytes, bool raw);

/* Checks whether the text is a literal, or `-` and a number. Any thread may call it. Codes: PM_NO_LITERAL, PM_NOT_UTF8.
 */
uint32_t pm_literal_check(const uint8_t *text, size_t bytes);

/* Reads the text of a literal, which begins at the position `number` and has `bytes` characters, not bytes. From then
 * on the text is a file of the session, also after PM_NO_LITERAL. Codes: PM_MAP_FULL, PM_NO_LITERAL, PM_NO_MEMORY,
 * PM_NOT_UTF8. */
pm_answer pm_read_literal(pm_session session, pm_session *back, const uint8_t *text, size_t bytes);

/* Writes the string literal of a text into the session's text, which then has `bytes` bytes. Codes: PM_NO_MEMORY,
 * PM_NOT_UTF8. */
pm_answer pm_string(pm_session session, pm_session *back, const uint8_t *text, size_t bytes);

/* Writes the literal of a character into the session's text, which then has `bytes` bytes. Codes: PM_NO_CHARACTER,
 * PM_NO_MEMORY. */
pm_answer pm_character(pm_session session, pm_session *back, uint32_t character);

/* Writes the literal of a byte into the session's text, which then has `bytes` bytes. Codes: PM_NO_MEMORY. */
pm_answer pm_byte_character(pm_session session, pm_session *back, uint8_t byte);

/* Writes the byte string literal of some bytes into the session's text, which then has `bytes` bytes. Codes:
 * PM_NO_MEMORY. */
pm_answer pm_byte_string(pm_session session, pm_session *back, const uint8_t *contents, size_t bytes);

/* Writes the C string literal of some bytes, without a zero at their end, into the session's text, of `bytes` bytes.
 * Codes: PM_NO_CHARACTER, PM_NO_MEMORY. */
pm_answer pm_c_string(pm_session session, pm_session *back, const uint8_t *contents, size_t bytes);

/* Writes the value of a string literal, given by its text, into the session's text, which then has `bytes` bytes.
 * Codes: PM_NO_LITERAL, PM_NO_MEMORY, PM_NOT_UNESCAPED, PM_NOT_UTF8, PM_OTHER_KIND. */
pm_answer pm_str_value(pm_session session, pm_session *back, const uint8_t *text, size_t bytes);

/* Writes the value of a byte string literal, given by its text, into the session's bytes, which are `bytes` then.
 * Codes: PM_NO_LITERAL, PM_NO_MEMORY, PM_NOT_UNESCAPED, PM_NOT_UTF8, PM_OTHER_KIND. */
pm_answer pm_byte_str_value(pm_session session, pm_session *back, const uint8_t *text, size_t bytes);

/* Writes the value of a C string literal, given by its text, into the session's bytes, which are `bytes` then. The zero
 * at the end is one of them. Codes: PM_NO_LITERAL, PM_NO_MEMORY, PM_NOT_UNESCAPED, PM_NOT_UTF8, PM_OTHER_KIND. */
pm_answer pm_cstr_value(pm_session session, pm_session *back, const uint8_t *text, size_t bytes);

/* Returns the line and column of a position. Codes: PM_NOT_HELD. */
pm_line_column pm_line_column_of(pm_session session, pm_session *back, uint32_t position);

/* Returns the byte offsets in its text where a span begins and ends. Codes: PM_NOT_HELD. */
pm_range pm_byte_range(pm_session session, pm_session *back, uint32_t lo, uint32_t hi);

/* Writes the text of a span into the session's text, which then has `bytes` bytes. The span 0..0 has no text. Codes:
 * PM_NOT_HELD, PM_NO_MEMORY. */
pm_answer pm_source_text(pm_session session, pm_session *back, uint32_t lo, uint32_t hi);

/* Writes the name of the text that has the span into the session's text: `<parsed string 2>` for the second text.
 * Codes: PM_NOT_HELD, PM_NO_MEMORY. */
pm_answer pm_file_name(pm_session session, pm_session *back, uint32_t lo, uint32_t hi);

/* Returns the span from the earlier start of two spans to their later end. PM_NOT_HELD is about the first of the two.
 * Codes: PM_NOT_HELD, PM_NOT_JOINED. */
pm_range pm_join(pm_session session, pm_session *back, uint32_t lo, uint32_t hi, uint32_t other_lo, uint32_t other_hi);

/* Forgets the texts that were read, but no stream. The next text begins at position 1 again, so spans of earlier texts
 * are no longer valid. */
uint32_t pm_forget(pm_session session, pm_session *back);

#ifdef __cplusplus
}
#endif
#endif
