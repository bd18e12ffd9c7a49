/* Asks each call for each of its codes, what it leaves, and what a caller's mistakes and a heap with no memory answer.
 * A row is a line `want(WHAT, IT, WANTED)`. The status is 0 where each answer is the wanted one. `tests twice` frees a
 * session twice, which a sanitizer of addresses reports. It has a heap of its own, so that memory can run out. */
#include "pm_c.h"
#include <stdio.h>
#include <stdlib.h>
#include <string.h>
#include <sys/mman.h>

static int rows, wrong;

/* How many more blocks the heap gives, and whether it refused one. */
static long blocks = -1;
static bool refused;

typedef struct tried {
    bool ok;
    uint8_t *block;
} tried;

static _Alignas(16) uint8_t none[16];

static bool has_block(void) {
    if (blocks == 0) {
        refused = true;
        return false;
    }
    if (blocks > 0) blocks--;
    return true;
}

tried rattle_alloc(size_t bytes, size_t align) {
    void *block = has_block() ? malloc(bytes ? bytes : align) : NULL;
    return (tried){block != NULL, block ? block : none};
}

tried rattle_realloc(uint8_t *block, size_t kept, size_t bytes, size_t align) {
    (void)kept;
    void *moved = has_block() ? realloc(block, bytes ? bytes : align) : NULL;
    return (tried){moved != NULL, moved ? moved : none};
}

void rattle_dealloc(uint8_t *block) {
    free(block);
}

static void want(const char *what, size_t it, size_t wanted) {
    rows++;
    if (it == wanted) return;
    printf("%s: %zu, and not %zu\n", what, it, wanted);
    wrong++;
}

/* A text and its length. */
#define TEXT(text) (const uint8_t *)(text), sizeof(text) - 1

/* The session's text is this. */
static void want_text(const char *what, pm_session *s, pm_answer answer, const char *text) {
    uint8_t found[256] = {0};
    want(what, answer.code, PM_DONE);
    want(what, answer.bytes, strlen(text));
    want(what, pm_copy_text(*s, s, found, strlen(text)), PM_DONE);
    want(what, strcmp((char *)found, text) != 0, 0);
}

/* The session's bytes are these. */
static void want_bytes(const char *what, pm_session *s, pm_answer answer, const char *bytes, size_t count) {
    uint8_t found[256] = {0};
    want(what, answer.code, PM_DONE);
    want(what, answer.bytes, count);
    want(what, pm_copy_bytes(*s, s, found, count), PM_DONE);
    want(what, memcmp(found, bytes, count) != 0, 0);
}

/* Every call of a handle that isn't live. */
static void no_session(void) {
    pm_session none = {0}, s = {(void *)1, false};
    uint8_t byte[1] = {7};
    pm_tree tree[1] = {{.kind = 7}};
    pm_piece piece[1] = {{.kind = 7}};
    want("free", pm_session_free(none), PM_NOT_LIVE);
    want("parse", pm_parse(none, &s, TEXT("x")).code, PM_NOT_LIVE);
    want("stream_free", pm_stream_free(none, &s, 0), PM_NOT_LIVE);
    want("print", pm_print(none, &s, 0).code, PM_NOT_LIVE);
    want("reprint", pm_reprint(none, &s, TEXT("x")).code, PM_NOT_LIVE);
    want("list", pm_list(none, &s, 0).code, PM_NOT_LIVE);
    want("pieces", pm_pieces(none, &s, TEXT("x")).code, PM_NOT_LIVE);
    want("copy_text", pm_copy_text(none, &s, byte, 1), PM_NOT_LIVE);
    want("copy_bytes", pm_copy_bytes(none, &s, byte, 1), PM_NOT_LIVE);
    want("copy_trees", pm_copy_trees(none, &s, tree, 1), PM_NOT_LIVE);
    want("copy_pieces", pm_copy_pieces(none, &s, piece, 1), PM_NOT_LIVE);
    want("read_literal", pm_read_literal(none, &s, TEXT("1")).code, PM_NOT_LIVE);
    want("string", pm_string(none, &s, TEXT("x")).code, PM_NOT_LIVE);
    want("character", pm_character(none, &s, 'x').code, PM_NOT_LIVE);
    want("byte_character", pm_byte_character(none, &s, 'x').code, PM_NOT_LIVE);
    want("byte_string", pm_byte_string(none, &s, TEXT("x")).code, PM_NOT_LIVE);
    want("c_string", pm_c_string(none, &s, TEXT("x")).code, PM_NOT_LIVE);
    want("str_value", pm_str_value(none, &s, TEXT("\"\"")).code, PM_NOT_LIVE);
    want("byte_str_value", pm_byte_str_value(none, &s, TEXT("b\"\"")).code, PM_NOT_LIVE);
    want("cstr_value", pm_cstr_value(none, &s, TEXT("c\"\"")).code, PM_NOT_LIVE);
    want("line_column_of", pm_line_column_of(none, &s, 0).code, PM_NOT_LIVE);
    want("byte_range", pm_byte_range(none, &s, 0, 0).code, PM_NOT_LIVE);
    want("source_text", pm_source_text(none, &s, 0, 0).code, PM_NOT_LIVE);
    want("file_name", pm_file_name(none, &s, 0, 0).code, PM_NOT_LIVE);
    want("join", pm_join(none, &s, 0, 0, 0, 0).code, PM_NOT_LIVE);
    want("forget", pm_forget(none, &s), PM_NOT_LIVE);
    want("the handle isn't written", s.at == (void *)1, true);
    want("nor are buffers", byte[0] == 7 && tree[0].kind == 7 && piece[0].kind == 7, true);
}

/* Streams: read, listed, printed, let go. */
static void streams(pm_session *s) {
    want("no bytes of UTF-8", pm_parse(*s, s, TEXT("\xff")).code, PM_NOT_UTF8);
    want("a new session begins at 1", pm_line_column_of(*s, s, 1).code, PM_NOT_HELD);
    pm_answer fault = pm_parse(*s, s, TEXT("a ( b"));
    want("fault", fault.code, PM_FAULT);
    want("where", fault.number, 3);
    want("the text is a file", pm_line_column_of(*s, s, 6).code, PM_DONE);
    pm_answer first = pm_parse(*s, s, TEXT("f(x)"));
    pm_answer second = pm_parse(*s, s, TEXT("+= 'a' r#fn"));
    want("parse", first.code, PM_DONE);
    want("parse", second.code, PM_DONE);
    want("other numbers", first.number != second.number, true);
    want_text("print", s, pm_print(*s, s, first.number), "f (x)");
    pm_answer listed = pm_list(*s, s, second.number);
    want("list", listed.code, PM_DONE);
    want("records", listed.number, 4);
    want_text("texts", s, listed, "'a'r#fn");
    pm_tree trees[5];
    memset(trees, 9, sizeof trees);
    want("too short", pm_copy_trees(*s, s, trees, 3), PM_NO_ROOM);
    want("too long", pm_copy_trees(*s, s, trees, 5), PM_NO_ROOM);
    want("neither is written", trees[0].kind, 9);
    want("copy_trees", pm_copy_trees(*s, s, trees, 4), PM_DONE);
    want("not past the end", trees[4].kind, 9);
    want("a mark", trees[0].kind, 2);
    want("is joint", trees[0].detail, 1);
    want("its character", trees[0].start, '+');
    want("a literal", trees[2].kind, 3);
    want("its bytes", trees[2].count, 3);
    want("a name begins", trees[3].start, 3);
    want("and ends", trees[3].hi - trees[3].lo, 4);
    want("no stream", pm_print(*s, s, 77).code, PM_NO_STREAM);
    want("no stream", pm_list(*s, s, 4294967295u).code, PM_NO_STREAM);
    want("no stream", pm_stream_free(*s, s, 77), PM_NO_STREAM);
    want("stream_free", pm_stream_free(*s, s, first.number), PM_DONE);
    want("a stream that is gone", pm_stream_free(*s, s, first.number), PM_NO_STREAM);
    want("the other stays", pm_print(*s, s, second.number).code, PM_DONE);
    want_text("reprint", s, pm_reprint(*s, s, TEXT("a /* */ +b")), "a + b");
    pm_answer stray = pm_reprint(*s, s, TEXT("a ]"));
    want("reprint", stray.code, PM_FAULT);
    want("counts from 1", stray.number, 3);
    want("reprint", pm_reprint(*s, s, TEXT("\xc3")).code, PM_NOT_UTF8);
    want_text("the text stays", s, (pm_answer){.code = PM_DONE, .bytes = 5}, "a + b");
}

/* Pieces, and buffers of other lengths. */
static void pieces(pm_session *s) {
    pm_answer listed = pm_pieces(*s, s, TEXT("\xef\xbb\xbf/*x*/ //! d\n(r#a-1'b') \\"));
    static const uint8_t kinds[] = {0, 2, 1, 3, 1, 4, 8, 7, 6, 6, 5, 1};
    pm_piece found[13] = {{.kind = 9}};
    want("pieces", listed.code, PM_DONE);
    want("up to where none stands", listed.bytes, 26);
    want("how many", listed.number, sizeof kinds);
    want("no room", pm_copy_pieces(*s, s, found, sizeof kinds + 1), PM_NO_ROOM);
    want("unwritten", found[0].kind, 9);
    want("copy_pieces", pm_copy_pieces(*s, s, found, sizeof kinds), PM_DONE);
    for (size_t i = 0, at = 0; i < sizeof kinds; at += found[i++].count) {
        want("kind", found[i].kind, kinds[i]);
        want("begins where the last ends", found[i].start, at);
    }
    want("an inner doc comment", found[3].detail, 1);
    want("a raw name", found[6].detail, 1);
    want("pieces", pm_pieces(*s, s, TEXT("\x80")).code, PM_NOT_UTF8);
    want("no pieces", pm_pieces(*s, s, TEXT("")).number, 0);
}

/* A text, its reason, and where it is told. */
static void want_reason(const char *text, uint32_t reason, size_t fault, size_t start, size_t end) {
    pm_explanation told = pm_explain((const uint8_t *)text, strlen(text));
    want(text, told.code, PM_DONE);
    want(text, told.reason, reason);
    want("the fault", told.fault, fault);
    want("it begins", told.start, start);
    want("it ends", told.end, end);
}

/* Why texts don't parse. */
static void reasons(void) {
    want_reason("fn f() { 'x' }", 0, 0, 0, 0);
    want_reason("a /* b", PM_REASON_UNCLOSED_COMMENT, 2, 2, 4);
    want_reason("/// a\rb", PM_REASON_BARE_RETURN_IN_DOC, 0, 5, 6);
    want_reason("a \"b", PM_REASON_UNCLOSED_STRING, 2, 2, 3);
    want_reason("r#\"a\"", PM_REASON_UNCLOSED_RAW_STRING, 0, 0, 3);
    want_reason("r#~", PM_REASON_HASHES_WITHOUT_QUOTE, 0, 2, 3);
    want_reason("r#self", PM_REASON_RESERVED_RAW_NAME, 0, 0, 6);
    want_reason("'+", PM_REASON_UNCLOSED_CHARACTER, 0, 0, 1);
    want_reason("'1a", PM_REASON_DIGIT_LIFETIME, 0, 0, 3);
    want_reason("'a#", PM_REASON_HASH_AFTER_LIFETIME, 0, 2, 3);
    want_reason("\xc3\xa9 0x", PM_REASON_NO_DIGITS, 3, 3, 5);
    want_reason("0b12", PM_REASON_BAD_DIGIT, 0, 3, 4);
    want_reason("a\xef\xbb\xbf", PM_REASON_MISPLACED_MARK, 1, 1, 4);
    want_reason("a \x01", PM_REASON_NO_TOKEN, 2, 2, 3);
    want_reason("a)", PM_REASON_STRAY_CLOSER, 1, 1, 2);
    want_reason("{ (]", PM_REASON_MISMATCHED_CLOSER, 3, 3, 4);
    want_reason("[a (b", PM_REASON_UNCLOSED_OPENER, 3, 3, 4);
    want_reason("\"a\\q\"", PM_REASON_CONTENT, 0, 3, 4);
    want("the content's fault", pm_explain(TEXT("\"a\\q\"")).detail, PM_ESCAPE_INVALID_ESCAPE);
    want("a digit to the base 16 in two", pm_explain(TEXT("\"\\x4g\"")).detail, PM_ESCAPE_INVALID_CHAR_IN_HEX_ESCAPE);
    want("one in braces", pm_explain(TEXT("\"\\u{12g}\"")).detail, PM_ESCAPE_INVALID_CHAR_IN_UNICODE_ESCAPE);
    pm_explanation told = pm_explain(TEXT("{ [ (]"));
    want("the innermost opener", told.opener_start, 4);
    want("its end", told.opener_end, 5);
    told = pm_explain(TEXT("a)"));
    want("no opener", told.opener_end, 0);
    want("no text", pm_explain(TEXT("\xff")).code, PM_NOT_UTF8);
}

/* Names and literals. */
static void literals(pm_session *s) {
    want("name", pm_ident_check(TEXT("abc"), false), PM_DONE);
    want("raw name", pm_ident_check(TEXT("fn"), true), PM_DONE);
    want("empty", pm_ident_check(TEXT(""), false), PM_NAME_EMPTY);
    want("number", pm_ident_check(TEXT("255"), false), PM_NAME_NUMBER);
    want("invalid", pm_ident_check(TEXT("a#"), false), PM_NAME_INVALID);
    want("reserved", pm_ident_check(TEXT("self"), true), PM_NAME_RESERVED);
    want("no text", pm_ident_check(TEXT("\xff"), false), PM_NOT_UTF8);
    want("literal", pm_literal_check(TEXT("-1u8")), PM_DONE);
    want("no literal", pm_literal_check(TEXT("- 1")), PM_NO_LITERAL);
    want("no text", pm_literal_check(TEXT("\xff")), PM_NOT_UTF8);
    pm_answer read = pm_read_literal(*s, s, TEXT("'\xc3\xa9'"));
    want("read_literal", read.code, PM_DONE);
    want("its characters", read.bytes, 3);
    want("no literal", pm_read_literal(*s, s, TEXT("x")).code, PM_NO_LITERAL);
    want("no text", pm_read_literal(*s, s, TEXT("\xff")).code, PM_NOT_UTF8);
    want_text("string", s, pm_string(*s, s, TEXT("a\tb")), "\"a\\tb\"");
    want("string", pm_string(*s, s, TEXT("\xff")).code, PM_NOT_UTF8);
    want_text("character", s, pm_character(*s, s, 0x7f), "'\\u{7f}'");
    want("character", pm_character(*s, s, 0xd800).code, PM_NO_CHARACTER);
    want("character", pm_character(*s, s, 4294967295u).code, PM_NO_CHARACTER);
    want_text("byte_character", s, pm_byte_character(*s, s, 0x1f), "b'\\x1F'");
    want_text("byte_string", s, pm_byte_string(*s, s, TEXT("\xff")), "b\"\\xFF\"");
    want_text("c_string", s, pm_c_string(*s, s, TEXT("a")), "c\"a\"");
    want("c_string", pm_c_string(*s, s, TEXT("a\0b")).code, PM_NO_CHARACTER);
    want_bytes("byte_str_value", s, pm_byte_str_value(*s, s, TEXT("b\"\\xffa\"")), "\xff" "a", 2);
    want_bytes("cstr_value", s, pm_cstr_value(*s, s, TEXT("c\"a\"")), "a", 2);
    want_text("str_value", s, pm_str_value(*s, s, TEXT("\"a\\x41\"")), "aA");
    want("other kind", pm_str_value(*s, s, TEXT("1")).code, PM_OTHER_KIND);
    want("other kind", pm_byte_str_value(*s, s, TEXT("\"\"")).code, PM_OTHER_KIND);
    want("other kind", pm_cstr_value(*s, s, TEXT("\"\"")).code, PM_OTHER_KIND);
    pm_answer escape = pm_str_value(*s, s, TEXT("\"a\r\nb\""));
    want("fault of a content", escape.code, PM_NOT_UNESCAPED);
    want("which", escape.number, PM_ESCAPE_BARE_CARRIAGE_RETURN);
    want("no literal", pm_cstr_value(*s, s, TEXT("x y")).code, PM_NO_LITERAL);
    want("no text", pm_byte_str_value(*s, s, TEXT("\xff")).code, PM_NOT_UTF8);
    want_bytes("the bytes stay", s, (pm_answer){.code = PM_DONE, .bytes = 2}, "a", 2);
    want_text("and the text", s, (pm_answer){.code = PM_DONE, .bytes = 2}, "aA");
}

/* Look-ups, after two texts at 1..4 and 5..7. */
static void look_ups(pm_session *s) {
    want("forget", pm_forget(*s, s), PM_DONE);
    want("nothing is held", pm_line_column_of(*s, s, 1).code, PM_NOT_HELD);
    want("parse", pm_parse(*s, s, TEXT("a\n\xc3\xa9")).code, PM_DONE);
    want("parse", pm_parse(*s, s, TEXT("bc")).code, PM_DONE);
    pm_line_column at = pm_line_column_of(*s, s, 3);
    want("line", at.line, 2);
    want("column", at.column, 0);
    want("held", pm_line_column_of(*s, s, 7).code, PM_DONE);
    want("not held", pm_line_column_of(*s, s, 8).code, PM_NOT_HELD);
    pm_range bytes = pm_byte_range(*s, s, 3, 4);
    want("start", bytes.start, 2);
    want("end", bytes.end, 4);
    want("an empty span", pm_byte_range(*s, s, 4, 4).code, PM_DONE);
    want("the wrong order", pm_byte_range(*s, s, 2, 1).code, PM_NOT_HELD);
    want("two texts", pm_byte_range(*s, s, 3, 5).code, PM_NOT_HELD);
    want_text("source_text", s, pm_source_text(*s, s, 3, 4), "\xc3\xa9");
    want_text("of an empty span", s, pm_source_text(*s, s, 1, 1), "");
    want("of 0..0", pm_source_text(*s, s, 0, 0).code, PM_NOT_HELD);
    want_text("file_name", s, pm_file_name(*s, s, 5, 7), "<parsed string 2>");
    want("file_name", pm_file_name(*s, s, 5, 8).code, PM_NOT_HELD);
    pm_range joined = pm_join(*s, s, 3, 4, 1, 2);
    want("join", joined.code, PM_DONE);
    want("from", joined.start, 1);
    want("to", joined.end, 4);
    want("join", pm_join(*s, s, 9, 9, 1, 2).code, PM_NOT_HELD);
    want("two texts", pm_join(*s, s, 1, 2, 5, 6).code, PM_NOT_JOINED);
    want("the wrong order", pm_join(*s, s, 1, 2, 2, 1).code, PM_NOT_JOINED);
}

/* A text of 4294967296 bytes, all of them zero. */
static void long_text(pm_session *s) {
    size_t bytes = (size_t)1 << 32;
    const uint8_t *text = mmap(NULL, bytes, PROT_READ, MAP_PRIVATE | MAP_ANONYMOUS | MAP_NORESERVE, -1, 0);
    if (text == MAP_FAILED) {
        puts("no 4 GB of addresses: the rows of long texts are left out");
        return;
    }
    want("pieces", pm_pieces(*s, s, text, bytes).code, PM_TOO_LONG);
    want("parse", pm_parse(*s, s, text, bytes).code, PM_MAP_FULL);
    want("reprint", pm_reprint(*s, s, text, bytes - 1).code, PM_MAP_FULL);
    want("read_literal", pm_read_literal(*s, s, text, bytes).code, PM_MAP_FULL);
    want("explain", pm_explain(text, bytes - 1).code, PM_MAP_FULL);
    munmap((void *)text, bytes);
}

/* A call of a fresh session that takes memory. */
static uint32_t one_call(int number, pm_session *s, uint32_t stream) {
    switch (number) {
    case 0: return pm_parse(*s, s, TEXT("f(x, \"y\") // z\n")).code;
    case 1: return pm_print(*s, s, stream).code;
    case 2: return pm_list(*s, s, stream).code;
    case 3: return pm_reprint(*s, s, TEXT("f ( x )")).code;
    case 4: return pm_pieces(*s, s, TEXT("f ( x )")).code;
    case 5: return pm_read_literal(*s, s, TEXT("\"a text that has more than some bytes\"")).code;
    case 6: return pm_string(*s, s, TEXT("a text that has more than some bytes")).code;
    case 7: return pm_byte_string(*s, s, TEXT("a text that has more than some bytes")).code;
    case 8: return pm_c_string(*s, s, TEXT("a text that has more than some bytes")).code;
    case 9: return pm_character(*s, s, 'x').code;
    case 10: return pm_byte_character(*s, s, 'x').code;
    case 11: return pm_str_value(*s, s, TEXT("\"a text that has more than some bytes\"")).code;
    case 12: return pm_byte_str_value(*s, s, TEXT("b\"a text that has more than some bytes\"")).code;
    case 13: return pm_cstr_value(*s, s, TEXT("c\"a text that has more than some bytes\"")).code;
    case 14: return pm_source_text(*s, s, 1, 3).code;
    case 15: return pm_file_name(*s, s, 1, 3).code;
    case 16: return pm_explain(TEXT("((")).code;
    default: return pm_ident_check(TEXT("a_name_that_has_more_than_some_bytes"), false);
    }
}

/* Each call with no memory, with one block, and so on: it answers that memory ran out exactly where the heap refused,
 * its stream stays, and it is done once there is memory. */
static void no_memory(void) {
    for (int number = 0; number <= 17; number++) {
        uint32_t code = PM_NO_MEMORY;
        for (long given = 0; code != PM_DONE && given < 100; given++) {
            pm_session s = {0};
            want("new", pm_session_new(&s), PM_DONE);
            pm_answer stream = pm_parse(s, &s, TEXT("some (names + 1)"));
            refused = false;
            blocks = given;
            code = one_call(number, &s, stream.number);
            blocks = -1;
            want("the heap refused", code, refused ? PM_NO_MEMORY : PM_DONE);
            want_text("the stream stays", &s, pm_print(s, &s, stream.number), "some (names + 1)");
            want("free", pm_session_free(s), PM_DONE);
        }
        want("done with memory", code, PM_DONE);
    }
    pm_session s = {(void *)1, false};
    blocks = 0;
    want("no session", pm_session_new(&s), PM_NO_MEMORY);
    blocks = -1;
    want("unwritten", s.at == (void *)1, true);
}

int main(int count, char **words) {
    pm_session s = {0};
    want("new", pm_session_new(&s), PM_DONE);
    if (count > 1 && strcmp(words[1], "twice") == 0) {
        want("free", pm_session_free(s), PM_DONE);
        return (int)pm_session_free(s);
    }
    no_session();
    streams(&s);
    pieces(&s);
    reasons();
    literals(&s);
    look_ups(&s);
    long_text(&s);
    want("free", pm_session_free(s), PM_DONE);
    no_memory();
    printf("%d rows, %d wrong\n", rows, wrong);
    return wrong ? 1 : 0;
}
