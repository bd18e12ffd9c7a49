/* Reads a source text from standard input, lists its trees with their lines and columns, and prints it. The status is 0
 * where every answer was as it should be. tests.c asks the other calls. */
#include "pm_c.h"
#include <stdio.h>
#include <stdlib.h>

static int wrong;

/* Counts an answer that isn't the wanted one. */
static void want(const char *what, uint32_t code, uint32_t wanted) {
    if (code != wanted) {
        printf("%s: code %u, and not %u\n", what, code, wanted);
        wrong++;
    }
}

/* The session's text, which the caller frees. */
static char *text_of(pm_session *session, size_t bytes) {
    char *text = calloc(bytes + 1, 1);
    if (!text) exit(3);
    want("copy_text", pm_copy_text(*session, session, (uint8_t *)text, bytes), PM_DONE);
    return text;
}

static void show(pm_session *session, pm_answer listed) {
    pm_tree *trees = calloc(listed.number + 1, sizeof *trees);
    if (!trees) exit(3);
    want("copy_trees", pm_copy_trees(*session, session, trees, listed.number), PM_DONE);
    char *text = text_of(session, listed.bytes);
    for (uint32_t i = 0; i < listed.number; i++) {
        pm_tree t = trees[i];
        pm_line_column from = pm_line_column_of(*session, session, t.lo);
        want("line_column_of", from.code, PM_DONE);
        printf("%zu:%zu ", from.line, from.column);
        switch (t.kind) {
        case 0: printf("group of %u\n", t.count); break;
        case 2: printf("mark U+%04X%s\n", t.start, t.detail ? " joint" : ""); break;
        default: printf("%s %.*s\n", t.kind == 1 ? "identifier" : "literal", (int)t.count, text + t.start);
        }
    }
    free(text);
    free(trees);
}

int main(void) {
    static uint8_t source[1 << 20];
    size_t bytes = fread(source, 1, sizeof source, stdin);
    pm_session s = {0};
    want("new", pm_session_new(&s), PM_DONE);
    pm_answer parsed = pm_parse(s, &s, source, bytes);
    if (parsed.code == PM_FAULT) {
        pm_line_column at = pm_line_column_of(s, &s, parsed.number);
        printf("fault at %zu:%zu\n", at.line, at.column);
    } else {
        want("parse", parsed.code, PM_DONE);
        pm_answer listed = pm_list(s, &s, parsed.number);
        want("list", listed.code, PM_DONE);
        show(&s, listed);
        pm_answer printed = pm_print(s, &s, parsed.number);
        want("print", printed.code, PM_DONE);
        char *text = text_of(&s, printed.bytes);
        puts(text);
        free(text);
    }
    want("free", pm_session_free(s), PM_DONE);
    return wrong ? 1 : 0;
}
