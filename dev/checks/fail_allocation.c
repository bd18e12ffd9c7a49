/* Makes one allocation fail of the program that it is preloaded into, for dev/checks/out_of_memory.
 *
 * An allocation is a call of the C library for new or more memory. Those are counted from the line "call" that the
 * program writes on standard output up to its line "answered"; or, where FAIL_FROM_START is set, from its first
 * instruction on. The one with the number FAIL fails. At the end the number of all that were counted is written to
 * FAIL_COUNT.
 */
#include <errno.h>
#include <fcntl.h>
#include <stdint.h>
#include <stdio.h>
#include <stdlib.h>
#include <string.h>
#include <unistd.h>

extern void *__libc_malloc(size_t), *__libc_calloc(size_t, size_t), *__libc_realloc(void *, size_t);
extern void *__libc_memalign(size_t, size_t);
extern ssize_t __write(int, const void *, size_t);

static unsigned long failing, seen;
static int counting, ended;

static int fails(void) {
    int fail = counting && ++seen == failing;
    if (fail) errno = ENOMEM;
    return fail;
}

void *malloc(size_t bytes) { return fails() ? NULL : __libc_malloc(bytes); }
void *calloc(size_t count, size_t bytes) { return fails() ? NULL : __libc_calloc(count, bytes); }
void *realloc(void *block, size_t bytes) { return fails() ? NULL : __libc_realloc(block, bytes); }
void *memalign(size_t align, size_t bytes) { return fails() ? NULL : __libc_memalign(align, bytes); }
void *aligned_alloc(size_t align, size_t bytes) { return memalign(align, bytes); }

int posix_memalign(void **block, size_t align, size_t bytes) {
    void *made = memalign(align, bytes);
    if (made) *block = made;
    return made ? 0 : ENOMEM;
}

ssize_t write(int file, const void *bytes, size_t count) {
    int is_end = file == 1 && count == 9 && !memcmp(bytes, "answered\n", 9);
    if (is_end) counting = 0, ended = 1;
    ssize_t written = __write(file, bytes, count);
    if (file == 1 && count == 5 && !memcmp(bytes, "call\n", 5)) counting = !ended;
    return written;
}

__attribute__((constructor)) static void begin(void) {
    const char *number = getenv("FAIL");
    failing = number ? strtoul(number, NULL, 10) : 0;
    counting = getenv("FAIL_FROM_START") != NULL;
}

__attribute__((destructor)) static void end(void) {
    const char *path = getenv("FAIL_COUNT");
    int file = path ? open(path, O_WRONLY | O_CREAT | O_TRUNC, 0600) : -1;
    char text[32];
    counting = 0;
    if (file >= 0) __write(file, text, snprintf(text, sizeof text, "%lu\n", seen));
}
