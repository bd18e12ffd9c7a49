/* The heap that the library asks for, over malloc. The toolchain's liblibc_c.a is another. */
#include <stdbool.h>
#include <stddef.h>
#include <stdint.h>
#include <stdlib.h>

/* Whether there was memory, and the block, which is never null. */
typedef struct tried {
    bool ok;
    uint8_t *block;
} tried;

static _Alignas(16) uint8_t none[16];

static tried answer(void *block) {
    return (tried){block != NULL, block ? block : none};
}

tried rattle_alloc(size_t bytes, size_t align) {
    return answer(malloc(bytes ? bytes : align));
}

tried rattle_realloc(uint8_t *block, size_t kept, size_t bytes, size_t align) {
    (void)kept;
    return answer(realloc(block, bytes ? bytes : align));
}

void rattle_dealloc(uint8_t *block) {
    free(block);
}
