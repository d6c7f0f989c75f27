/* The functions by which Rattle calls malloc, for processors for which its toolchain has none. build.sh compiles them where it builds for such a
   one. What they answer, and with which arguments they are called, is said in the toolchain's crate `libc`, and is trusted there. */
#include <stdbool.h>
#include <stddef.h>
#include <stdint.h>
#include <stdlib.h>

/* Whether there is memory, and where. Where there is none, the pointer leads to a byte that nobody owns, since it may not be NULL. */
typedef struct {
    bool ok;
    uint8_t *memory;
} tried;

tried rattle_alloc(size_t bytes, size_t alignment);
tried rattle_realloc(uint8_t *memory, size_t kept, size_t bytes, size_t alignment);
void rattle_dealloc(uint8_t *memory);

static uint8_t nothing;

static tried answer(void *memory) { return (tried){memory != NULL, memory ? memory : &nothing}; }

/* No alignment is above 16, which malloc keeps. A value of no bytes gets some all the same: malloc may answer NULL for none. */
tried rattle_alloc(size_t bytes, size_t alignment) { return answer(malloc(bytes ? bytes : alignment)); }

tried rattle_realloc(uint8_t *memory, size_t kept, size_t bytes, size_t alignment)
{
    (void)kept;
    return answer(realloc(memory, bytes ? bytes : alignment));
}

void rattle_dealloc(uint8_t *memory) { free(memory); }
