/* Memory for the program and the library on 64-bit ARM: what the kit's c/liblibc_c.a is on x86-64. The proofs assume of these functions what
 * the kit's libc/src/heap.rt says of them. */
#include <stdbool.h>
#include <stddef.h>
#include <stdlib.h>

/* An alignment divides 16, so memory of malloc has it. */
_Static_assert(_Alignof(max_align_t) >= 16, "malloc aligns to 16 bytes");

/* Whether there is memory, and the pointer to it. Where there is none the pointer isn't null, and nothing is read or written there. */
struct tried {
    bool ok;
    void *p;
};

static char nothing;

static struct tried tried_of(void *p)
{
    struct tried it = { p != NULL, p != NULL ? p : &nothing };
    return it;
}

/* A block of no bytes has a pointer of its own too, and malloc and realloc may answer null for 0 bytes: so they are asked for `align` bytes. */
struct tried rattle_alloc(size_t n, size_t align) { return tried_of(malloc(n != 0 ? n : align)); }

/* Where there is no memory, the block stays as it was. The first `kept` bytes are to stay, and realloc keeps them all. */
struct tried rattle_realloc(void *p, size_t kept, size_t n, size_t align)
{
    (void)kept;
    return tried_of(realloc(p, n != 0 ? n : align));
}

void rattle_dealloc(void *p) { free(p); }
