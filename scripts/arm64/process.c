/* The words and errno of the program on 64-bit ARM: what the kit's c/libos_c.a is on x86-64. The proofs assume of these functions what the
 * kit's os/src/c.rt says of them. */
#include <errno.h>
#include <stddef.h>

static int count;
static char **words;

/* The C library passes to constructors what it passes to main. */
__attribute__((constructor)) static void keep(int argc, char **argv)
{
    count = argc;
    words = argv;
}

/* How many words there are, the name of the program among them. */
size_t rattle_arg_count(void) { return (size_t)count; }

/* Puts word i at the start of the buffer and answers its length, -1 where there is no such word, or -2 where it doesn't fit; the buffer is
 * full then. */
ptrdiff_t rattle_arg(size_t i, char *buffer, size_t room)
{
    const char *word;
    size_t length;
    if (i >= (size_t)count) return -1;
    word = words[i];
    if (word == NULL) return -1;
    for (length = 0; word[length] != '\0'; length++) {
        if (length == room) return -2;
        buffer[length] = word[length];
    }
    return (ptrdiff_t)length;
}

int rattle_errno(void) { return errno; }

void rattle_set_errno(int error) { errno = error; }
