/* The functions of C that the programs call, for ARM, for which the kit has none. They do what those of its archives for PCs do (c/libos_c.a, c/liblibc_c.a).
 * No proof covers them, or those; the contracts stand in the kit's libc/src/heap.rt and os/src/c.rt. tests/arm compares both. */
#include <errno.h>
#include <fcntl.h>
#include <stddef.h>
#include <stdlib.h>

/* Rust's layout of a bool and an address, as both are answered in registers. The address is never null. */
struct tried {
    unsigned long is_there;
    void *at;
};

static struct tried tried(void *at)
{
    static char nothing;
    return (struct tried){at != NULL, at ? at : &nothing};
}

/* A block of no bytes is one all the same: it has as many as its alignment, and realloc then frees nothing. */
struct tried rattle_alloc(size_t bytes, size_t align) { return tried(malloc(bytes ? bytes : align)); }

struct tried rattle_realloc(void *at, size_t kept, size_t bytes, size_t align)
{
    (void)kept;
    return tried(realloc(at, bytes ? bytes : align));
}

void rattle_dealloc(void *at) { free(at); }

int rattle_errno(void) { return errno; }
void rattle_set_errno(int error) { errno = error; }

int rattle_open_dir_at(int folder, const char *name) { return openat(folder, name, O_DIRECTORY | O_NOFOLLOW | O_CLOEXEC); }

static size_t count;
static char **words;

/* The C library calls it with the words of the command before main. */
__attribute__((constructor)) static void keep(int argc, char **argv)
{
    count = (size_t)argc;
    words = argv;
}

size_t rattle_arg_count(void) { return count; }

/* The length of a word that was put into a buffer. Where there is none it is -1, and where it doesn't fit -2, with the buffer full. */
ptrdiff_t rattle_arg(size_t at, char *to, size_t room)
{
    size_t length = 0;
    if (at >= count)
        return -1;
    for (; words[at][length]; length++) {
        if (length == room)
            return -2;
        to[length] = words[at][length];
    }
    return (ptrdiff_t)length;
}
