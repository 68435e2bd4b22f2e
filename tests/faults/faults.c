/* A library to preload, by which one call of a program fails. The tests build it and say what must come of it.
 *
 *   FAULT_CALL=NAME    which calls are counted: memory; input and output, the reads of descriptor 0 and the writes to 1;
 *                      read and write, those of other files; open; create, an open that may make a file and doesn't ask that
 *                      it be new; fsync, and folder, a folder's; rename, remove, close, stat, chmod, chown, link (a link is
 *                      read), path (a path is made real), random
 *   FAULT_AT=N         the Nth of them fails, counted from 1; 0 or nothing: none
 *   FAULT_ON=1         and so does each behind it
 *   FAULT_ERROR=NAME   with this error of the list below, EIO where nothing is given; ZERO: it answers 0; KILL: the program is
 *                      killed there; SWAP: nothing fails, but just before the call each new file of a save in the working folder
 *                      is taken away, and a link of its name to FAULT_SWAP stands there. Memory always fails with ENOMEM
 *   FAULT_ALSO=NAME:ERROR  each call of this name fails too; it is not counted, nor what comes behind it
 *   FAULT_PIECE=N      reads and writes move N bytes at most
 *   FAULT_COUNT=FILE   when the program ends, the number of these calls is written there, and behind it how many reads, writes,
 *                      opens, flushes to disk and renames came after the first that failed
 *
 * Only what the program itself calls is counted, not what the C library calls for itself; and nothing of descriptor 2,
 * where the program says what went wrong.
 */
#define _GNU_SOURCE
#include <dirent.h>
#include <errno.h>
#include <fcntl.h>
#include <limits.h>
#include <link.h>
#include <signal.h>
#include <stdarg.h>
#include <stdio.h>
#include <stdlib.h>
#include <string.h>
#include <sys/stat.h>
#include <sys/syscall.h>
#include <unistd.h>

static uintptr_t program_start, program_end;
static const char *counted_call = "", *swap_target = "";
static char also_call[32];
static unsigned long fail_at, calls, later_calls;
static int fail_on, has_failed, error_number = EIO, also_number, kills, swaps;
static size_t piece;

static const struct {
    const char *name;
    int number;
} errors[] = {
    {"EIO", EIO},     {"EINTR", EINTR},   {"ENOSPC", ENOSPC}, {"EBUSY", EBUSY}, {"EPERM", EPERM},   {"EACCES", EACCES},
    {"EXDEV", EXDEV}, {"EINVAL", EINVAL}, {"ENOSYS", ENOSYS}, {"EROFS", EROFS}, {"EMFILE", EMFILE}, {"ZERO", 0},
};

static int number_of(const char *name) {
    for (size_t i = 0; i < sizeof errors / sizeof *errors; i++)
        if (!strcmp(errors[i].name, name)) return errors[i].number;
    return EIO;
}

/* The first object that the loader lists is the program. */
static int find_program(struct dl_phdr_info *info, size_t size, void *data) {
    (void)size;
    (void)data;
    program_start = info->dlpi_addr;
    for (int i = 0; i < info->dlpi_phnum; i++) {
        uintptr_t end = info->dlpi_addr + info->dlpi_phdr[i].p_vaddr + info->dlpi_phdr[i].p_memsz;
        if (info->dlpi_phdr[i].p_type == PT_LOAD && end > program_end) program_end = end;
    }
    return 1;
}

__attribute__((constructor)) static void begin(void) {
    const char *text;
    dl_iterate_phdr(find_program, NULL);
    if ((text = getenv("FAULT_CALL"))) counted_call = text;
    if ((text = getenv("FAULT_AT"))) fail_at = strtoul(text, NULL, 10);
    if ((text = getenv("FAULT_ON"))) fail_on = *text == '1';
    if ((text = getenv("FAULT_PIECE"))) piece = strtoul(text, NULL, 10);
    if ((text = getenv("FAULT_SWAP"))) swap_target = text;
    if ((text = getenv("FAULT_ERROR"))) {
        error_number = number_of(text);
        kills = !strcmp(text, "KILL");
        swaps = !strcmp(text, "SWAP");
    }
    if ((text = getenv("FAULT_ALSO")) && strchr(text, ':')) {
        snprintf(also_call, sizeof also_call, "%.*s", (int)strcspn(text, ":"), text);
        also_number = number_of(strchr(text, ':') + 1);
    }
}

__attribute__((destructor)) static void end(void) {
    const char *path = getenv("FAULT_COUNT");
    char text[64];
    int length, file;
    if (!path) return;
    length = snprintf(text, sizeof text, "%lu %lu\n", calls, later_calls);
    file = (int)syscall(SYS_openat, AT_FDCWD, path, O_WRONLY | O_CREAT | O_TRUNC, 0644);
    if (file < 0) return;
    syscall(SYS_write, file, text, length);
    syscall(SYS_close, file);
}

/* The owner of a folder may do so: the new file's name is given to a link. */
static void swap(void) {
    DIR *folder = opendir(".");
    struct dirent *entry;
    while (folder && (entry = readdir(folder))) {
        if (strncmp(entry->d_name, ".puzzles.", 9)) continue;
        syscall(SYS_unlinkat, AT_FDCWD, entry->d_name, 0);
        syscall(SYS_symlinkat, swap_target, AT_FDCWD, entry->d_name);
    }
    if (folder) closedir(folder);
}

static int fails_with(int number) {
    errno = number;
    return 1;
}

/* Whether this call of the program is to fail. */
static int fails(const char *name) {
    if (!strcmp(also_call, name)) return fails_with(also_number);
    if (strcmp(counted_call, name)) return 0;
    calls++;
    if (!fail_at || (fail_on ? calls < fail_at : calls != fail_at)) return 0;
    if (kills) kill(getpid(), SIGKILL);
    if (swaps) return swap(), 0;
    has_failed = 1;
    return fails_with(error_number);
}

/* The answer of a read or write that fails. */
#define FAULT (errno ? -1 : 0)

static size_t short_count(size_t count) { return piece && count > piece ? piece : count; }

/* Whether the program itself makes this call. */
#define CALLER ((uintptr_t)__builtin_return_address(0))
#define IN_PROGRAM (CALLER >= program_start && CALLER < program_end)
#define FAILS(name) (IN_PROGRAM && (later_calls += has_failed, fails(name)))
#define QUIETLY_FAILS(name) (IN_PROGRAM && fails(name))

extern void *__libc_malloc(size_t), *__libc_realloc(void *, size_t), *__libc_calloc(size_t, size_t), *__libc_memalign(size_t, size_t);

static void *no_memory(void) {
    errno = ENOMEM;
    return NULL;
}

void *malloc(size_t size) { return QUIETLY_FAILS("memory") ? no_memory() : __libc_malloc(size); }
void *calloc(size_t count, size_t size) { return QUIETLY_FAILS("memory") ? no_memory() : __libc_calloc(count, size); }
void *realloc(void *old, size_t size) { return QUIETLY_FAILS("memory") ? no_memory() : __libc_realloc(old, size); }
void *aligned_alloc(size_t align, size_t size) { return QUIETLY_FAILS("memory") ? no_memory() : __libc_memalign(align, size); }
int posix_memalign(void **to, size_t align, size_t size) {
    if (QUIETLY_FAILS("memory")) return ENOMEM;
    *to = __libc_memalign(align, size);
    return *to ? 0 : ENOMEM;
}

ssize_t read(int file, void *buffer, size_t count) {
    if (FAILS(file == 0 ? "input" : "read")) return FAULT;
    return syscall(SYS_read, file, buffer, IN_PROGRAM ? short_count(count) : count);
}

ssize_t write(int file, const void *bytes, size_t count) {
    if (file != 2 && FAILS(file == 1 ? "output" : "write")) return FAULT;
    return syscall(SYS_write, file, bytes, IN_PROGRAM && file != 2 ? short_count(count) : count);
}
ssize_t __write(int, const void *, size_t) __attribute__((alias("write")));

static int open_at(int folder, const char *path, int flags, va_list more) {
    mode_t mode = (flags & O_CREAT) || (flags & O_TMPFILE) == O_TMPFILE ? va_arg(more, mode_t) : 0;
    return (int)syscall(SYS_openat, folder, path, flags, mode);
}

static const char *open_name(int flags) { return (flags & O_CREAT) && !(flags & O_EXCL) ? "create" : "open"; }

#define OPEN(name, parameters, folder)                 \
    int name parameters {                              \
        va_list more;                                  \
        int file;                                      \
        if (FAILS(open_name(flags))) return -1;        \
        va_start(more, flags);                         \
        file = open_at(folder, path, flags, more);     \
        va_end(more);                                  \
        return file;                                   \
    }
OPEN(open, (const char *path, int flags, ...), AT_FDCWD)
OPEN(open64, (const char *path, int flags, ...), AT_FDCWD)
OPEN(openat, (int folder, const char *path, int flags, ...), folder)
OPEN(openat64, (int folder, const char *path, int flags, ...), folder)

static const char *flush_name(int file) {
    struct stat found;
    return !fstat(file, &found) && S_ISDIR(found.st_mode) ? "folder" : "fsync";
}

int fsync(int file) { return FAILS(flush_name(file)) ? -1 : (int)syscall(SYS_fsync, file); }
int fdatasync(int file) { return FAILS(flush_name(file)) ? -1 : (int)syscall(SYS_fdatasync, file); }
int rename(const char *from, const char *to) {
    return FAILS("rename") ? -1 : (int)syscall(SYS_renameat2, AT_FDCWD, from, AT_FDCWD, to, 0);
}
int unlink(const char *path) { return QUIETLY_FAILS("remove") ? -1 : (int)syscall(SYS_unlinkat, AT_FDCWD, path, 0); }
int chmod(const char *path, mode_t mode) {
    return QUIETLY_FAILS("chmod") ? -1 : (int)syscall(SYS_fchmodat, AT_FDCWD, path, mode);
}
int fchmod(int file, mode_t mode) { return QUIETLY_FAILS("chmod") ? -1 : (int)syscall(SYS_fchmod, file, mode); }
int chown(const char *path, uid_t owner, gid_t group) {
    return QUIETLY_FAILS("chown") ? -1 : (int)syscall(SYS_fchownat, AT_FDCWD, path, owner, group, 0);
}
int lchown(const char *path, uid_t owner, gid_t group) {
    return QUIETLY_FAILS("chown") ? -1 : (int)syscall(SYS_fchownat, AT_FDCWD, path, owner, group, AT_SYMLINK_NOFOLLOW);
}
int fchown(int file, uid_t owner, gid_t group) {
    return QUIETLY_FAILS("chown") ? -1 : (int)syscall(SYS_fchown, file, owner, group);
}
ssize_t readlink(const char *path, char *room, size_t size) {
    return QUIETLY_FAILS("link") ? -1 : syscall(SYS_readlinkat, AT_FDCWD, path, room, size);
}
int getentropy(void *room, size_t size) {
    return QUIETLY_FAILS("random") ? -1 : syscall(SYS_getrandom, room, size, 0) == (long)size ? 0 : -1;
}
int statx(int folder, const char *path, int flags, unsigned int mask, struct statx *to) {
    return QUIETLY_FAILS("stat") ? -1 : (int)syscall(SYS_statx, folder, path, flags, mask, to);
}

/* The C library's own: it asks for memory where no room is given. */
extern char *__realpath_chk(const char *, char *, size_t);
char *realpath(const char *path, char *room) {
    if (QUIETLY_FAILS("path")) return NULL;
    if (!room && QUIETLY_FAILS("memory")) return no_memory();
    if (!room && !(room = __libc_malloc(PATH_MAX))) return NULL;
    return __realpath_chk(path, room, PATH_MAX);
}

/* The file is closed all the same, as Linux does it. */
int close(int file) {
    int failed = QUIETLY_FAILS("close");
    int answer = (int)syscall(SYS_close, file);
    if (!failed) return answer;
    errno = error_number;
    return -1;
}
