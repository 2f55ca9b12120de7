// Loaded before a program, this refuses what it asks of the C library, by numbers or by names, and keeps an account in a file.
//
// REFUSE       growth, call, short, interrupt or bytes: what happens to the growth, or the read, write or sync, of the number
//              REFUSE_AT, as the program makes them, counted from 1. A growth and a call are refused, a read or write of several
//              bytes moves one (short), is interrupted, or each of them moves one (bytes, which takes no number).
// REFUSE_FILE  the file of the account, which is there and as long as one.
// REFUSED      a call that is refused: fsync, rename, fchmod, chown, write N (of those into files), open NAME or open new; or what
//              all writes into files are: interrupted, short or slow.
#define _GNU_SOURCE
#include <errno.h>
#include <fcntl.h>
#include <link.h>
#include <stdarg.h>
#include <stdio.h>
#include <stdlib.h>
#include <string.h>
#include <sys/mman.h>
#include <sys/stat.h>
#include <sys/syscall.h>
#include <sys/uio.h>
#include <unistd.h>

extern void *__libc_malloc(size_t);
extern void *__libc_realloc(void *, size_t);

// How many growths and calls there were, and whether one was refused.
static struct account { size_t growths, calls, refused; } *account;

static const char *what = "", *named = "";
static size_t which;
static uintptr_t low = ~0ul, high;

static int main_program(struct dl_phdr_info *object, size_t size, void *unused) {
    for (int i = 0; i < object->dlpi_phnum; i++) {
        const ElfW(Phdr) *part = object->dlpi_phdr + i;
        uintptr_t begin = object->dlpi_addr + part->p_vaddr;
        if (part->p_type == PT_LOAD && begin < low) low = begin;
        if (part->p_type == PT_LOAD && begin + part->p_memsz > high) high = begin + part->p_memsz;
    }
    return 1;
}

__attribute__((constructor)) static void begin(void) {
    const char *kind = getenv("REFUSE"), *number = getenv("REFUSE_AT"), *file = getenv("REFUSE_FILE"), *call = getenv("REFUSED");
    named = call ? call : "";
    int opened = file ? (int)syscall(SYS_open, file, O_RDWR) : -1;
    if (!kind || opened < 0) return;
    what = kind;
    which = number ? strtoul(number, NULL, 10) : 0;
    account = mmap(0, sizeof *account, PROT_READ | PROT_WRITE, MAP_SHARED, opened, 0);
    if (account == MAP_FAILED) account = NULL;
    dl_iterate_phdr(main_program, 0);
}

static int is(const char *name) { return strcmp(what, name) == 0; }
static int is_named(const char *call) { return strcmp(named, call) == 0; }

static int fails(int error) {
    errno = error;
    return -1;
}

// Whether the program itself calls, and no library for it.
static int is_own(void *caller) { return account && (uintptr_t)caller >= low && (uintptr_t)caller < high; }

static int is_refused_growth(void *caller) {
    if (!is_own(caller) || __atomic_add_fetch(&account->growths, 1, 5) != which || !is("growth")) return 0;
    account->refused = 1;
    errno = ENOMEM;
    return 1;
}

void *malloc(size_t size) { return is_refused_growth(__builtin_return_address(0)) ? 0 : __libc_malloc(size); }

void *realloc(void *old, size_t size) { return is_refused_growth(__builtin_return_address(0)) ? 0 : __libc_realloc(old, size); }

// Whether the call ends here with an error. Else a length of several bytes may become one.
static int is_refused_call(void *caller, size_t *length) {
    if (!is_own(caller)) return 0;
    int is_one = __atomic_add_fetch(&account->calls, 1, 5) == which;
    if (*length > 1 && (is("bytes") || (is("short") && is_one))) {
        *length = 1;
        account->refused = 1;
    }
    if (!is_one || !(is("call") || is("interrupt"))) return 0;
    account->refused = 1;
    errno = is("call") ? EIO : EINTR;
    return 1;
}

// The same of a write into a file, by its name.
static int is_refused_write(int file, size_t *length) {
    static int writes;
    if (file <= 2) return 0;
    char call[32];
    snprintf(call, sizeof call, "write %d", ++writes);
    if (is_named(call)) return fails(ENOSPC);
    if (is_named("interrupted") && writes % 2 == 1) return fails(EINTR);
    if (is_named("slow")) usleep(2000);
    if (is_named("short") && *length > 7) *length = 7;
    return 0;
}

ssize_t read(int file, void *bytes, size_t length) {
    return is_refused_call(__builtin_return_address(0), &length) ? -1 : syscall(SYS_read, file, bytes, length);
}

ssize_t write(int file, const void *bytes, size_t length) {
    if (is_refused_call(__builtin_return_address(0), &length) || is_refused_write(file, &length)) return -1;
    return syscall(SYS_write, file, bytes, length);
}

ssize_t writev(int file, const struct iovec *parts, int count) {
    size_t length = 0;
    const struct iovec *first = parts;
    for (int i = 0; i < count; i++) {
        if (!first->iov_len) first = parts + i;
        length += parts[i].iov_len;
    }
    size_t whole = length;
    if (is_refused_call(__builtin_return_address(0), &length)) return -1;
    return length < whole ? syscall(SYS_write, file, first->iov_base, length) : syscall(SYS_writev, file, parts, count);
}

static int synced(void *caller, long number, int file) {
    size_t none = 0;
    if (is_refused_call(caller, &none)) return -1;
    return is_named("fsync") ? fails(EIO) : (int)syscall(number, file);
}

int fsync(int file) { return synced(__builtin_return_address(0), SYS_fsync, file); }

int fdatasync(int file) { return synced(__builtin_return_address(0), SYS_fdatasync, file); }

int rename(const char *from, const char *to) {
    if (is_named("slow")) usleep(20000);
    return is_named("rename") ? fails(EIO) : (int)syscall(SYS_rename, from, to);
}

int fchmod(int file, mode_t mode) { return is_named("fchmod") ? fails(EPERM) : (int)syscall(SYS_fchmod, file, mode); }

int chown(const char *path, uid_t user, gid_t group) {
    return is_named("chown") ? fails(EPERM) : (int)syscall(SYS_chown, path, user, group);
}

static int opened(const char *path, int flags, va_list rest) {
    mode_t mode = flags & O_CREAT ? va_arg(rest, mode_t) : 0;
    const char *base = strrchr(path, '/');
    char call[64];
    snprintf(call, sizeof call, "open %s", base ? base + 1 : path);
    if ((flags & O_EXCL) && is_named("open new")) return fails(ENOSPC);
    return is_named(call) ? fails(ENOMEM) : (int)syscall(SYS_open, path, flags, mode);
}

int open(const char *path, int flags, ...) {
    va_list rest;
    va_start(rest, flags);
    return opened(path, flags, rest);
}

int open64(const char *path, int flags, ...) {
    va_list rest;
    va_start(rest, flags);
    return opened(path, flags, rest);
}
