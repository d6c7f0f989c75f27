/* Refuses one allocation, read, write or thread of the program that it is preloaded into, for tools/refused.py.
 *
 * REFUSE is alloc:N, read:N, write:N or thread:N, with N from 1: the Nth call of that kind fails, and no other. REFUSE_COUNT names a file of
 * 32 bytes, in which the calls of each kind are counted. Calls that the C library makes for itself are neither counted nor refused.
 */
#define _GNU_SOURCE
#include <dlfcn.h>
#include <errno.h>
#include <fcntl.h>
#include <link.h>
#include <pthread.h>
#include <stdint.h>
#include <stdlib.h>
#include <string.h>
#include <sys/mman.h>
#include <unistd.h>

enum kind { ALLOC, READ, WRITE, THREAD, KINDS };

static const char *const NAMES[] = {"alloc:", "read:", "write:", "thread:"};
static uint64_t spare[KINDS];
static uint64_t *counts = spare;
static int refused_kind = -1;
static uint64_t refused_call;
static uintptr_t low, high;

static int note_program(struct dl_phdr_info *info, size_t size, void *data) {
    (void)size, (void)data;
    for (int i = 0; i < info->dlpi_phnum; i++) {
        const ElfW(Phdr) *part = &info->dlpi_phdr[i];
        if (part->p_type == PT_LOAD && part->p_flags & PF_X) {
            low = info->dlpi_addr + part->p_vaddr;
            high = low + part->p_memsz;
        }
    }
    return 1; /* the first one is the program */
}

__attribute__((constructor)) static void begin(void) {
    const char *path = getenv("REFUSE_COUNT"), *what = getenv("REFUSE");
    int file = path ? open(path, O_RDWR) : -1;
    if (file >= 0) {
        void *at = mmap(0, sizeof spare, PROT_READ | PROT_WRITE, MAP_SHARED, file, 0);
        if (at != MAP_FAILED) counts = at;
        close(file);
    }
    for (int kind = 0; what && kind < KINDS; kind++)
        if (!strncmp(what, NAMES[kind], strlen(NAMES[kind]))) {
            refused_kind = kind;
            refused_call = strtoull(what + strlen(NAMES[kind]), 0, 10);
        }
    dl_iterate_phdr(note_program, 0);
}

static int is_refused(enum kind kind, void *caller) {
    uintptr_t at = (uintptr_t)caller;
    if (at < low || at >= high) return 0;
    uint64_t call = __atomic_add_fetch(&counts[kind], 1, __ATOMIC_SEQ_CST);
    return (int)kind == refused_kind && call == refused_call;
}

#define NEXT(name) ((__typeof__(&name))dlsym(RTLD_NEXT, #name))
#define CALLER __builtin_return_address(0)

extern void *__libc_malloc(size_t), *__libc_realloc(void *, size_t);

void *malloc(size_t size) { return is_refused(ALLOC, CALLER) ? (errno = ENOMEM, (void *)0) : __libc_malloc(size); }

void *realloc(void *old, size_t size) {
    return is_refused(ALLOC, CALLER) ? (errno = ENOMEM, (void *)0) : __libc_realloc(old, size);
}

ssize_t read(int file, void *room, size_t size) {
    return is_refused(READ, CALLER) ? (errno = EIO, -1) : NEXT(read)(file, room, size);
}

ssize_t write(int file, const void *bytes, size_t size) {
    return is_refused(WRITE, CALLER) ? (errno = EIO, -1) : NEXT(write)(file, bytes, size);
}

ssize_t __write(int file, const void *bytes, size_t size) {
    return is_refused(WRITE, CALLER) ? (errno = EIO, -1) : NEXT(write)(file, bytes, size);
}

int pthread_create(pthread_t *thread, const pthread_attr_t *how, void *(*start)(void *), void *given) {
    return is_refused(THREAD, CALLER) ? EAGAIN : NEXT(pthread_create)(thread, how, start, given);
}
