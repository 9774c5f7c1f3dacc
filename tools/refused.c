/* refused: put before the C library (LD_PRELOAD), it refuses a program's requests for memory.

   REFUSED_AT=N   the number of the request that is refused, from 1
   REFUSED_ON     where it is set, all requests from that one on are refused
   REFUSED_TO     a file that is made as the first request is refused

   Only what the program itself asks for counts, and not what the C library asks for, as it starts a thread, say. Compiled by
   tools/refused with the machine's C compiler, for glibc. */
#define _GNU_SOURCE
#include <elf.h>
#include <errno.h>
#include <fcntl.h>
#include <link.h>
#include <stdatomic.h>
#include <stdint.h>
#include <stdlib.h>
#include <sys/auxv.h>
#include <unistd.h>

void *__libc_malloc(size_t);
void *__libc_calloc(size_t, size_t);
void *__libc_realloc(void *, size_t);
void *__libc_memalign(size_t, size_t);

static uintptr_t begin, end;
static unsigned long at;
static int all;
static const char *told;
static atomic_ulong count;

/* Where the program's own code lies, and what is asked for. */
__attribute__((constructor)) static void look(void) {
    const ElfW(Phdr) *heads = (const ElfW(Phdr) *)getauxval(AT_PHDR);
    unsigned long number = getauxval(AT_PHNUM);
    uintptr_t base = 0;
    for (unsigned long i = 0; i < number; i++)
        if (heads[i].p_type == PT_PHDR)
            base = (uintptr_t)heads - heads[i].p_vaddr;
    for (unsigned long i = 0; i < number; i++)
        if (heads[i].p_type == PT_LOAD && (heads[i].p_flags & PF_X)) {
            begin = base + heads[i].p_vaddr;
            end = begin + heads[i].p_memsz;
        }
    told = getenv("REFUSED_TO");
    all = getenv("REFUSED_ON") != NULL;
    at = getenv("REFUSED_AT") ? strtoul(getenv("REFUSED_AT"), NULL, 10) : 0;
}

/* Whether the request of that caller is refused. */
static int is_refused(void *caller) {
    if ((uintptr_t)caller < begin || (uintptr_t)caller >= end || at == 0)
        return 0;
    unsigned long number = atomic_fetch_add(&count, 1) + 1;
    if (number != at && !(all && number > at))
        return 0;
    if (number == at && told) {
        int file = open(told, O_CREAT | O_WRONLY, 0600);
        if (file >= 0)
            close(file);
    }
    errno = ENOMEM;
    return 1;
}

void *malloc(size_t size) {
    return is_refused(__builtin_return_address(0)) ? NULL : __libc_malloc(size);
}

void *calloc(size_t number, size_t size) {
    return is_refused(__builtin_return_address(0)) ? NULL : __libc_calloc(number, size);
}

void *realloc(void *old, size_t size) {
    return is_refused(__builtin_return_address(0)) ? NULL : __libc_realloc(old, size);
}

void *aligned_alloc(size_t align, size_t size) {
    return is_refused(__builtin_return_address(0)) ? NULL : __libc_memalign(align, size);
}

int posix_memalign(void **to, size_t align, size_t size) {
    if (is_refused(__builtin_return_address(0)))
        return ENOMEM;
    *to = __libc_memalign(align, size);
    return *to ? 0 : ENOMEM;
}
