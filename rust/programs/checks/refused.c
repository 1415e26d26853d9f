/* Refuses memory to a program that it is preloaded into, according to the variable REFUSED: "12" refuses the 12th
   allocation, "12.." that and all after it, and "=4096" each allocation by which more than 4,096 bytes would be in
   use. */
#include <errno.h>
#include <malloc.h>
#include <stddef.h>
#include <stdlib.h>

void *__libc_malloc(size_t);
void *__libc_calloc(size_t, size_t);
void *__libc_realloc(void *, size_t);
void *__libc_memalign(size_t, size_t);
void __libc_free(void *);

static size_t in_use;

static int is_refused(size_t more) {
    static long count, number = -1;
    static char form;
    if (number < 0) {
        const char *text = getenv("REFUSED");
        char *end = "";
        form = text ? *text : 0;
        number = text ? strtol(text + (form == '='), &end, 10) : 0;
        form = form == '=' ? '=' : *end;
    }
    count++;
    if (form == '=')
        return in_use + more > (size_t)number;
    return number && (count == number || (form == '.' && count > number));
}

static void *counted(void *found) {
    in_use += found ? malloc_usable_size(found) : 0;
    return found;
}

#define OR_REFUSED(size, call) (is_refused(size) ? (errno = ENOMEM, NULL) : counted(call))

void *malloc(size_t size) {
    return OR_REFUSED(size, __libc_malloc(size));
}

void *calloc(size_t count, size_t size) {
    return OR_REFUSED(count * size, __libc_calloc(count, size));
}

void free(void *old) {
    in_use -= old ? malloc_usable_size(old) : 0;
    __libc_free(old);
}

void *realloc(void *old, size_t size) {
    size_t before = old ? malloc_usable_size(old) : 0;
    void *found;
    /* It may allocate the new memory before it frees the old. */
    if (is_refused(size)) {
        errno = ENOMEM;
        return NULL;
    }
    found = __libc_realloc(old, size);
    in_use -= found ? before : 0;
    return counted(found);
}

void *aligned_alloc(size_t alignment, size_t size) {
    return OR_REFUSED(size, __libc_memalign(alignment, size));
}

int posix_memalign(void **found, size_t alignment, size_t size) {
    void *memory = OR_REFUSED(size, __libc_memalign(alignment, size));
    if (!memory)
        return ENOMEM;
    *found = memory;
    return 0;
}
