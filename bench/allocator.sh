# Sourced by allocations.sh and refused.sh: makes a library that is laid over the allocator of C. It
# counts the calls, fails the one whose number is in REFUSE, and writes the count into the file COUNTED.
#     make_allocator FOLDER      makes FOLDER/allocator.so
make_allocator() {
    cat > "$1/allocator.c" <<'END'
#define _GNU_SOURCE
#include <dlfcn.h>
#include <errno.h>
#include <stdio.h>
#include <stdlib.h>
static long calls, refuse = -1;
static void *next(const char *name) { return dlsym(RTLD_NEXT, name); }
static int is_refused(void) {
    if (refuse < 0) refuse = getenv("REFUSE") ? atol(getenv("REFUSE")) : 0;
    return ++calls == refuse;
}
void *malloc(size_t n) {
    static void *(*real)(size_t);
    if (!real) real = next("malloc");
    return is_refused() ? NULL : real(n);
}
void *realloc(void *p, size_t n) {
    static void *(*real)(void *, size_t);
    if (!real) real = next("realloc");
    return is_refused() ? NULL : real(p, n);
}
void *aligned_alloc(size_t a, size_t n) {
    static void *(*real)(size_t, size_t);
    if (!real) real = next("aligned_alloc");
    return is_refused() ? NULL : real(a, n);
}
int posix_memalign(void **p, size_t a, size_t n) {
    static int (*real)(void **, size_t, size_t);
    if (!real) real = next("posix_memalign");
    return is_refused() ? ENOMEM : real(p, a, n);
}
__attribute__((destructor)) static void tell(void) {
    FILE *f = getenv("COUNTED") ? fopen(getenv("COUNTED"), "w") : NULL;
    if (f) fprintf(f, "%ld\n", calls), fclose(f);
}
END
    cc -O1 -shared -fPIC "$1/allocator.c" -o "$1/allocator.so" -ldl
}
