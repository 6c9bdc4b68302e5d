# Refuses a process its allocations and a write, as the system may. Read by tests that have set `folder`, to one for their files.

# Makes the library that refuses, for which it needs the C compiler `cc`; where it can't, `why` tells why. Under it a process
# is refused the allocations from the one numbered REFUSED_FIRST to the one numbered REFUSED_LAST, and writes a byte to
# descriptor 9 for each. Where REFUSED_WRITE is set, its write of this number to standard output fails, and no other one
# does: a byte comes on descriptor 9 for it and for each write to standard output behind it.
make_refusing() {
    if ! command -v cc >/dev/null; then
        why='there is no cc'
        return 1
    fi
    why='cc fails'
    refusing=$folder/refuse.so
    cat >"$folder/refuse.c" <<'SOURCE'
#include <errno.h>
#include <stdlib.h>
#include <unistd.h>

extern void *__libc_malloc(size_t size);
extern void *__libc_calloc(size_t count, size_t size);
extern void *__libc_realloc(void *at, size_t size);
extern ssize_t __write(int to, const void *bytes, size_t count);

static long first, last, asked, refused_write, writes;

static long number(const char *name) {
    const char *text = getenv(name);
    return text ? atol(text) : 0;
}

__attribute__((constructor)) static void begin(void) {
    first = number("REFUSED_FIRST");
    last = number("REFUSED_LAST");
    refused_write = number("REFUSED_WRITE");
}

static int is_refused(void) {
    asked++;
    if (asked < first || asked > last)
        return 0;
    errno = __write(9, "r", 1) == 1 ? ENOMEM : EIO;
    return 1;
}

ssize_t write(int to, const void *bytes, size_t count) {
    if (to == 1 && refused_write && ++writes >= refused_write && __write(9, "w", 1) == 1 && writes == refused_write) {
        errno = EIO;
        return -1;
    }
    return __write(to, bytes, count);
}

void *malloc(size_t size) { return is_refused() ? NULL : __libc_malloc(size); }

void *calloc(size_t count, size_t size) { return is_refused() ? NULL : __libc_calloc(count, size); }

void *realloc(void *at, size_t size) { return is_refused() ? NULL : __libc_realloc(at, size); }
SOURCE
    cc -shared -fPIC -O1 -o "$refusing" "$folder/refuse.c"
}
