// The heap behind Rattle's `Global`: what libc/c/heap.c of the kit does over malloc, rattle_alloc, rattle_realloc, rattle_dealloc.
// A block has one of the sizes 32, 40, 48, 56, 64, 80, .. (four for each power of 2, rounded up to 16), a head of 16 bytes, and goes
// to the free list of its size. Memory that was taken is kept.
typedef unsigned long size_t;
struct tried { size_t ok; void *p; };
struct block { size_t size; struct block *next; };  // `next` while it is free; its bytes begin behind the head
enum { SIZES = 160, HEAD = 16 };

static struct block *free_blocks[SIZES];
static char *at, *end;                       // what is left of the piece of memory that was taken last
static char nothing[16] __attribute__((aligned(16)));

// Takes a piece of at least so many bytes: `at` and `end` then stand for it, and for what is before it, where it is the next one.
static int grow(size_t n);

static size_t bytes_of(size_t size) { return ((size_t)(4 + (size & 3)) << (size >> 2) << 3); }

static size_t size_for(size_t n) {
    if (n <= 32) return 0;
    size_t eighths = (n + 7) >> 3, high = 61 - (size_t)__builtin_clzl(eighths);
    size_t size = high << 2 | (eighths >> high & 3);
    return bytes_of(size) < n ? size + 1 : size;
}

static void *take(size_t n) {
    if (n > (size_t)1 << 40) return 0;
    size_t size = size_for(n + HEAD);
    struct block *block = free_blocks[size];
    if (block) {
        free_blocks[size] = block->next;
        return (char *)block + HEAD;
    }
    size_t bytes = (bytes_of(size) + 15) & ~(size_t)15;
    if ((size_t)(end - at) < bytes && !grow(bytes)) return 0;
    block = (struct block *)at;
    at += bytes;
    block->size = size;
    return (char *)block + HEAD;
}

static struct block *head(void *p) { return (struct block *)((char *)p - HEAD); }

static void give(void *p) {
    struct block *block = head(p);
    block->next = free_blocks[block->size];
    free_blocks[block->size] = block;
}

struct tried rattle_alloc(size_t n, size_t align) {
    void *p = take(n ? n : align);
    return (struct tried){ p != 0, p ? p : nothing };
}

struct tried rattle_realloc(void *p, size_t kept, size_t n, size_t align) {
    size_t wanted = n ? n : align;
    if (bytes_of(head(p)->size) >= wanted + HEAD) return (struct tried){ 1, p };
    void *q = take(wanted);
    if (!q) return (struct tried){ 0, nothing };
    __builtin_memcpy(q, p, kept);
    give(p);
    return (struct tried){ 1, q };
}

void rattle_dealloc(void *p) { give(p); }
