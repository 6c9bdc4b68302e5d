// What the programs for aarch64 Linux have beside the proved code: the calls of the system, the words of the command line, memory,
// and copies of bytes. There is no C library in them.
#include "../web/heap.h"

// The numbers of the system's calls, and what it calls its constants.
enum { IOCTL = 29, OPENAT = 56, CLOSE = 57, READ = 63, WRITE = 64, EXIT_GROUP = 94, RT_SIGACTION = 134, MMAP = 222 };
enum { AT_FDCWD = -100, TCGETS = 0x5401, PROT_READ = 1, PROT_WRITE = 2, MAP_PRIVATE = 2, MAP_ANONYMOUS = 32 };

static long system(long number, long a, long b, long c, long d, long e, long f) {
    register long x8 __asm__("x8") = number, x0 __asm__("x0") = a, x1 __asm__("x1") = b, x2 __asm__("x2") = c;
    register long x3 __asm__("x3") = d, x4 __asm__("x4") = e, x5 __asm__("x5") = f;
    __asm__ volatile("svc 0" : "+r"(x0) : "r"(x8), "r"(x1), "r"(x2), "r"(x3), "r"(x4), "r"(x5) : "memory", "cc");
    return x0;
}

static int number_of_fault;

int rattle_errno(void) { return number_of_fault; }
void rattle_set_errno(int number) { number_of_fault = number; }

static long told(long answer) {
    if (answer >= 0) return answer;
    number_of_fault = (int)-answer;
    return -1;
}

// The programs open what they read alone: the third word, for a new file, isn't needed. The flags are those of x86-64, of which the
// ones for reading and for closing at exec are the same here.
int open(const char *name, int flags, ...) { return (int)told(system(OPENAT, AT_FDCWD, (long)name, flags, 0, 0, 0)); }
int close(int file) { return (int)told(system(CLOSE, file, 0, 0, 0, 0, 0)); }
long read(int file, void *to, size_t n) { return told(system(READ, file, (long)to, (long)n, 0, 0, 0)); }
long write(int file, const void *from, size_t n) { return told(system(WRITE, file, (long)from, (long)n, 0, 0, 0)); }
long __write(int file, const void *from, size_t n) { return write(file, from, n); }

int isatty(int file) {
    long settings[16];
    return system(IOCTL, file, TCGETS, (long)settings, 0, 0, 0) == 0;
}

// What a signal does: 1 is to ignore it.
long __sysv_signal(int signal, long does) {
    long action[8] = {does};
    return told(system(RT_SIGACTION, signal, (long)action, 0, 8, 0, 0));
}

// The code asks whether the processor has what it was compiled for first. This one asks for nothing that aarch64 lacks.
const void *__x86_get_cpuid_feature_leaf(unsigned leaf) {
    static const unsigned all[8] = {-1, -1, -1, -1, -1, -1, -1, -1};
    return all;
}

enum { AT_ONCE = 1 << 20, PAGE = 1 << 16 };

static int grow(size_t n) {
    size_t bytes = n < AT_ONCE ? AT_ONCE : (n + PAGE - 1) / PAGE * PAGE;
    long start = system(MMAP, 0, (long)bytes, PROT_READ | PROT_WRITE, MAP_PRIVATE | MAP_ANONYMOUS, -1, 0);
    if (start < 0 && start > -4096) return 0;
    if ((char *)start != end) at = (char *)start;
    end = (char *)start + bytes;
    return 1;
}

// The words of the command line: how many, and each ended by a zero.
static long count;
static char **words;

long rattle_arg_count(void) { return count; }

// Copies word `i` where there is room for it. -1 tells that there is none, and -2 that there is no room.
long rattle_arg(size_t i, char *to, size_t room) {
    if (i >= (size_t)count) return -1;
    const char *word = words[i];
    size_t size = 0;
    for (; word[size]; size++) {
        if (size == room) return -2;
        to[size] = word[size];
    }
    return (long)size;
}

// The system begins here, with the number of the words and then the words on the stack.
int program(void);

__attribute__((noreturn, used)) static void begin(long *stack) {
    count = *stack;
    words = (char **)(stack + 1);
    for (;;) system(EXIT_GROUP, program(), 0, 0, 0, 0, 0);
}

__attribute__((naked, noreturn)) void _start(void) {
    __asm__("mov x29, 0\n mov x30, 0\n mov x0, sp\n b begin");
}

// Copies and fills, which the compiler calls by these names: 64 bytes at a time, and what is left over before or behind them.
typedef unsigned char sixteen __attribute__((vector_size(16), aligned(1), may_alias));
typedef unsigned long eight __attribute__((aligned(1), may_alias));
typedef unsigned four __attribute__((aligned(1), may_alias));
#define AT(type, p, i) (*(type *)((char *)(p) + (i)))

// At most 64 bytes: all are read before any is written, so the places may overlap.
static void move_few(char *t, const char *f, size_t n) {
    if (n > 32) {
        sixteen a = AT(sixteen, f, 0), b = AT(sixteen, f, 16), c = AT(sixteen, f, n - 32), d = AT(sixteen, f, n - 16);
        AT(sixteen, t, 0) = a, AT(sixteen, t, 16) = b, AT(sixteen, t, n - 32) = c, AT(sixteen, t, n - 16) = d;
    } else if (n >= 16) {
        sixteen a = AT(sixteen, f, 0), b = AT(sixteen, f, n - 16);
        AT(sixteen, t, 0) = a, AT(sixteen, t, n - 16) = b;
    } else if (n >= 8) {
        eight a = AT(eight, f, 0), b = AT(eight, f, n - 8);
        AT(eight, t, 0) = a, AT(eight, t, n - 8) = b;
    } else if (n >= 4) {
        four a = AT(four, f, 0), b = AT(four, f, n - 4);
        AT(four, t, 0) = a, AT(four, t, n - 4) = b;
    } else if (n) {
        char a = f[0], b = f[n / 2], c = f[n - 1];
        t[0] = a, t[n / 2] = b, t[n - 1] = c;
    }
}

static void move_64(char *t, const char *f) {
    sixteen a = AT(sixteen, f, 0), b = AT(sixteen, f, 16), c = AT(sixteen, f, 32), d = AT(sixteen, f, 48);
    AT(sixteen, t, 0) = a, AT(sixteen, t, 16) = b, AT(sixteen, t, 32) = c, AT(sixteen, t, 48) = d;
}

void *memmove(void *to, const void *from, size_t n) {
    char *t = to;
    const char *f = from;
    if ((size_t)(t - f) >= n) {
        for (; n > 64; n -= 64, t += 64, f += 64) move_64(t, f);
        move_few(t, f, n);
    } else {
        for (; n > 64; n -= 64) move_64(t + n - 64, f + n - 64);
        move_few(t, f, n);
    }
    return to;
}

void *memcpy(void *to, const void *from, size_t n) { return memmove(to, from, n); }

void *memset(void *to, int byte, size_t n) {
    char *t = to;
    sixteen all = (sixteen){} + (unsigned char)byte;
    for (; n >= 16; n -= 16, t += 16) AT(sixteen, t, 0) = all;
    for (; n; n--) *t++ = (char)byte;
    return to;
}
