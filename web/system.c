// What the programs ask of a system, in the module for WebAssembly that has them: the words of the command line, the standard
// devices, and files that are read. The host answers by the calls of `system`, which web/command.mjs has; a fault it tells by the
// number that Linux has for it, below 0.
typedef unsigned long size_t;
#define SYSTEM(name) __attribute__((import_module("system"), import_name(#name))) int system_##name
SYSTEM(open)(unsigned name, unsigned size);
SYSTEM(close)(int file);
SYSTEM(read)(int file, unsigned bytes, unsigned size);
SYSTEM(write)(int file, unsigned bytes, unsigned size);
SYSTEM(is_terminal)(int file);

enum { NOT_PERMITTED = 1, READS = 0, WAYS_OF_USE = 3, MOST_AT_ONCE = 1 << 30 };

static int number_of_fault;

int rattle_errno(void) { return number_of_fault; }
void rattle_set_errno(int number) { number_of_fault = number; }

static int told(int answer) {
    if (answer >= 0) return answer;
    number_of_fault = -answer;
    return -1;
}

static unsigned at(const void *p) { return (unsigned)(size_t)p; }
static unsigned at_once(size_t n) { return n < MOST_AT_ONCE ? (unsigned)n : MOST_AT_ONCE; }

static size_t length(const char *text) {
    size_t n = 0;
    while (text[n]) n++;
    return n;
}

// The programs open what they read alone.
int open(const char *name, int flags, ...) {
    if ((flags & WAYS_OF_USE) != READS) return told(-NOT_PERMITTED);
    return told(system_open(at(name), (unsigned)length(name)));
}

int close(int file) { return told(system_close(file)); }
long read(int file, void *to, size_t n) { return told(system_read(file, at(to), at_once(n))); }
long write(int file, const void *from, size_t n) { return told(system_write(file, at(from), at_once(n))); }
long __write(int file, const void *from, size_t n) { return write(file, from, n); }
int isatty(int file) { return system_is_terminal(file); }

// No signal comes, and a pipe that nobody reads is a fault of write.
long __sysv_signal(int signal, long does) { return 0; }

// The code asks whether the processor has what it was compiled for first. This one was compiled for no processor.
const void *__x86_get_cpuid_feature_leaf(unsigned leaf) {
    static const unsigned all[8] = {-1, -1, -1, -1, -1, -1, -1, -1};
    return all;
}

// The words of the command line, which the host lends: the program's name first, each ended by a zero.
static const char *words;
static size_t count;

void lend_words(const char *them, size_t how_many) {
    words = them;
    count = how_many;
}

long rattle_arg_count(void) { return (long)count; }

// Copies word `i` where there is room for it. -1 tells that there is none, and -2 that there is no room.
long rattle_arg(size_t i, char *to, size_t room) {
    if (i >= count) return -1;
    const char *word = words;
    for (; i; i--) word += length(word) + 1;
    size_t size = length(word);
    if (size > room) return -2;
    for (size_t n = 0; n < size; n++) to[n] = word[n];
    return (long)size;
}
