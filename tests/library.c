/* The commands `ways` and `run` by the library's calls, for tests that run a program.
   usage: library ways [--anchor] [--steps N] -- PATTERN SUBJECT, or library run FILE <INPUT
   Where it is compiled with BY_LINES, `ways` asks for one line after another. */
#include <snobol4.h>
#include <stdio.h>
#include <stdlib.h>
#include <string.h>

enum { MOST = 1 << 24 };
struct text { uint8_t *bytes; size_t size; };

static uint8_t out[MOST], line[256];

static struct text read_all(FILE *file) {
    struct text text = { malloc(MOST), 0 };
    if (!file || !text.bytes) exit(3);
    text.size = fread(text.bytes, 1, MOST, file);
    return text;
}

static struct text word(char *given) {
    struct text text = { (uint8_t *)given, strlen(given) };
    return text;
}

#ifdef BY_LINES
/* Ends the program where a matcher tells other than it must. */
static void must(bool holds) {
    if (!holds) exit(99);
}

/* What a matcher gives and answers that is held by no listing, or behind the end of one. */
static struct snobol4_told nothing_more(struct snobol4_matcher *matcher) {
    static uint8_t other[256];
    struct snobol4_told told;
    snobol4_matcher_next(matcher, out, MOST, other, sizeof other, &told);
    must(told.written == 0);
    return told;
}

/* Each line finds too little room at first. The end is told again, and a matcher may be freed twice. */
static void list(struct text pattern, struct text subject, bool anchored, uint32_t steps, struct snobol4_told *told) {
    struct snobol4_matcher matcher = { 0 };
    size_t room = 0;
    must(nothing_more(&matcher).status == 64);
    snobol4_matcher_new(pattern.bytes, pattern.size, subject.bytes, subject.size, anchored, steps, &matcher, line, sizeof line, told);
    must(told->written == 0 && (told->status != 0 || matcher.held));
    while (matcher.held) {
        snobol4_matcher_next(&matcher, out, room, line, sizeof line, told);
        room = told->status == 7 ? 2 * room + 1 : 0;
        must(told->status != 7 || (told->written == 0 && told->told == 0));
        fwrite(out, 1, told->written, stdout);
        if (told->status != 7 && (told->status != 0 || told->written == 0)) break;
    }
    if (matcher.held) {
        uint32_t again = nothing_more(&matcher).status;
        must(again == told->status || again == 6 || told->status == 6);
    }
    for (int times = 0; times < 2; times++) {
        snobol4_matcher_free(&matcher);
        must(!matcher.held && nothing_more(&matcher).status == 64);
    }
    told->written = 0;
}
#else
static void list(struct text pattern, struct text subject, bool anchored, uint32_t steps, struct snobol4_told *told) {
    snobol4_ways(pattern.bytes, pattern.size, subject.bytes, subject.size, anchored, steps, out, MOST, line, sizeof line, told);
}
#endif

static void list_ways(char **words, struct snobol4_told *told) {
    bool anchored = false;
    uint32_t steps = 1000000;
    for (; strcmp(*words, "--") != 0; words++) {
        if (strcmp(*words, "--anchor") == 0) anchored = true;
        else if (strcmp(*words, "--steps") == 0) steps = (uint32_t)strtoul(*++words, NULL, 10);
        else exit(64);
    }
    list(word(words[1]), word(words[2]), anchored, steps, told);
}

static void run(const char *file, struct snobol4_told *told) {
    struct text program = read_all(fopen(file, "rb")), input = read_all(stdin);
    snobol4_run(program.bytes, program.size, input.bytes, input.size, 1000000, 1000000, out, MOST, line, sizeof line, told);
}

int main(int count, char **words) {
    struct snobol4_told told;
    /* (examples/run asks so whether it can be run) */
    if (count == 2 && strcmp(words[1], "--help") == 0) return 0;
    if (count > 2 && strcmp(words[1], "ways") == 0) list_ways(words + 2, &told);
    else if (count == 3 && strcmp(words[1], "run") == 0) run(words[2], &told);
    else return 64;
    fwrite(out, 1, told.written, stdout);
    fwrite(line, 1, told.told, stderr);
    return (int)told.status;
}
