/* Lists the ways to split a word in two, and runs a program: cc splits.c -lsnobol4 */
#include <snobol4.h>
#include <stdio.h>
#include <stdlib.h>
#include <string.h>

#define TEXT(text) (const uint8_t *)(text), strlen(text)

static uint8_t out[4096], line[256];

/* Prints what a call wrote, and how it ended. */
static int tell(const char *what, const struct snobol4_told *told) {
    printf("%s: status %u\n", what, (unsigned)told->status);
    fwrite(out, 1, told->written, stdout);
    fwrite(line, 1, told->told, stdout);
    return told->status == 0 ? EXIT_SUCCESS : EXIT_FAILURE;
}

int main(void) {
    struct snobol4_told told;

    snobol4_ways(TEXT("LEN(1) ARB . X REM . Y"), TEXT("ABC"), true, 1000000, out, sizeof out, line, sizeof line, &told);
    tell("ways", &told);

    const char *program =
        "MORE LINE = INPUT             :F(END)\n"
        "     LINE 'A' = '-'\n"
        "     OUTPUT = LINE            :(MORE)\n"
        "END\n";
    snobol4_run(TEXT(program), TEXT("BANANA\nCANAL\n"), 1000000, 1000000, out, sizeof out, line, sizeof line, &told);
    tell("run", &told);

    snobol4_run(TEXT(" OUTPUT = 'BEFORE'\n OUTPUT = 'A' + 1\nEND\n"), TEXT(""), 1000, 1000, out, sizeof out, line, sizeof line,
        &told);
    return tell("an error", &told) == EXIT_FAILURE ? EXIT_SUCCESS : EXIT_FAILURE;
}
