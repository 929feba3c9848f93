/* Stands before the `main` of a program that ./trial builds (the linker's --wrap=main): after
 * `--version` it says that nothing is proved. TEVASULIM_TRIAL is that text; packages and releases
 * know a trial build by it, and refuse it. */
#include <stdio.h>
#include <stdlib.h>
#include <string.h>

int __real_main(int count, char **words);
int __wrap_main(int count, char **words);

static const char mark[] = TEVASULIM_TRIAL;

static void tell(void) {
    puts(mark);
}

int __wrap_main(int count, char **words) {
    if (count == 2 && (!strcmp(words[1], "--version") || !strcmp(words[1], "-V")))
        atexit(tell);
    return __real_main(count, words);
}
