/* Refuses memory to the program: it is loaded before the program's libraries (LD_PRELOAD).
 *
 * The calls of malloc and realloc are counted from 1. The call REFUSED_AT answers that there is no memory, and with
 * REFUSED_ON all that come after it do so too. Where the program ends by itself, the number of the calls is written to
 * the file REFUSED_TOLD.
 */
#include <errno.h>
#include <stdio.h>
#include <stdlib.h>

void *__libc_malloc(size_t);
void *__libc_realloc(void *, size_t);

static unsigned long calls, at;
static int goes_on, counts;

static unsigned long given(const char *name) {
    const char *text = getenv(name);
    return text ? strtoul(text, NULL, 10) : 0;
}

__attribute__((constructor)) static void begin(void) {
    at = given("REFUSED_AT");
    goes_on = given("REFUSED_ON") != 0;
    counts = 1;
}

__attribute__((destructor)) static void end(void) {
    const char *name = getenv("REFUSED_TOLD");
    counts = 0;
    FILE *told = name ? fopen(name, "w") : NULL;
    if (told) {
        fprintf(told, "%lu\n", calls);
        fclose(told);
    }
}

static int is_refused(void) {
    if (!counts)
        return 0;
    calls++;
    if (at == 0 || (goes_on ? calls < at : calls != at))
        return 0;
    errno = ENOMEM;
    return 1;
}

void *malloc(size_t size) {
    return is_refused() ? NULL : __libc_malloc(size);
}

void *realloc(void *block, size_t size) {
    return is_refused() ? NULL : __libc_realloc(block, size);
}
