/* What the examples in C share: the statuses, the words for a refusal, numbers read from standard input, and the end of the
   output. A program gives 0 where it has written an answer, 1 where the call is refused and 2 where anything else fails. */

#ifndef EXAMPLE_H
#define EXAMPLE_H

#include <ctype.h>
#include <errno.h>
#include <inttypes.h>
#include <stdio.h>
#include <stdlib.h>
#include <string.h>
#include "tsav.h"

enum { ANSWERED = 0, REFUSED = 1, FAILED = 2 };

static inline int failed(const char *name, const char *what) {
    fprintf(stderr, "%s: %s\n", name, what);
    return FAILED;
}

/* The refusal's number and its place, in words. */
static inline int refused(const char *name, uint64_t number, const uint64_t place[2]) {
    fprintf(stderr, "%s: refusal %" PRIu64, name, number);
    if (place[0] == TSAV_LINE)
        fprintf(stderr, " at line %" PRIu64, place[1]);
    if (place[0] == TSAV_POSITION)
        fprintf(stderr, " at position %" PRIu64, place[1]);
    fputc('\n', stderr);
    return REFUSED;
}

/* Before the first call: the library is the one that this was compiled for. */
static inline int same_version(void) { return tsav_version() == TSAV_VERSION; }

/* What was printed may still lie in a buffer, so that only after it is flushed it is known to be written. */
static inline int finished(const char *name) {
    if (fflush(stdout) != 0 || ferror(stdout))
        return failed(name, strerror(errno));
    return ANSWERED;
}

/* Reads whole numbers with space between them to the end of standard input, or until there is no more room. False where
   something else stands there, a number passes 64 bits, or the input can't be read. */
static inline int read_numbers(uint64_t *numbers, size_t room, size_t *count) {
    char word[32], *end;
    for (*count = 0; *count < room && scanf("%31s", word) == 1; ++*count) {
        errno = 0;
        numbers[*count] = strtoull(word, &end, 10);
        if (!isdigit((unsigned char)word[0]) || *end != '\0' || errno != 0 || strlen(word) == sizeof word - 1)
            return 0;
    }
    return !ferror(stdin);
}

#endif
