/* A rename that is done and yet reported as failed, as network storage can do: the LATE-th of the program. */
#define _GNU_SOURCE
#include <dlfcn.h>
#include <errno.h>
#include <stdio.h>
#include <stdlib.h>

int rename(const char *from, const char *to) {
    static int count;
    int (*done)(const char *, const char *) = (int (*)(const char *, const char *))dlsym(RTLD_NEXT, "rename");
    int answer = done(from, to);
    const char *late = getenv("LATE");
    if (late && ++count == atoi(late)) {
        errno = EIO;
        return -1;
    }
    return answer;
}
