/* Loaded before the C library. The call that FAULT names does nothing but give
   the error FAULT_ERROR; where that is "kill", the process ends as by kill -9. */
#define _GNU_SOURCE
#include <dlfcn.h>
#include <errno.h>
#include <fcntl.h>
#include <signal.h>
#include <stdarg.h>
#include <stdlib.h>
#include <string.h>
#include <sys/stat.h>
#include <unistd.h>

static int is_faulty(const char *call)
{
    const char *faulty = getenv("FAULT");
    return faulty && !strcmp(faulty, call);
}

static int fault(void)
{
    const char *error = getenv("FAULT_ERROR");
    if (!strcmp(error, "kill"))
        kill(getpid(), SIGKILL);
    errno = atoi(error);
    return errno ? -1 : 0;
}

#define FAULTY(call, parameters, arguments)                  \
    int call parameters                                      \
    {                                                        \
        int(*next) parameters = dlsym(RTLD_NEXT, #call);     \
        return is_faulty(#call) ? fault() : next arguments;  \
    }

FAULTY(rename, (const char *from, const char *to), (from, to))
FAULTY(link, (const char *from, const char *to), (from, to))
FAULTY(unlink, (const char *path), (path))
FAULTY(fchown, (int file, uid_t owner, gid_t group), (file, owner, group))
FAULTY(fchmod, (int file, mode_t mode), (file, mode))

/* "fsync file" or "fsync folder" */
int fsync(int file)
{
    int (*next)(int) = dlsym(RTLD_NEXT, "fsync");
    struct stat found;
    fstat(file, &found);
    return is_faulty(S_ISDIR(found.st_mode) ? "fsync folder" : "fsync file") ? fault() : next(file);
}

/* "random": every random number is 0 */
int open64(const char *path, int flags, ...)
{
    int (*next)(const char *, int, ...) = dlsym(RTLD_NEXT, "open64");
    va_list rest;
    va_start(rest, flags);
    mode_t mode = flags & O_CREAT ? va_arg(rest, mode_t) : 0;
    va_end(rest);
    int guessed = is_faulty("random") && !strcmp(path, "/dev/urandom");
    return next(guessed ? "/dev/zero" : path, flags, mode);
}
