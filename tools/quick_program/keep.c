/* A quick build (`rt try`) runs its program and removes it: this leaves a copy at KEEP_AT when the program is first
   run. The process's own file may be the loader's, so the program is found by a function of its own. */
#define _GNU_SOURCE
#include <dlfcn.h>
#include <fcntl.h>
#include <string.h>
#include <sys/sendfile.h>
#include <unistd.h>

static const char *last_part(const char *path) {
    const char *slash = strrchr(path, '/');
    return slash ? slash + 1 : path;
}

__attribute__((constructor)) static void keep(void) {
    Dl_info program;
    if (!dladdr((void *)keep, &program) || strcmp(last_part(program.dli_fname), last_part(KEEP_AT)) == 0) return;
    int from = open(program.dli_fname, O_RDONLY), to = open(KEEP_AT, O_WRONLY | O_CREAT | O_EXCL, 0755);
    while (to >= 0 && from >= 0 && sendfile(to, from, NULL, 1 << 20) > 0) continue;
    if (to >= 0) close(to);
    if (from >= 0) close(from);
}
