/* What the kit's library `os` asks of C, for a program that is compiled for another machine than the kit's: files opened, arguments, errno. */
#include <errno.h>
#include <fcntl.h>
#include <stddef.h>
#include <stdint.h>
#include <string.h>
#include <sys/types.h>

static int count;
static char **words;

__attribute__((constructor)) static void keep(int argc, char **argv) {
    count = argc;
    words = argv;
}

size_t rattle_arg_count(void) { return (size_t)count; }

ssize_t rattle_arg(size_t i, char *buf, size_t size) {
    if (i >= (size_t)count) return -1;
    size_t length = strlen(words[i]);
    memcpy(buf, words[i], length < size ? length : size);
    return length <= size ? (ssize_t)length : -2;
}

int rattle_open_to_read(const char *path) { return open(path, O_RDONLY | O_CLOEXEC); }
int rattle_open_new(const char *path, uint32_t mode) { return open(path, O_WRONLY | O_CREAT | O_EXCL | O_CLOEXEC, mode); }
int rattle_open_to_overwrite(const char *path, uint32_t mode) { return open(path, O_WRONLY | O_CREAT | O_TRUNC | O_CLOEXEC, mode); }
int rattle_open_to_append(const char *path) { return open(path, O_WRONLY | O_APPEND | O_CLOEXEC); }
int rattle_open_to_update(const char *path) { return open(path, O_RDWR | O_CLOEXEC); }
int rattle_errno(void) { return errno; }
void rattle_set_errno(int error) { errno = error; }
