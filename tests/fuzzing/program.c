/* A whole program under a fuzzer. Of its bytes those before the first newline are the arguments, with a space between two; the rest is what it reads, from
 * standard input or from whatever file it is told to open. The program's main and what it asks of the system are named program_.. in its module. A run that
 * breaks a promise of docs/REFERENCE.md, "Status and errors", is ended as a crash is. */
#define _GNU_SOURCE
#include <errno.h>
#include <stdint.h>
#include <stdio.h>
#include <stdlib.h>
#include <string.h>
#include <sys/mman.h>
#include <sys/types.h>
#include <unistd.h>

enum { WORDS = 64, SAID = 4096, TOLD = 4096, DEPTH_MOST = 5, ROW_MOST = 300 };

void program_main(void);

static char *words[WORDS];
static size_t count;
static int input = -1;
static size_t written, said, told, lines;
static char last;
static char said_here[SAID], told_here[TOLD];

static void broken(const char *what) {
    fprintf(stderr, "promise broken: %s; told %.*s, said %.*s\n", what, (int)told, told_here, (int)said, said_here);
    abort();
}

/* Arguments, as the kit's library `os` has them. */
size_t rattle_arg_count(void) { return count; }

ssize_t rattle_arg(size_t i, char *buffer, size_t size) {
    if (i >= count) return -1;
    size_t length = strlen(words[i]);
    memcpy(buffer, words[i], length < size ? length : size);
    return length <= size ? (ssize_t)length : -2;
}

/* Files: every name is the input, and what is written to a file is lost. */
static int fresh(void) { return memfd_create("fuzz", 0); }

int rattle_open_to_read(const char *path) {
    if (*path == 0) { errno = ENOENT; return -1; }
    lseek(input, 0, SEEK_SET);
    return dup(input);
}
int rattle_open_new(const char *path, uint32_t mode) { return (void)path, (void)mode, fresh(); }
int rattle_open_to_overwrite(const char *path, uint32_t mode) { return (void)path, (void)mode, fresh(); }
int rattle_open_to_append(const char *path) { return (void)path, fresh(); }
int rattle_open_to_update(const char *path) { return (void)path, errno = ENOENT, -1; }
int rattle_errno(void) { return errno; }
void rattle_set_errno(int error) { errno = error; }

/* The system. Descriptors 0 to 3 are the program's, and none of the fuzzer's. */
static int real(int fd) { return fd == 0 ? input : fd; }

ssize_t program_read(int fd, void *buffer, size_t size) { return read(real(fd), buffer, size); }
ssize_t program_pread(int fd, void *buffer, size_t size, off_t at) { return pread(real(fd), buffer, size, at); }
off_t program_lseek(int fd, off_t to, int from) { return lseek(real(fd), to, from); }
int program_close(int fd) { return fd <= 3 ? 0 : close(fd); }
int program_isatty(int fd) { return (void)fd, 0; }
int program_fsync(int fd) { return (void)fd, 0; }
int program_unlink(const char *path) { return (void)path, 0; }
int program_rename(const char *from, const char *to) { return (void)from, (void)to, 0; }
int program_mkstemp(char *name) { return (void)name, fresh(); }
ssize_t program_readlink(const char *path, char *buffer, size_t size) { return (void)path, (void)buffer, (void)size, errno = EINVAL, -1; }

static void keep(char *here, size_t most, size_t *at, const char *bytes, size_t size) {
    if (*at + size > most) broken("more is said than a line");
    memcpy(here + *at, bytes, size);
    *at += size;
}

ssize_t program_write(int fd, const char *bytes, size_t size) {
    volatile char sum = 0; /* every byte is looked at, so that one outside of its buffer is found */
    for (size_t i = 0; i < size; i++) sum ^= bytes[i];
    switch (fd) {
    case 1: written += size; break;
    case 2: /* of many schedules, a line for each that is refused: the first are kept */
        for (size_t i = 0; i < size; i++) lines += bytes[i] == '\n';
        if (said + size > SAID && lines < 2) broken("more is said than a line");
        if (said + size <= SAID) keep(said_here, SAID, &said, bytes, size);
        last = size ? bytes[size - 1] : last;
        break;
    case 3: keep(told_here, TOLD, &told, bytes, size); break;
    default: return write(fd, bytes, size);
    }
    return (ssize_t)size;
}

/* A walk of twelve acts takes seconds, and is no hang; nor is a long row of acts, in words. What is no number is none, and its fault is for the program to find. */
static int takes_long(const uint8_t *at, const uint8_t *end) {
    for (size_t i = 0; i + 1 < count; i++)
        if (!strcmp(words[i], "--depth") && strtoul(words[i + 1], NULL, 10) > DEPTH_MOST) return 1;
    while (at < end) {
        size_t row = end - at > 3 && !memcmp(at, "act", 3) ? 3 : end - at > 4 && !memcmp(at, "fail", 4) ? 4 : 0;
        at += row ? row : 1;
        if (!row) continue;
        while (at < end && (*at == ' ' || (*at >= 9 && *at <= 13))) at++;
        unsigned __int128 acts = 0, fits = (unsigned __int128)1 << 64;
        for (; at < end && *at >= '0' && *at <= '9'; at++) acts = acts < fits ? 10 * acts + (*at - '0') : fits;
        if (acts > ROW_MOST && acts < fits) return 1;
    }
    return 0;
}

static void take_words(char *line) {
    count = 0;
    words[count++] = "program";
    words[count++] = "--tell-status";
#ifdef DEPTH
    words[count++] = "--depth";
    words[count++] = "4";
#endif
    for (char *rest = line; rest && count < WORDS && *line;) words[count++] = strsep(&rest, " ");
}

static void judge(void) {
    char status = told ? told_here[told - 1] : '-';
    if (status != '0' && status != '1' && status != '2') broken("a status but 0, 1, 2");
    if (status == '2' && written) broken("output before status 2");
    if (status == '2' && (lines != 1 || last != '\n')) broken("status 2 without one line");
    if (status == '0' && said) broken("something said with status 0");
    if (lines > 1 && status != '1') broken("more than a line");
}

int LLVMFuzzerTestOneInput(const uint8_t *data, size_t size) {
    const uint8_t *end = memchr(data, '\n', size);
    size_t head = end ? (size_t)(end - data) : size;
    if (memchr(data, 0, head)) return 0;
    char *line = strndup((const char *)data, head);
    take_words(line);
    size_t from = end ? head + 1 : head;
    if (!takes_long(data + from, data + size)) {
        input = fresh();
        if (write(input, data + from, size - from) != (ssize_t)(size - from)) abort();
        lseek(input, 0, SEEK_SET);
        written = said = told = lines = 0;
        program_main();
        close(input);
        judge();
    }
    free(line);
    return 0;
}
