/* Put before a program (LD_PRELOAD), it has each sector of each call on a file fail in turn. At each read or write of
   the file that the variable IMAGE names the program is forked for each sector: in the child each such call that has
   this sector fails, and it is played to its end; then the program goes on. Of SHARES it is forked for the sectors
   whose number, counted from 0, is SHARE behind a multiple. Of each child the file that RECORDS names is written: the
   sector's number, its place in the file, whether it is written, the child's status, whether the sector was changed,
   how many bytes the child printed, and these. */
#define _GNU_SOURCE
#include <errno.h>
#include <fcntl.h>
#include <stdint.h>
#include <stdlib.h>
#include <string.h>
#include <sys/mman.h>
#include <sys/stat.h>
#include <sys/syscall.h>
#include <sys/wait.h>
#include <unistd.h>

enum { SECTOR = 512, MOST_PRINTED = 4096 };

struct record {
    int64_t number, place, is_write, status, is_changed, printed;
};

static struct stat image;
/* What fails in a child. */
static struct record failing;
static long number, share, shares;
static int records = -1, printed = -1, is_child;

static long variable(const char *name) {
    const char *value = getenv(name);
    return value ? atol(value) : 0;
}

__attribute__((constructor)) static void begin(void) {
    const char *file = getenv("IMAGE"), *into = getenv("RECORDS");
    share = variable("SHARE");
    shares = variable("SHARES");
    records = into ? open(into, O_WRONLY | O_CREAT | O_TRUNC, 0600) : -1;
    printed = memfd_create("printed", 0);
    if (!file || stat(file, &image) || shares < 1 || records < 0 || printed < 0) abort();
}

static ssize_t read_at(int file, void *bytes, size_t count, off_t place) {
    return syscall(SYS_pread64, file, bytes, count, place);
}

static ssize_t write_at(int file, const void *bytes, size_t count, off_t place) {
    return syscall(SYS_pwrite64, file, bytes, count, place);
}

/* Writes what became of a child. */
static void tell(struct record *told) {
    static char text[MOST_PRINTED];
    ssize_t length = read_at(printed, text, sizeof text, 0);
    told->printed = length;
    if (length < 0 || write(records, told, sizeof *told) != sizeof *told) abort();
    if (write(records, text, length) != length) abort();
}

/* Whether a call on a sector fails: in a child alone. */
static int sector_fails(int file, off_t place, int is_write) {
    if (is_child) return place == failing.place && is_write == failing.is_write;
    struct record told = {.number = number++, .place = place, .is_write = is_write};
    if (told.number % shares != share) return 0;
    char before[SECTOR] = {0}, after[SECTOR] = {0};
    read_at(file, before, SECTOR, place);
    if (ftruncate(printed, 0)) abort();
    pid_t child = fork();
    if (child < 0) abort();
    if (!child) {
        is_child = 1;
        failing = told;
        if (lseek(printed, 0, SEEK_SET) < 0 || dup2(printed, STDOUT_FILENO) < 0) abort();
        errno = EIO;
        return 1;
    }
    int status;
    if (waitpid(child, &status, 0) != child) abort();
    read_at(file, after, SECTOR, place);
    told.status = status;
    told.is_changed = memcmp(before, after, SECTOR) != 0;
    tell(&told);
    return 0;
}

/* Whether a call fails, since it does on one of its sectors. */
static int fails(int file, size_t count, off_t place, int is_write) {
    struct stat it;
    if (fstat(file, &it) || it.st_ino != image.st_ino || it.st_dev != image.st_dev) return 0;
    for (off_t end = place + (off_t)count; place < end; place += SECTOR)
        if (sector_fails(file, place, is_write)) return 1;
    return 0;
}

ssize_t pread(int file, void *bytes, size_t count, off_t place) {
    return fails(file, count, place, 0) ? -1 : read_at(file, bytes, count, place);
}

ssize_t pwrite(int file, const void *bytes, size_t count, off_t place) {
    return fails(file, count, place, 1) ? -1 : write_at(file, bytes, count, place);
}
