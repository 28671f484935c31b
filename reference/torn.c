/* Ends the program at a write or sync of its devices, as a power cut would, and tears what no sync has reached.
 *
 * It is loaded before the program's libraries (LD_PRELOAD). A device is a regular file that is open for reading and
 * writing. The calls on devices are counted from 1. At the call TORN_STOP each range that was written since the last
 * sync of its file that succeeded is left as it was, as written, in part, or with other bytes, as TORN_SEED chooses,
 * and the program ends with the status 77. Each call of the list TORN_FAIL, as in 3,8, leaves the same, and fails.
 * Where TORN_READS is not 0, reads of devices are calls too. Where the program ends by itself, the number of the calls,
 * the most memory that it had at once, in kilobytes, how many calls failed, and how many ranges no sync has reached are
 * written to the file TORN_TOLD.
 */
#define _GNU_SOURCE
#include <errno.h>
#include <fcntl.h>
#include <stdint.h>
#include <stdio.h>
#include <stdlib.h>
#include <string.h>
#include <sys/stat.h>
#include <sys/syscall.h>
#include <unistd.h>

enum { OLD, NEW, PART, ZERO, BLANK, RANDOM, WAYS, MOST_RANGES = 65536, STOPPED = 77 };

struct range {
    int file;
    off_t at;
    size_t length;
    unsigned char *before, *after;
};

static struct range pending[MOST_RANGES];
static size_t ranges;
static unsigned long calls, stop, reads, failed;
static const char *failing;
static uint64_t seed;

static unsigned long given(const char *name) {
    const char *text = getenv(name);
    return text ? strtoul(text, NULL, 10) : 0;
}

__attribute__((constructor)) static void begin(void) {
    stop = given("TORN_STOP");
    reads = given("TORN_READS");
    failing = getenv("TORN_FAIL");
    seed = given("TORN_SEED");
}

/* The most memory at once since the program was loaded: rusage would count that of whoever started it as well. */
static long most_memory(void) {
    long most = 0;
    char line[256];
    FILE *status = fopen("/proc/self/status", "r");
    while (status && fgets(line, sizeof line, status))
        sscanf(line, "VmHWM: %ld", &most);
    return most;
}

__attribute__((destructor)) static void end(void) {
    const char *name = getenv("TORN_TOLD");
    FILE *told = name ? fopen(name, "w") : NULL;
    if (told) {
        fprintf(told, "%lu %ld %lu %zu\n", calls, most_memory(), failed, ranges);
        fclose(told);
    }
}

static int is_device(int file) {
    struct stat found;
    int way = fcntl(file, F_GETFL);
    return way >= 0 && (way & O_ACCMODE) == O_RDWR && fstat(file, &found) == 0 && S_ISREG(found.st_mode);
}

static uint64_t one_of(uint64_t count) {
    uint64_t mixed = seed += 0x9E3779B97F4A7C15;
    mixed = (mixed ^ mixed >> 30) * 0xBF58476D1CE4E5B9;
    mixed = (mixed ^ mixed >> 27) * 0x94D049BB133111EB;
    return (mixed ^ mixed >> 31) % count;
}

static void put(const struct range *range, const unsigned char *bytes, size_t length) {
    if (syscall(SYS_pwrite64, range->file, bytes, length, range->at) != (long)length)
        abort();
}

/* Leaves one of the bytes that may be left in a range, of which nothing was written. */
static void leave(const struct range *range, uint64_t way) {
    unsigned char *bytes = range->after;
    if (way == OLD)
        return;
    for (size_t at = 0; at < range->length && way >= ZERO; at++)
        bytes[at] = way == ZERO ? 0 : way == BLANK ? 255 : one_of(256);
    put(range, bytes, way == PART ? one_of(range->length + 1) : range->length);
}

static void tear(void) {
    /* Half the time all ranges are left in one way. */
    uint64_t way = one_of(2 * WAYS);
    for (size_t at = ranges; at-- > 0;)
        put(&pending[at], pending[at].before, pending[at].length);
    for (size_t at = 0; at < ranges; at++)
        leave(&pending[at], way < WAYS ? way : one_of(WAYS));
    ranges = 0;
}

static int is_listed(unsigned long call) {
    const char *text = failing ? failing : "";
    while (*text) {
        char *end;
        if (strtoul(text, &end, 10) == call)
            return 1;
        text = *end ? end + 1 : end;
    }
    return 0;
}

/* Counts a call, ends the program where it is the one to stop at, and tells whether it is one to fail. */
static int is_failing(void) {
    if (++calls == stop) {
        tear();
        _exit(STOPPED);
    }
    if (!is_listed(calls))
        return 0;
    tear();
    failed++;
    errno = EIO;
    return 1;
}

static void note(int file, const void *bytes, size_t length, off_t at) {
    struct range *range = &pending[ranges];
    unsigned char *both = malloc(2 * length + 1);
    if (ranges == MOST_RANGES || !both || syscall(SYS_pread64, file, both, length, at) != (long)length)
        abort();
    memcpy(both + length, bytes, length);
    *range = (struct range){file, at, length, both, both + length};
    ranges++;
}

static void forget(int file) {
    size_t kept = 0;
    for (size_t at = 0; at < ranges; at++)
        if (pending[at].file == file)
            free(pending[at].before);
        else
            pending[kept++] = pending[at];
    ranges = kept;
}

ssize_t pread(int file, void *bytes, size_t length, off_t at) {
    if (reads && is_device(file) && is_failing())
        return -1;
    return syscall(SYS_pread64, file, bytes, length, at);
}

ssize_t pread64(int file, void *bytes, size_t length, off_t at) {
    return pread(file, bytes, length, at);
}

ssize_t read(int file, void *bytes, size_t length) {
    if (reads && is_device(file) && is_failing())
        return -1;
    return syscall(SYS_read, file, bytes, length);
}

ssize_t pwrite(int file, const void *bytes, size_t length, off_t at) {
    if (is_device(file)) {
        note(file, bytes, length, at);
        if (is_failing())
            return -1;
    }
    return syscall(SYS_pwrite64, file, bytes, length, at);
}

ssize_t pwrite64(int file, const void *bytes, size_t length, off_t at) {
    return pwrite(file, bytes, length, at);
}

ssize_t write(int file, const void *bytes, size_t length) {
    if (is_device(file)) {
        note(file, bytes, length, lseek(file, 0, SEEK_CUR));
        if (is_failing())
            return -1;
    }
    return syscall(SYS_write, file, bytes, length);
}

static int synced(int file, long call) {
    int is_torn = is_device(file);
    if (is_torn && is_failing())
        return -1;
    int done = syscall(call, file);
    if (is_torn && done == 0)
        forget(file);
    return done;
}

int fsync(int file) {
    return synced(file, SYS_fsync);
}

int fdatasync(int file) {
    return synced(file, SYS_fdatasync);
}
