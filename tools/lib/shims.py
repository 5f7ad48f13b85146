"""Shared libraries that stand between a program and the system: they refuse it memory, or a sync, or say another time."""
import os
import shutil
import subprocess

# What the shims call, without the system's headers, which the kit's compiler has not.
CALLED = r'''
typedef unsigned long size_t;
struct timespec { long tv_sec, tv_nsec; };
extern char *getenv(const char *);
extern int atoi(const char *), dprintf(int, const char *, ...), fork(void), waitpid(int, int *, int);
extern long atol(const char *), write(int, const void *, size_t);
extern void *dlsym(void *, const char *), *signal(int, void (*)(int));
extern void _exit(int);
enum { SIGUSR1 = 10, CLOCK_REALTIME = 0 };
static int told(const char *name) { return atoi(getenv(name)); }
#define NEXT(name, type) static type next; if (!next) next = (type)dlsym((void *)-1L, name)
'''
# What they stand in for. They ask `is_refused` at each allocation, and tell `was_read` of each reading of the clock, which may say
# another time.
FUNCTIONS = r'''
void *malloc(size_t n) { typedef void *(*F)(size_t); NEXT("malloc", F); return is_refused() ? 0 : next(n); }
void *realloc(void *p, size_t n) { typedef void *(*F)(void *, size_t); NEXT("realloc", F); return is_refused() ? 0 : next(p, n); }
void *aligned_alloc(size_t a, size_t n) { typedef void *(*F)(size_t, size_t); NEXT("aligned_alloc", F); return is_refused() ? 0 : next(a, n); }
int posix_memalign(void **p, size_t a, size_t n) { typedef int (*F)(void **, size_t, size_t); NEXT("posix_memalign", F); return is_refused() ? 12 : next(p, a, n); }
int clock_gettime(int clock, struct timespec *time) {
    typedef int (*F)(int, struct timespec *); NEXT("clock_gettime", F);
    int got = next(clock, time);
    if (clock == CLOCK_REALTIME) was_read(time);
    return got;
}
'''
# Counts allocations, from a signal on where one is awaited, and refuses one of them.
REFUSING = CALLED + r'''
static long count = 0, refused = -1;
static volatile int counts = 1;
static void begin(int number) { counts = 1; }
__attribute__((constructor)) static void wait_to_begin(void) {
    if (!getenv("REFUSED_AFTER_SIGNAL")) return;
    counts = 0;
    signal(SIGUSR1, begin);
}
static int is_refused(void) {
    if (refused < 0) { const char *s = getenv("REFUSED_ALLOCATION"); refused = s ? atol(s) : 0; }
    if (!counts || ++count != refused) return 0;
    if (getenv("REFUSED_MARK") && write(told("REFUSED_MARK"), "x", 1) != 1) _exit(99);
    return 1;
}
static void was_read(struct timespec *time) {
    const char *moment = getenv("MOMENT");
    if (!moment) return;
    time->tv_sec = atol(moment);
    time->tv_nsec = 0;
}
''' + FUNCTIONS
# Forks at each allocation that is counted, and refuses it to the child. The clock's readings begin and end the counting by turns. A child ends well after
# READINGS more of them, but one in sixteen goes on to the end.
FORKING = CALLED + r'''
static int counts, is_child, running, readings, goes_to_end;
static long passed, failed;
static struct { int id; long number; } children[256];
static void wait_for_one(void) {
    int status, place;
    int id = waitpid(-1, &status, 0);
    if (id < 0) { running = 0; failed++; return; }
    for (place = 0; children[place].id != id; place++);
    if (status == 0) passed++;
    else { failed++; dprintf(told("REPORT"), "allocation %ld: status %x\n", children[place].number, status); }
    children[place] = children[--running];
}
__attribute__((destructor)) static void tell(void) {
    if (is_child) return;
    counts = 0;
    while (running) wait_for_one();
    dprintf(told("REPORT"), "%ld passed, %ld failed\n", passed, failed);
}
static int is_refused(void) {
    static long number;
    if (!counts) return 0;
    counts = 0;
    while (running >= told("MOST")) wait_for_one();
    number++;
    int id = fork();
    if (id == 0) { is_child = 1; goes_to_end = number % 16 == 0; return 1; }
    if (id > 0) { children[running].id = id; children[running++].number = number; }
    else failed++;
    counts = 1;
    return 0;
}
static void was_read(struct timespec *time) {
    if (!is_child) counts = !counts;
    else if (!goes_to_end && ++readings > told("READINGS")) _exit(0);
}
''' + FUNCTIONS
# The system's clock is at the end of the second MOMENT, if there is one, and the sync of this number of a file or folder below UNSYNCED_IN fails.
STANDING = CALLED + r'''
extern int *__errno_location(void), snprintf(char *, size_t, const char *, ...);
extern char *strstr(const char *, const char *);
extern long readlink(const char *, char *, size_t);
enum { EIO = 5 };
static int is_within(int file, const char *folder) {
    char name[32], path[4096];
    snprintf(name, sizeof name, "/proc/self/fd/%d", file);
    long length = readlink(name, path, sizeof path - 1);
    if (length < 0) return 0;
    path[length] = 0;
    return strstr(path, folder) != 0;
}
int fsync(int file) {
    typedef int (*F)(int); NEXT("fsync", F);
    static int count;
    const char *folder = getenv("UNSYNCED_IN");
    if (!folder || !is_within(file, folder) || ++count != told("UNSYNCED")) return next(file);
    *__errno_location() = EIO;
    return -1;
}
int clock_gettime(int clock, struct timespec *time) {
    typedef int (*F)(int, struct timespec *); NEXT("clock_gettime", F);
    int got = next(clock, time);
    if (clock == CLOCK_REALTIME && getenv("MOMENT")) {
        time->tv_sec = atol(getenv("MOMENT"));
        time->tv_nsec = 999999999;
    }
    return got;
}
'''


def compiled(text, folder):
    """A shared library of this text, by the system's compiler or else by that of the kit."""
    source, shim = os.path.join(folder, 'shim.c'), os.path.join(folder, 'shim.so')
    with open(source, 'w') as file:
        file.write(text)
    words = ['-shared', '-fPIC', '-O1', '-nostdlib', '-fno-builtin', '-o', shim, source]
    kit = os.path.dirname(os.path.dirname(os.path.realpath(shutil.which('rt') or 'rt')))
    of_kit = [os.path.join(kit, 'toolchain/bin/clang'), '-fuse-ld=lld']
    subprocess.run([*(['cc'] if shutil.which('cc') else of_kit), *words], check=True)
    return shim
