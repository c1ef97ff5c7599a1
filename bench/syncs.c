/* Lets each sync take 70 microseconds at least, as on a disk that syncs so fast, for a program over files in memory.

       gcc -O2 -shared -fPIC -o syncs.so bench/syncs.c -ldl
       LD_PRELOAD=$PWD/syncs.so TMPDIR=/dev/shm bench/serve.py
*/
#define _GNU_SOURCE
#include <dlfcn.h>
#include <time.h>

static long nanoseconds(void) {
    struct timespec now;
    clock_gettime(CLOCK_MONOTONIC, &now);
    return now.tv_sec * 1000000000L + now.tv_nsec;
}

static int slow(const char *name, int file) {
    int (*real)(int) = (int (*)(int)) dlsym(RTLD_NEXT, name);
    long begun = nanoseconds();
    int answer = real(file);
    while (nanoseconds() - begun < 70000) {}
    return answer;
}

int fsync(int file) { return slow("fsync", file); }
int fdatasync(int file) { return slow("fdatasync", file); }
