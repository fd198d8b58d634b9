// Loaded before a program: for it a second goes by at each look at the clock that never goes back.
#define _GNU_SOURCE
#include <sys/syscall.h>
#include <time.h>
#include <unistd.h>

int clock_gettime(clockid_t clock, struct timespec *time) {
    static long looks;
    int status = (int)syscall(SYS_clock_gettime, clock, time);
    if (status == 0 && clock == CLOCK_MONOTONIC) time->tv_sec += __atomic_add_fetch(&looks, 1, __ATOMIC_SEQ_CST);
    return status;
}
