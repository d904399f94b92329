/* For the end-to-end tests: loaded before the C library, it gives a program another time.

   CLOCK_STEP    by so many seconds the clock that only goes forward goes on at each call that asks for it */

#define _GNU_SOURCE
#include <stdlib.h>
#include <sys/syscall.h>
#include <time.h>
#include <unistd.h>

int clock_gettime(clockid_t clock, struct timespec *now)
{
    static long seconds = 1000;
    const char *step = getenv("CLOCK_STEP");
    if (clock != CLOCK_MONOTONIC || !step)
        return syscall(SYS_clock_gettime, clock, now);
    seconds += atol(step);
    now->tv_sec = seconds;
    now->tv_nsec = 0;
    return 0;
}
