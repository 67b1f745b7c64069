/* A library to preload: each call of clock_gettime advances the time by CLOCK_STEP milliseconds, from 0 on. */
#include <stdlib.h>
#include <time.h>

int clock_gettime(clockid_t clock, struct timespec *now)
{
    static long calls;
    long time = calls++ * atol(getenv("CLOCK_STEP"));
    (void)clock;
    now->tv_sec = time / 1000;
    now->tv_nsec = time % 1000 * 1000000;
    return 0;
}
