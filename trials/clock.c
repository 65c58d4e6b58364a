/* Puts the clock on the wall of a program forward or back:
 * LD_PRELOAD=clock.so CLOCK=FILE PROGRAM adds the seconds that FILE has, a whole number, to what
 * clock_gettime says of CLOCK_REALTIME, whenever it is asked. Other clocks go as they do. */
#include <fcntl.h>
#include <stdlib.h>
#include <sys/syscall.h>
#include <time.h>
#include <unistd.h>

static long offset(void)
{
    char text[32] = "";
    const char *name = getenv("CLOCK");
    int file = name == NULL ? -1 : open(name, O_RDONLY);
    if (file < 0)
        return 0;
    if (read(file, text, sizeof text - 1) < 0)
        text[0] = 0;
    close(file);
    return strtol(text, NULL, 10);
}

int clock_gettime(clockid_t clock, struct timespec *at)
{
    int result = (int)syscall(SYS_clock_gettime, clock, at);
    if (result == 0 && clock == CLOCK_REALTIME)
        at->tv_sec += offset();
    return result;
}
