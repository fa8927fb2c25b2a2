/* A disk whose syncs take SYNC_MICROSECONDS: bench/workers.sh has the program load this in front of the C library. */
#include <stdlib.h>
#include <time.h>

static int wait_for_disk(void) {
    const char *told = getenv("SYNC_MICROSECONDS");
    struct timespec left = {0, (told ? atol(told) : 0) * 1000};
    while (nanosleep(&left, &left) != 0) {
    }
    return 0;
}

int fsync(int file) {
    (void)file;
    return wait_for_disk();
}

int fdatasync(int file) {
    (void)file;
    return wait_for_disk();
}
