/* A device whose sync takes 2 ms, whatever the disk: preloaded, each fsync and fdatasync waits so long and does no more. */
#include <time.h>

static int wait_for_it(void) {
    struct timespec rest = {0, 2000000};
    while (nanosleep(&rest, &rest) != 0) {
    }
    return 0;
}

int fsync(int file) { (void)file; return wait_for_it(); }
int fdatasync(int file) { (void)file; return wait_for_it(); }
int msync(void *at, unsigned long length, int flags) { (void)at; (void)length; (void)flags; return wait_for_it(); }
