/* Makes the writes and syncs that are listed on standard input, in order, on a file of its own, and prints for each phase
   how many nanoseconds they took. A phase is a line whose first word is its name, and a line of calls: `w` with a block,
   `s` for a sync, and `r` with a block for a read, which is left out. */
#define _GNU_SOURCE
#include <fcntl.h>
#include <stdio.h>
#include <stdlib.h>
#include <string.h>
#include <time.h>
#include <unistd.h>

enum { SIZE = 4096, BLOCKS = 2048, MOST = 1 << 20, SYNC = -1 };

static long long nanos(void) {
    struct timespec now;
    clock_gettime(CLOCK_MONOTONIC, &now);
    return now.tv_sec * 1000000000LL + now.tv_nsec;
}

static void fail(const char *what) {
    perror(what);
    exit(1);
}

/* Reads the calls of a line: how many there are. */
static int read_calls(char *line, int *calls) {
    int count = 0;
    for (char *word = strtok(line, " \n"); word != NULL && count < MOST; word = strtok(NULL, " \n")) {
        if (word[0] == 'w') calls[count++] = atoi(word + 1);
        if (word[0] == 's') calls[count++] = SYNC;
    }
    return count;
}

static void make_calls(int file, const int *calls, int count, char *block) {
    for (int at = 0; at < count; at++) {
        if (calls[at] == SYNC) {
            if (fdatasync(file) != 0) fail("fdatasync");
        } else {
            block[0]++;
            if (pwrite(file, block, SIZE, (off_t)calls[at] * SIZE) != SIZE) fail("pwrite");
        }
    }
}

int main(void) {
    static int calls[MOST];
    static char block[SIZE];
    char name[64];
    char *line = NULL;
    size_t room = 0;
    int file = open("calls.blocks", O_RDWR | O_CREAT | O_TRUNC, 0600);
    if (file < 0 || ftruncate(file, (off_t)SIZE * BLOCKS) != 0) fail("calls.blocks");
    while (getline(&line, &room, stdin) > 0 && sscanf(line, "%63s", name) == 1) {
        if (getline(&line, &room, stdin) <= 0) fail("a line of calls");
        int count = read_calls(line, calls);
        long long start = nanos();
        make_calls(file, calls, count, block);
        printf("%s %lld\n", name, nanos() - start);
    }
    return 0;
}
