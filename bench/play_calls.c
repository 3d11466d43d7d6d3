/* play_calls TRACE FILE: makes the calls of a trace again (count_calls.c writes it), on one file: what reading, writing, seeking and syncing cost by
   themselves. What is written are zeros, so the file is to be a copy. */
#include <fcntl.h>
#include <stdint.h>
#include <stdio.h>
#include <stdlib.h>
#include <unistd.h>

static void refuse(const char *why) {
    perror(why);
    exit(1);
}

int main(int count, char **words) {
    int file = count == 3 ? open(words[2], O_RDWR) : -1;
    FILE *trace = count == 3 ? fopen(words[1], "r") : NULL;
    if (file < 0 || !trace)
        refuse("play_calls TRACE FILE");
    char *bytes = NULL;
    int64_t call[2], room = 0;
    while (fread(call, sizeof call, 1, trace) == 1) {
        if (call[0] != 's' && call[1] > room) {
            room = call[1];
            bytes = realloc(bytes, room);
            if (!bytes)
                refuse("memory");
            for (int64_t at = 0; at < room; at++)
                bytes[at] = 0;
        }
        int64_t done = call[1];
        switch (call[0]) {
        case 'r': done = read(file, bytes, call[1]); break;
        case 'w': done = write(file, bytes, call[1]); break;
        case 's': done = lseek(file, call[1], SEEK_SET); break;
        case 'f': done = fsync(file); break;
        case 'd': done = fdatasync(file); break;
        default: fprintf(stderr, "play_calls: a call whose place is not in the trace\n"); return 1;
        }
        if (done != call[1])
            refuse("a call answered otherwise");
    }
    return 0;
}
