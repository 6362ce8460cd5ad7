/* feed FIRST REST: copies standard input to standard output, a pipe: FIRST bytes at once, then REST bytes at a time.
 * Between two writes it waits until the reader has taken all, so that the reader's pieces are the writer's.
 * feed random SEED COUNT: so many bytes that look random and are the same for the same seed. */
#include <poll.h>
#include <stdint.h>
#include <stdio.h>
#include <stdlib.h>
#include <string.h>
#include <sys/ioctl.h>
#include <unistd.h>

static void wait_until_taken(void) {
    int left = 1;
    while (ioctl(STDOUT_FILENO, FIONREAD, &left) == 0 && left > 0)
        poll(NULL, 0, 0);
}

static int put(const char *bytes, size_t count) {
    while (count > 0) {
        ssize_t done = write(STDOUT_FILENO, bytes, count);
        if (done <= 0)
            return 0;
        bytes += done;
        count -= (size_t)done;
    }
    return 1;
}

static int copy(size_t piece, size_t rest) {
    char *bytes = malloc(piece > rest ? piece : rest);
    size_t count;
    if (bytes == NULL)
        return 2;
    while ((count = fread(bytes, 1, piece, stdin)) > 0) {
        if (!put(bytes, count))
            return 1;
        wait_until_taken();
        piece = rest;
    }
    return 0;
}

static int random_bytes(uint64_t state, size_t count) {
    for (size_t i = 0; i < count; i++) {
        state ^= state << 13;
        state ^= state >> 7;
        state ^= state << 17;
        putchar((int)(state >> 32 & 255));
    }
    return 0;
}

int main(int count, char **words) {
    if (count == 4 && strcmp(words[1], "random") == 0)
        return random_bytes(strtoull(words[2], NULL, 10) | 1, strtoull(words[3], NULL, 10));
    if (count == 3 && atol(words[1]) > 0 && atol(words[2]) > 0)
        return copy((size_t)atol(words[1]), (size_t)atol(words[2]));
    fprintf(stderr, "usage: feed FIRST REST | feed random SEED COUNT\n");
    return 2;
}
