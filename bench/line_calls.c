// Lines cut in C, and lines sent over connections (bench/inputs.sh).
//
//   line_calls cut FILE                       reads a file by 64 KiB, copies each line out, and prints their number
//   line_calls send PORT CONNECTIONS FILE     sends the lines of a file in turn over so many connections to a port of the
//                                             loopback, some 64 KiB each time, and closes them
#include <arpa/inet.h>
#include <fcntl.h>
#include <netinet/in.h>
#include <stdio.h>
#include <stdlib.h>
#include <string.h>
#include <sys/mman.h>
#include <sys/socket.h>
#include <sys/stat.h>
#include <unistd.h>

enum { ROOM = 65536, MOST = 1048576 };

static int cut(const char *path) {
    static char bytes[ROOM + MOST];
    size_t held = 0, lines = 0;
    int file = open(path, O_RDONLY);
    if (file < 0) return 1;
    for (;;) {
        ssize_t count = read(file, bytes + held, ROOM);
        if (count <= 0) break;
        size_t from = 0, end = held + (size_t)count;
        char *found;
        while ((found = memchr(bytes + from, '\n', end - from)) != NULL) {
            size_t length = (size_t)(found - (bytes + from));
            char *line = malloc(length + 1);
            if (line == NULL) return 1;
            memcpy(line, bytes + from, length);
            free(line);
            from += length + 1;
            lines++;
        }
        held = end - from;
        memmove(bytes, bytes + from, held);
    }
    printf("%zu\n", lines);
    return 0;
}

static int connected(int port) {
    struct sockaddr_in at = {.sin_family = AF_INET, .sin_port = htons((uint16_t)port)};
    at.sin_addr.s_addr = htonl(INADDR_LOOPBACK);
    for (int tries = 0; tries < 2000; tries++) {
        int it = socket(AF_INET, SOCK_STREAM, 0);
        if (connect(it, (struct sockaddr *)&at, sizeof at) == 0) return it;
        close(it);
        usleep(5000);
    }
    return -1;
}

static int put(int to, const char *bytes, size_t length) {
    while (length > 0) {
        ssize_t count = write(to, bytes, length);
        if (count <= 0) return 1;
        bytes += count;
        length -= (size_t)count;
    }
    return 0;
}

static int give(int port, int connections, const char *path) {
    int to[64];
    struct stat about;
    int file = open(path, O_RDONLY);
    if (file < 0 || fstat(file, &about) != 0 || connections < 1 || connections > 64) return 1;
    size_t length = (size_t)about.st_size;
    const char *bytes = mmap(NULL, length, PROT_READ, MAP_PRIVATE, file, 0);
    if (bytes == MAP_FAILED) return 1;
    for (int i = 0; i < connections; i++)
        if ((to[i] = connected(port)) < 0) return 1;
    size_t from = 0;
    for (int turn = 0; from < length; turn = (turn + 1) % connections) {
        size_t end = from + ROOM < length ? from + ROOM : length;
        const char *last = memrchr(bytes + from, '\n', end - from);
        size_t part = last == NULL ? end - from : (size_t)(last - (bytes + from)) + 1;
        if (put(to[turn], bytes + from, part) != 0) return 1;
        from += part;
    }
    for (int i = 0; i < connections; i++) close(to[i]);
    return 0;
}

int main(int count, char **words) {
    if (count == 3 && strcmp(words[1], "cut") == 0) return cut(words[2]);
    if (count == 5 && strcmp(words[1], "send") == 0) return give(atoi(words[2]), atoi(words[3]), words[4]);
    fprintf(stderr, "usage: line_calls cut FILE | send PORT CONNECTIONS FILE\n");
    return 1;
}
