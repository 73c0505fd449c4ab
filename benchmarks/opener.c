/* The time from the start of a program to its first answer: opener REQUEST TIMES PORT SOURCE IMAGE PROGRAM WORD..
 *
 * Before each start the file SOURCE is copied to IMAGE, since an opening may change it. Prints the milliseconds of each
 * start, one a line. Between two tries it sleeps 20 microseconds, so that it doesn't compete with what it has started. */
#include <arpa/inet.h>
#include <errno.h>
#include <fcntl.h>
#include <signal.h>
#include <spawn.h>
#include <stdio.h>
#include <stdlib.h>
#include <string.h>
#include <sys/socket.h>
#include <sys/time.h>
#include <sys/wait.h>
#include <time.h>
#include <unistd.h>

enum { FRAME_BYTES = 280, DATAGRAM_BYTES = 2048, PAUSE_MICROSECONDS = 20, PATIENCE_SECONDS = 10 };

extern char **environ;

static double now(void)
{
    struct timespec t;
    clock_gettime(CLOCK_MONOTONIC, &t);
    return (double)t.tv_sec + 1e-9 * (double)t.tv_nsec;
}

static int copy(const char *source, const char *image)
{
    char block[65536];
    ssize_t got;
    int from = open(source, O_RDONLY), to = open(image, O_WRONLY | O_CREAT | O_TRUNC, 0644);
    if (from < 0 || to < 0)
        return 0;
    while ((got = read(from, block, sizeof block)) > 0)
        if (write(to, block, (size_t)got) != got)
            return 0;
    close(from);
    close(to);
    return got == 0;
}

/* Starts the program, asks until it answers, ends it, and returns the seconds to the answer, below 0 where none came. */
static double opening(const unsigned char *request, size_t size, const struct sockaddr_in *there, char **program)
{
    unsigned char in[DATAGRAM_BYTES];
    struct timeval patience = {.tv_usec = 200000};
    posix_spawn_file_actions_t actions;
    pid_t child;
    double took = -1;
    int fd = socket(AF_INET, SOCK_DGRAM, 0);
    setsockopt(fd, SOL_SOCKET, SO_RCVTIMEO, &patience, sizeof patience);
    if (connect(fd, (const struct sockaddr *)there, sizeof *there) != 0)
        return took;
    posix_spawn_file_actions_init(&actions);
    posix_spawn_file_actions_addopen(&actions, 1, "/dev/null", O_WRONLY, 0);
    double start = now();
    if (posix_spawn(&child, program[0], &actions, NULL, program, environ) != 0)
        return took;
    while (took < 0 && now() - start < PATIENCE_SECONDS) {
        if (send(fd, request, size, 0) >= 0 && recv(fd, in, sizeof in, 0) >= 0)
            took = now() - start;
        else if (errno == ECONNREFUSED)
            usleep(PAUSE_MICROSECONDS);
    }
    kill(child, SIGKILL);
    waitpid(child, NULL, 0);
    close(fd);
    posix_spawn_file_actions_destroy(&actions);
    return took;
}

int main(int count, char **words)
{
    unsigned char request[FRAME_BYTES];
    struct sockaddr_in there = {.sin_family = AF_INET, .sin_addr.s_addr = htonl(INADDR_LOOPBACK)};
    size_t size = 0;
    unsigned value;
    if (count < 7)
        return 1;
    for (const char *digits = words[1]; sscanf(digits, "%2x", &value) == 1 && size < sizeof request; digits += 2)
        request[size++] = (unsigned char)value;
    there.sin_port = htons((unsigned short)atoi(words[3]));
    for (int turn = 0; turn < atoi(words[2]); turn++) {
        double took = copy(words[4], words[5]) ? opening(request, size, &there, words + 6) : -1;
        if (took < 0) {
            fprintf(stderr, "opener: no answer\n");
            return 1;
        }
        printf("%.6f\n", 1000 * took);
    }
    return 0;
}
