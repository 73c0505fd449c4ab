/* Sends requests to a UDP port of 127.0.0.1, so many in flight, until so many are answered, and prints the seconds that
 * this took: client PORT OWN_PORT IN_FLIGHT COUNT FILE. Each line of the file is a request in hexadecimal; they are sent
 * in turn. It speaks from one port of its own, since the server knows eight stations, and waits in the kernel. The
 * HEARTBEAT of an idle turn is no answer. */
#include <arpa/inet.h>
#include <stdio.h>
#include <stdlib.h>
#include <string.h>
#include <sys/socket.h>
#include <sys/time.h>
#include <time.h>

enum { REQUESTS = 4096, FRAME_BYTES = 280, DATAGRAM_BYTES = 2048 };

struct request {
    size_t size;
    unsigned char bytes[FRAME_BYTES];
};

static struct request requests[REQUESTS];

static double now(void)
{
    struct timespec t;
    clock_gettime(CLOCK_MONOTONIC, &t);
    return (double)t.tv_sec + 1e-9 * (double)t.tv_nsec;
}

/* Reads the requests of a file, and returns how many they are. */
static int load(const char *name)
{
    char line[2 * FRAME_BYTES + 2];
    int count = 0;
    FILE *file = fopen(name, "r");
    if (file == NULL)
        return 0;
    while (count < REQUESTS && fgets(line, sizeof line, file) != NULL) {
        struct request *one = &requests[count];
        unsigned value;
        for (const char *digits = line; sscanf(digits, "%2x", &value) == 1 && one->size < FRAME_BYTES; digits += 2)
            one->bytes[one->size++] = (unsigned char)value;
        count += one->size > 0;
    }
    fclose(file);
    return count;
}

static int is_heartbeat(const unsigned char *frame)
{
    return frame[0] == 0xFD ? frame[7] == 0 && frame[8] == 0 && frame[9] == 0 : frame[5] == 0;
}

int main(int count, char **words)
{
    unsigned char buffer[DATAGRAM_BYTES];
    struct sockaddr_in there = {.sin_family = AF_INET, .sin_addr.s_addr = htonl(INADDR_LOOPBACK)};
    struct sockaddr_in here = there;
    struct timeval patience = {.tv_sec = 2};
    int fd = socket(AF_INET, SOCK_DGRAM, 0);
    if (count != 6 || fd < 0)
        return 1;
    there.sin_port = htons((unsigned short)atoi(words[1]));
    here.sin_port = htons((unsigned short)atoi(words[2]));
    int in_flight = atoi(words[3]);
    long wanted = atol(words[4]);
    int kinds = load(words[5]);
    if (kinds == 0 || bind(fd, (struct sockaddr *)&here, sizeof here) != 0
        || connect(fd, (struct sockaddr *)&there, sizeof there) != 0)
        return 1;
    setsockopt(fd, SOL_SOCKET, SO_RCVTIMEO, &patience, sizeof patience);
    double start = now();
    long sent = 0;
    for (; sent < in_flight && sent < wanted; sent++)
        send(fd, requests[sent % kinds].bytes, requests[sent % kinds].size, 0);
    for (long answers = 0; answers < wanted;) {
        if (recv(fd, buffer, sizeof buffer, 0) < 0) {
            fprintf(stderr, "client: an answer is missing\n");
            return 1;
        }
        if (is_heartbeat(buffer))
            continue;
        answers++;
        if (sent < wanted) {
            send(fd, requests[sent % kinds].bytes, requests[sent % kinds].size, 0);
            sent++;
        }
    }
    printf("%.9f\n", now() - start);
    return 0;
}
