/* A bare UDP echo on 127.0.0.1, the floor of a round trip: echo PORT. It wakes after a silent second. */
#include <arpa/inet.h>
#include <stdio.h>
#include <stdlib.h>
#include <sys/socket.h>
#include <sys/time.h>

enum { DATAGRAM_BYTES = 2048 };

int main(int count, char **words)
{
    unsigned char buffer[DATAGRAM_BYTES];
    struct sockaddr_in here = {.sin_family = AF_INET, .sin_addr.s_addr = htonl(INADDR_LOOPBACK)};
    struct timeval silence = {.tv_sec = 1};
    int fd = socket(AF_INET, SOCK_DGRAM, 0);
    if (count != 2 || fd < 0)
        return 1;
    setsockopt(fd, SOL_SOCKET, SO_RCVTIMEO, &silence, sizeof silence);
    here.sin_port = htons((unsigned short)atoi(words[1]));
    if (bind(fd, (struct sockaddr *)&here, sizeof here) != 0) {
        perror("bind");
        return 1;
    }
    for (;;) {
        struct sockaddr_in peer;
        socklen_t size = sizeof peer;
        ssize_t got = recvfrom(fd, buffer, sizeof buffer, 0, (struct sockaddr *)&peer, &size);
        if (got >= 0)
            sendto(fd, buffer, (size_t)got, 0, (struct sockaddr *)&peer, size);
    }
}
