/* The least that does the work of `serve`, in C, to compare it with: floor PORT NAMES [IMAGE [sync]].
 *
 * It has a table in memory with the names of the file NAMES, one a line, and answers PARAM_REQUEST_READ by index and by
 * name, PARAM_SET and PARAM_REQUEST_LIST with frames of version 1. Requests are read in both versions. It reads the whole
 * IMAGE before its first answer; a set writes an entry of ten bytes to it, with `sync` as far as the disk, and is answered
 * then. It ends at the datagram END, as `serve` does. It proves nothing and recovers nothing. */
#include <arpa/inet.h>
#include <fcntl.h>
#include <stdint.h>
#include <stdio.h>
#include <stdlib.h>
#include <string.h>
#include <sys/socket.h>
#include <sys/time.h>
#include <unistd.h>

enum {
    ROWS = 240,
    NAME_BYTES = 16,
    DATAGRAM_BYTES = 2048,
    ENTRY_BYTES = 10,
    LOG_BEGINS = 8192,
    LOG_ENDS = 120000,
    READ_REQUEST = 20,
    LIST_REQUEST = 21,
    VALUE = 22,
    SET = 23
};

static struct {
    char name[NAME_BYTES];
    uint32_t value;
} rows[ROWS];

static int row_count, udp, image = -1, synced;
static off_t at = LOG_BEGINS;
static uint8_t sequence;

static uint16_t accumulate(uint16_t crc, uint8_t byte)
{
    uint8_t low = (uint8_t)(crc ^ byte);
    low ^= (uint8_t)(low << 4);
    return (uint16_t)(crc >> 8 ^ low << 8 ^ low << 3 ^ low >> 4);
}

static uint16_t crc_of(const uint8_t *bytes, int count, uint8_t extra)
{
    uint16_t crc = 0xFFFF;
    for (int i = 0; i < count; i++)
        crc = accumulate(crc, bytes[i]);
    return accumulate(crc, extra);
}

static void show(int row, const struct sockaddr_in *peer)
{
    uint8_t out[33] = {0xFE, 25, sequence++, 1, 1, VALUE};
    memcpy(out + 6, &rows[row].value, 4);
    out[10] = (uint8_t)row_count;
    out[12] = (uint8_t)row;
    memcpy(out + 14, rows[row].name, NAME_BYTES);
    out[30] = 9;
    uint16_t crc = crc_of(out + 1, 30, 220);
    out[31] = (uint8_t)crc;
    out[32] = (uint8_t)(crc >> 8);
    sendto(udp, out, sizeof out, 0, (const struct sockaddr *)peer, sizeof *peer);
}

static int row_named(const uint8_t *name)
{
    for (int row = 0; row < row_count; row++)
        if (memcmp(rows[row].name, name, NAME_BYTES) == 0)
            return row;
    return -1;
}

static void store(int row, const uint8_t *value)
{
    uint8_t entry[ENTRY_BYTES] = {0};
    memcpy(&rows[row].value, value, 4);
    memcpy(entry + 2, value, 4);
    if (image < 0)
        return;
    if (pwrite(image, entry, sizeof entry, at) < 0)
        exit(1);
    at = at + ENTRY_BYTES > LOG_ENDS ? LOG_BEGINS : at + ENTRY_BYTES;
    if (synced)
        fdatasync(image);
}

static void answer(int id, const uint8_t *payload, const struct sockaddr_in *peer)
{
    int row = -1;
    if (id == READ_REQUEST) {
        row = (int16_t)(payload[0] | payload[1] << 8);
        if (row < 0)
            row = row_named(payload + 4);
    } else if (id == SET) {
        row = row_named(payload + 6);
        if (row >= 0)
            store(row, payload);
    } else if (id == LIST_REQUEST) {
        for (int each = 0; each < row_count; each++)
            show(each, peer);
    }
    if (row >= 0 && row < row_count)
        show(row, peer);
}

/* Answers the frames of a datagram. */
static void take(const uint8_t *in, int got, const struct sockaddr_in *peer)
{
    int begin = 0;
    while (begin < got) {
        const uint8_t *frame = in + begin;
        int second = frame[0] == 0xFD, head = second ? 10 : 6;
        if (frame[0] != 0xFE && frame[0] != 0xFD) {
            begin++;
            continue;
        }
        if (got - begin < head + 2 || got - begin < head + frame[1] + 2)
            return;
        int end = head + frame[1];
        int id = second ? frame[7] | frame[8] << 8 | frame[9] << 16 : frame[5];
        int extra = id == READ_REQUEST ? 214 : id == LIST_REQUEST ? 159 : id == SET ? 168 : -1;
        begin += end + 2;
        if (extra < 0 || crc_of(frame + 1, end - 1, (uint8_t)extra) != (frame[end] | frame[end + 1] << 8))
            continue;
        uint8_t payload[256] = {0};
        memcpy(payload, frame + head, frame[1]);
        answer(id, payload, peer);
    }
}

static int load_names(const char *name)
{
    char line[64];
    FILE *file = fopen(name, "r");
    if (file == NULL)
        return 0;
    while (row_count < ROWS && fgets(line, sizeof line, file) != NULL) {
        size_t size = strcspn(line, "\n");
        memcpy(rows[row_count].name, line, size < NAME_BYTES ? size : NAME_BYTES);
        rows[row_count].value = 0x3F800000u + (uint32_t)row_count;
        row_count++;
    }
    fclose(file);
    return row_count;
}

/* Reads the whole image, as an opening has to. */
static int load_image(const char *name)
{
    off_t size;
    char *bytes;
    image = open(name, O_RDWR);
    if (image < 0 || (size = lseek(image, 0, SEEK_END)) < 0 || (bytes = malloc((size_t)size + 1)) == NULL)
        return 0;
    return pread(image, bytes, (size_t)size, 0) == size;
}

int main(int count, char **words)
{
    uint8_t in[DATAGRAM_BYTES];
    struct sockaddr_in here = {.sin_family = AF_INET, .sin_addr.s_addr = htonl(INADDR_LOOPBACK)};
    struct timeval silence = {.tv_sec = 1};
    udp = socket(AF_INET, SOCK_DGRAM, 0);
    if (count < 3 || udp < 0 || !load_names(words[2]) || (count > 3 && !load_image(words[3])))
        return 1;
    synced = count > 4;
    setsockopt(udp, SOL_SOCKET, SO_RCVTIMEO, &silence, sizeof silence);
    here.sin_port = htons((unsigned short)atoi(words[1]));
    if (bind(udp, (struct sockaddr *)&here, sizeof here) != 0) {
        perror("bind");
        return 1;
    }
    for (;;) {
        struct sockaddr_in peer;
        socklen_t size = sizeof peer;
        ssize_t got = recvfrom(udp, in, sizeof in, 0, (struct sockaddr *)&peer, &size);
        if (got == 4 && memcmp(in, "END\n", 4) == 0)
            return 0;
        if (got > 0)
            take(in, (int)got, &peer);
    }
}
