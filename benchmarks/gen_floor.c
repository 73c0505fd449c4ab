/* The writes of `gen`, in C, to compare it with: gen_floor ROUNDS [SECTOR_BYTES].
 *
 * It makes the storage lines of a generated session of so many rounds, 1 to 1,000, and puts them into a flash in memory, by
 * docs/FORMATS.md: the formatting, the record of each PARAM_SET, the items of each upload, the flushes, the entries of the
 * log, and a switch where a sector is full. Then it reads the log, and prints how many lines were issued, the SHA-256 of the
 * storage bytes, how many halfwords were programmed, how many bytes the entries have, and how many switches there were.
 * It has no frames and no answers, knows the place of each record, recovers nothing, and proves nothing. */
#include <stdint.h>
#include <stdio.h>
#include <stdlib.h>
#include <string.h>

enum {
    STORAGE_BYTES = 15360,
    LINE_BYTES = 8,
    ENTRY_LINES = 8,
    CHUNK_BYTES = 64,
    PENDING_LINES = 2048,
    GUARD_HALFWORDS = 8192,
    AVAILABLE = 0x5BFF,
    IN_USE = 0x5BFE,
    FULL = 0x5BFC,
    SIGNATURE = 0x5168,
    ERASED = 0xFFFF,
    TOTAL_PLACE = 8,
    MISSION_BEGINS = 1280,
    FIRST_ROW = 64,
    ROWS = 176,
    SERVO_ROWS = 80
};

/* The flash: sectors, guard row, which sector is home, the end of its log in halfwords, and the guard count. */
static uint32_t sector_bytes = 131072;
static uint16_t *sectors[2], guard[GUARD_HALFWORDS];
static int home;
static uint32_t log_end = 2, guard_count;
static uint64_t programs, entry_bytes, switches;

/* The bytes with all lines, and with those that were put; the lines in between. */
static uint8_t current[STORAGE_BYTES], durable[STORAGE_BYTES];
static struct {
    uint32_t line;
    uint8_t bytes[LINE_BYTES];
} pending[PENDING_LINES];
static uint32_t first_pending, pending_count;
static uint64_t issued;

/* Rows 64 to 239 of the parameters, and where the next record begins. A place is 0 where there is no record. */
static struct {
    uint32_t header;
    uint32_t size, initial, place;
} rows[ROWS];
static uint32_t records_end = 10;

static void program(uint16_t *at, uint32_t word)
{
    *at &= (uint16_t)word;
    programs++;
}

static void append(uint32_t first, const uint8_t *bytes, uint32_t lines)
{
    uint32_t header = first << 2 | (lines - 1) << 13;
    uint16_t *at = sectors[home] + log_end;
    program(at, header | 1);
    for (uint32_t i = 0; i < 4 * lines; i++)
        program(at + 1 + i, bytes[2 * i] | (uint32_t)bytes[2 * i + 1] << 8);
    program(at, header);
    log_end += 1 + 4 * lines;
    entry_bytes += 2 + LINE_BYTES * lines;
}

/* Copies each chunk that isn't zero to the other sector, which becomes home, and erases the old one. */
static void switch_sectors(void)
{
    static const uint8_t zeros[CHUNK_BYTES];
    uint16_t *old = sectors[home];
    program(old, FULL);
    home = 1 - home;
    log_end = 2;
    program(sectors[home], IN_USE);
    for (uint32_t at = 0; at < STORAGE_BYTES; at += CHUNK_BYTES)
        if (memcmp(durable + at, zeros, CHUNK_BYTES) != 0)
            append(at / LINE_BYTES, durable + at, ENTRY_LINES);
    program(guard + guard_count++, 0);
    memset(old, 0xFF, sector_bytes);
    program(old, AVAILABLE);
    program(old + 1, SIGNATURE);
    program(guard + guard_count++, 0);
    switches++;
}

/* Puts the first pending lines, as many as are adjacent, as an entry, and says how many they are. */
static uint32_t put_front(void)
{
    uint8_t entry[ENTRY_LINES * LINE_BYTES];
    uint32_t first = pending[first_pending].line, lines = 0;
    while (lines < ENTRY_LINES && lines < pending_count) {
        uint32_t at = (first_pending + lines) % PENDING_LINES;
        if (pending[at].line != first + lines)
            break;
        memcpy(entry + LINE_BYTES * lines++, pending[at].bytes, LINE_BYTES);
    }
    if (2 * log_end + 2 + LINE_BYTES * lines > sector_bytes)
        switch_sectors();
    append(first, entry, lines);
    memcpy(durable + LINE_BYTES * first, entry, LINE_BYTES * lines);
    first_pending = (first_pending + lines) % PENDING_LINES;
    pending_count -= lines;
    return lines;
}

/* Puts at least so many lines, or all. */
static void flush(uint32_t count)
{
    uint32_t lines = 0;
    while (lines < count && pending_count > 0)
        lines += put_front();
}

/* Writes bytes at a place: a line for each eight bytes that change. */
static void put(uint32_t at, const uint8_t *bytes, uint32_t count)
{
    while (count > 0) {
        uint32_t line = at / LINE_BYTES, room = LINE_BYTES - at % LINE_BYTES, part = count < room ? count : room;
        if (memcmp(current + at, bytes, part) != 0) {
            uint32_t last = (first_pending + pending_count++) % PENDING_LINES;
            memcpy(current + at, bytes, part);
            pending[last].line = line;
            memcpy(pending[last].bytes, current + LINE_BYTES * line, LINE_BYTES);
            issued++;
        }
        at += part;
        bytes += part;
        count -= part;
    }
}

static void number(uint8_t *bytes, uint32_t value, uint32_t size)
{
    for (uint32_t i = 0; i < size; i++)
        bytes[i] = (uint8_t)(value >> 8 * i);
}

static void set_total(uint32_t total)
{
    uint8_t bytes[2];
    number(bytes, total, sizeof bytes);
    put(TOTAL_PLACE, bytes, sizeof bytes);
}

/* Puts a header, the line with its second byte last. */
static void put_header(uint32_t at, const uint8_t *header)
{
    uint32_t column = at % LINE_BYTES, lower = LINE_BYTES - column;
    if (column < 5) {
        put(at, header, 4);
    } else if (column == 7) {
        put(at, header, 1);
        put(at + 1, header + 1, 3);
    } else {
        put(at + lower, header + lower, 4 - lower);
        put(at, header, lower);
    }
}

static void set(int row, uint32_t value)
{
    static const uint8_t sentinel[4] = {0xFF, 0xFF, 0x3F, 0};
    uint8_t header[4], bytes[2];
    uint32_t at = records_end, size = rows[row].size;
    number(bytes, value, sizeof bytes);
    if (rows[row].place > 0) {
        put(rows[row].place, bytes, size);
    } else if (value != rows[row].initial) {
        number(header, rows[row].header, sizeof header);
        put(at + 4 + size, sentinel, sizeof sentinel);
        put(at + 4, bytes, size);
        put_header(at, header);
        rows[row].place = at + 4;
        records_end = at + 4 + size;
    }
}

static void begin_mission(void)
{
    static const uint8_t version[4] = {0xAE, 0x65, 0, 0};
    set_total(0);
    put(MISSION_BEGINS, version, sizeof version);
}

/* A waypoint relative to home. */
static void give(uint32_t seq, uint32_t x, uint32_t y, uint32_t metres)
{
    uint8_t command[15] = {16, 0, 0, 1};
    number(command + 4, 100 * metres, 3);
    number(command + 7, x, 4);
    number(command + 11, y, 4);
    put(MISSION_BEGINS + 4 + 15 * seq, command, sizeof command);
    set_total(seq + 1);
}

static void format(void)
{
    static const uint8_t second[8] = {0, 0, 0xFF, 0xFF, 0x3F}, first[8] = {0x50, 0x41, 6, 0, 0x14, 0x42};
    put(8, second, sizeof second);
    put(0, first, sizeof first);
    flush(PENDING_LINES);
}

/* The events of a round. */
static void run(uint32_t round)
{
    set((int)(round % ROWS), round % 100);
    flush(8);
    if (round % 10 == 0) {
        begin_mission();
        flush(8);
        for (uint32_t seq = 0; seq < 5; seq++) {
            give(seq, 473977420 + round, 85455970 + seq, 10 + seq);
            flush(8);
        }
    }
    if (round % 16 == 15)
        flush(PENDING_LINES);
    flush(8);
}

/* A row with a part of a path as its last index: key, type (1 i8, 2 i16) and element make the header. */
static void make_row(int row, uint32_t key, uint32_t first, uint32_t second, uint32_t initial, int is_small)
{
    rows[row].header = key | (is_small ? 1u : 2u) << 8 | (first | second << 6) << 14;
    rows[row].size = is_small ? 1 : 2;
    rows[row].initial = initial;
}

/* SERVO1 to SERVO16 with MIN, MAX, TRIM, REVERSED, FUNCTION, and RC1 to RC16 with MIN, TRIM, MAX, REVERSED, DZ, OPTION. */
static void make_rows(void)
{
    static const uint32_t servo[5] = {1100, 1900, 1500}, channel[6] = {1100, 1500, 1900};
    for (int row = 0; row < SERVO_ROWS; row++)
        make_row(row, 30, (uint32_t)row / 5 + 1, (uint32_t)row % 5 + 1, servo[row % 5], row % 5 == 3);
    for (int row = SERVO_ROWS; row < ROWS; row++) {
        uint32_t part = (uint32_t)(row - SERVO_ROWS) % 6;
        make_row(row, 31, (uint32_t)(row - SERVO_ROWS) / 6 + 1, part == 0 ? 63 : part, channel[part], part == 3);
    }
}

static int make_flash(void)
{
    for (int i = 0; i < 2; i++) {
        if ((sectors[i] = malloc(sector_bytes)) == NULL)
            return 0;
        memset(sectors[i], 0xFF, sector_bytes);
        sectors[i][0] = i == 0 ? IN_USE : AVAILABLE;
        sectors[i][1] = SIGNATURE;
    }
    memset(guard, 0xFF, sizeof guard);
    return 1;
}

/* Reads the valid entries of home's log. */
static void read_log(uint8_t *bytes)
{
    const uint16_t *words = sectors[home];
    for (uint32_t at = 2; at < sector_bytes / 2 && words[at] != ERASED;) {
        uint32_t first = words[at] >> 2 & 0x7FF, halfwords = 4 * ((uint32_t)(words[at] >> 13) + 1);
        for (uint32_t i = 0; i < halfwords && (words[at] & 3) == 0; i++)
            number(bytes + LINE_BYTES * first + 2 * i, words[at + 1 + i], 2);
        at += 1 + halfwords;
    }
}

static uint32_t turned(uint32_t word, int by)
{
    return word >> by | word << (32 - by);
}

/* A block of SHA-256. */
static void digest_block(uint32_t *state, const uint8_t *block)
{
    static const uint32_t constants[64] = {
        0x428A2F98, 0x71374491, 0xB5C0FBCF, 0xE9B5DBA5, 0x3956C25B, 0x59F111F1, 0x923F82A4, 0xAB1C5ED5,
        0xD807AA98, 0x12835B01, 0x243185BE, 0x550C7DC3, 0x72BE5D74, 0x80DEB1FE, 0x9BDC06A7, 0xC19BF174,
        0xE49B69C1, 0xEFBE4786, 0x0FC19DC6, 0x240CA1CC, 0x2DE92C6F, 0x4A7484AA, 0x5CB0A9DC, 0x76F988DA,
        0x983E5152, 0xA831C66D, 0xB00327C8, 0xBF597FC7, 0xC6E00BF3, 0xD5A79147, 0x06CA6351, 0x14292967,
        0x27B70A85, 0x2E1B2138, 0x4D2C6DFC, 0x53380D13, 0x650A7354, 0x766A0ABB, 0x81C2C92E, 0x92722C85,
        0xA2BFE8A1, 0xA81A664B, 0xC24B8B70, 0xC76C51A3, 0xD192E819, 0xD6990624, 0xF40E3585, 0x106AA070,
        0x19A4C116, 0x1E376C08, 0x2748774C, 0x34B0BCB5, 0x391C0CB3, 0x4ED8AA4A, 0x5B9CCA4F, 0x682E6FF3,
        0x748F82EE, 0x78A5636F, 0x84C87814, 0x8CC70208, 0x90BEFFFA, 0xA4506CEB, 0xBEF9A3F7, 0xC67178F2};
    uint32_t words[64] = {0}, now[8];
    for (int i = 0; i < 64; i++)
        words[i / 4] = words[i / 4] << 8 | block[i];
    for (int i = 16; i < 64; i++) {
        uint32_t early = words[i - 15], late = words[i - 2];
        words[i] = words[i - 16] + (turned(early, 7) ^ turned(early, 18) ^ early >> 3) + words[i - 7]
            + (turned(late, 17) ^ turned(late, 19) ^ late >> 10);
    }
    memcpy(now, state, sizeof now);
    for (int i = 0; i < 64; i++) {
        uint32_t a = now[0], e = now[4], one = now[7] + constants[i] + words[i], two;
        one += (turned(e, 6) ^ turned(e, 11) ^ turned(e, 25)) + ((e & now[5]) ^ (~e & now[6]));
        two = (turned(a, 2) ^ turned(a, 13) ^ turned(a, 22)) + ((a & now[1]) ^ (a & now[2]) ^ (now[1] & now[2]));
        memmove(now + 1, now, 7 * sizeof now[0]);
        now[4] += one;
        now[0] = one + two;
    }
    for (int i = 0; i < 8; i++)
        state[i] += now[i];
}

/* Prints the SHA-256 of the storage bytes, which are a whole number of blocks. */
static void print_digest(const uint8_t *bytes)
{
    uint32_t state[8] = {0x6A09E667, 0xBB67AE85, 0x3C6EF372, 0xA54FF53A, 0x510E527F, 0x9B05688C, 0x1F83D9AB, 0x5BE0CD19};
    uint8_t last[64] = {0x80};
    for (int at = 0; at < STORAGE_BYTES; at += 64)
        digest_block(state, bytes + at);
    last[61] = (uint8_t)(8 * STORAGE_BYTES >> 16);
    last[62] = (uint8_t)(8 * STORAGE_BYTES >> 8);
    last[63] = (uint8_t)(8 * STORAGE_BYTES);
    digest_block(state, last);
    for (int i = 0; i < 8; i++)
        printf("%08x", (unsigned)state[i]);
}

int main(int count, char **words)
{
    static uint8_t read[STORAGE_BYTES];
    uint32_t rounds = count > 1 ? (uint32_t)atoi(words[1]) : 0;
    if (count > 2)
        sector_bytes = (uint32_t)atoi(words[2]);
    if (rounds < 1 || rounds > 1000 || sector_bytes < 16384 || !make_flash())
        return 1;
    make_rows();
    format();
    for (uint32_t round = 0; round < rounds; round++)
        run(round);
    flush(PENDING_LINES);
    read_log(read);
    printf("gen %u lines %llu sha256 ", (unsigned)rounds, (unsigned long long)issued);
    print_digest(read);
    printf(" programs %llu bytes %llu switches %llu\n", (unsigned long long)programs, (unsigned long long)entry_bytes,
        (unsigned long long)switches);
    return memcmp(read, current, sizeof read) == 0 ? 0 : 2;
}
