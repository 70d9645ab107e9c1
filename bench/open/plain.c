/* plain.c FILE RECORDS PLACE: reads so many records of a tag's device from this place on, keeps them, and prints the average of the
 * line through them. `run.py` compiles it.
 *
 * It goes over the log in pieces of 64 KB, and stores each record in one array that it makes at first. It tests no header, summary,
 * lane, letter, range or order. So its time is that of reading and keeping so many records alone. */
#include <fcntl.h>
#include <stdint.h>
#include <stdio.h>
#include <stdlib.h>
#include <string.h>
#include <unistd.h>

enum { RECORD = 17, PIECE = 3855 };

struct record {
    uint8_t kind;
    uint64_t time;
    int64_t value;
};

/* Eight bytes as a number, the highest first. */
static uint64_t number(const uint8_t *bytes) {
    uint64_t n;
    memcpy(&n, bytes, sizeof n);
    return __builtin_bswap64(n);
}

/* Stores so many records of a piece. */
static void keep(struct record *to, const uint8_t *bytes, size_t count) {
    for (size_t i = 0; i < count; i++) {
        const uint8_t *b = bytes + RECORD * i;
        to[i] = (struct record){b[0], number(b + 1), (int64_t)number(b + 9)};
    }
}

int main(int argc, char **argv) {
    if (argc != 4) return 2;
    size_t count = strtoull(argv[2], NULL, 10);
    off_t place = strtoll(argv[3], NULL, 10);
    struct record *records = malloc(count * sizeof *records);
    uint8_t *piece = malloc(PIECE * RECORD);
    int file = open(argv[1], O_RDONLY);
    if (!records || !piece || file < 0) return 1;
    for (size_t done = 0; done < count;) {
        size_t next = count - done < PIECE ? count - done : PIECE;
        if (pread(file, piece, next * RECORD, place) != (ssize_t)(next * RECORD)) return 1;
        keep(records + done, piece, next);
        place += next * RECORD;
        done += next;
    }
    __int128 twice = 0;
    for (size_t i = 1; i < count; i++)
        twice += (__int128)(records[i - 1].value + records[i].value) * (records[i].time - records[i - 1].time);
    __int128 span = 2 * (__int128)(records[count - 1].time - records[0].time);
    __int128 average = twice / span - (twice % span < 0);
    printf("reply 1 1 %lld\n", (long long)average);
    return 0;
}
