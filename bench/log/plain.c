/* plain.c FILE..: plain code that does with these collectors' files what `log` does: a thread a file, one list under one lock, and
the same calls of the device, which is the file plain.log. A thread puts its rows in order. After each 64th and after its last it
keeps the lock until no row waits. It writes a block of at most 4,096 rows behind a closed gate, syncs it, opens the gate, and syncs
again. It prints how many rows were put and how many blocks were written. It makes no archive of the rows, compares nothing, and
does not free its lists. `run.py` compiles it. */
#include <fcntl.h>
#include <pthread.h>
#include <stdint.h>
#include <stdio.h>
#include <stdlib.h>
#include <string.h>
#include <unistd.h>

#define MOST 4096
#define ROW 32

struct row { uint32_t tag, collector; uint64_t number, time; int64_t value; };
struct file { const char *name; uint32_t collector; struct row *rows; size_t count; };

static pthread_mutex_t lock = PTHREAD_MUTEX_INITIALIZER;
static struct row *log_rows;
static size_t put, acked, blocks;
static off_t end = 12;
static int device;

/* Writes a number as so many bytes, the highest first. */
static void big(unsigned char *at, uint64_t n, int bytes)
{
    for (int i = bytes - 1; i >= 0; i--, n >>= 8) at[i] = (unsigned char)n;
}

/* Ends the program if a call has failed. */
static void must(int so, const char *what)
{
    if (!so) { perror(what); exit(1); }
}

/* Writes blocks until no row waits. Its caller holds the lock. */
static void commit(void)
{
    static unsigned char block[13 + MOST * ROW];
    while (acked < put) {
        size_t count = put - acked < MOST ? put - acked : MOST, at = 12;
        big(block, acked, 8);
        big(block + 8, count, 4);
        for (size_t i = 0; i < count; i++, at += ROW) {
            struct row r = log_rows[acked + i];
            big(block + at, r.tag, 4);
            big(block + at + 4, r.collector, 4);
            big(block + at + 8, r.number, 8);
            big(block + at + 16, r.time, 8);
            big(block + at + 24, (uint64_t)r.value, 8);
        }
        block[at++] = 0;
        must(pwrite(device, block, at, end) == (ssize_t)at && !fdatasync(device), "block");
        must(pwrite(device, "\xa5", 1, end - 1) == 1 && !fdatasync(device), "gate");
        end += (off_t)at;
        acked += count;
        blocks++;
    }
}

/* The thread of a file: puts its rows, and commits after each 64th and after the last. */
static void *collect(void *given)
{
    struct file *f = given;
    for (size_t i = 0; i < f->count; i++) {
        pthread_mutex_lock(&lock);
        log_rows[put++] = f->rows[i];
        if ((i + 1) % 64 == 0 || i + 1 == f->count) commit();
        pthread_mutex_unlock(&lock);
    }
    return NULL;
}

/* Reads the rows of a file into memory. */
static void read_rows(struct file *f)
{
    int source = open(f->name, O_RDONLY);
    off_t size = source < 0 ? -1 : lseek(source, 0, SEEK_END);
    must(size >= 0, f->name);
    char *text = malloc((size_t)size + 1), *at = text;
    must(text && pread(source, text, (size_t)size, 0) == size, f->name);
    text[size] = 0;
    close(source);
    size_t lines = 0;
    for (off_t i = 0; i < size; i++) lines += text[i] == '\n';
    f->rows = malloc(lines * sizeof *f->rows);
    must(f->rows != NULL, "memory");
    for (; f->count < lines; f->count++) {
        struct row *r = &f->rows[f->count];
        r->tag = (uint32_t)strtoul(at + 1, &at, 10);
        r->collector = f->collector;
        r->number = f->count + 1;
        r->time = strtoull(at + 1, &at, 10);
        r->value = strtoll(at + 1, &at, 10);
        at++;
    }
    free(text);
}

int main(int argc, char **argv)
{
    int files = argc - 1;
    size_t rows = 0;
    struct file *all = calloc((size_t)files, sizeof *all);
    pthread_t *threads = calloc((size_t)files, sizeof *threads);
    must(all && threads, "memory");
    for (int i = 0; i < files; i++) {
        all[i].name = argv[1 + i];
        all[i].collector = (uint32_t)i;
        read_rows(&all[i]);
        rows += all[i].count;
    }
    log_rows = malloc(rows * sizeof *log_rows);
    device = open("plain.log", O_RDWR | O_CREAT | O_TRUNC, 0644);
    must(log_rows && device >= 0, "plain.log");
    for (int i = 0; i < files; i++) must(!pthread_create(&threads[i], NULL, collect, &all[i]), "thread");
    for (int i = 0; i < files; i++) pthread_join(threads[i], NULL);
    printf("%zu rows %zu blocks\n", acked, blocks);
    return 0;
}
