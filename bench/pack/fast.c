/* fast.c: a packer that is as fast as we can make one, to compare `historian pack` with. It takes the same words. `run.py` compiles it
   (cc -O3 -march=native). It reads plain lines alone, eight digits at a time, through one small buffer. It compares slopes in 128 bits,
   and writes all records at the end, from one buffer that grows. It checks nothing: not the form of a line, not the range of a number,
   not the length of the input, not how many records there are. Nobody should use it for anything else. */
#include <stdbool.h>
#include <stdint.h>
#include <stdlib.h>
#include <string.h>
#include <unistd.h>

enum { PIECE = 1 << 18, LINE = 64, PRINTED = 1 << 16 };

typedef __int128 wide;
typedef struct { uint64_t time; int64_t value; } point;
typedef struct { bool some; point at; } maybe;

static uint64_t exc_dev, exc_max, comp_min, comp_max;
static int64_t comp_dev;
static maybe hinge, held, waiting;
static bool doors;
static point upper, lower;

static char *text;
static size_t used, room;

/* Two decimal digits of each number below 100. */
static char pairs[200];

/* Writes a number in decimal. Returns the place after it. */
static char *print_number(char *to, uint64_t n) {
  char digits[24];
  char *p = digits + sizeof digits;
  while (n >= 100) {
    memcpy(p -= 2, pairs + n % 100 * 2, 2);
    n /= 100;
  }
  if (n >= 10) memcpy(p -= 2, pairs + n * 2, 2);
  else *--p = (char)('0' + n);
  size_t count = (size_t)(digits + sizeof digits - p);
  memcpy(to, p, count);
  return to + count;
}

/* Adds a line to the text. The kind has four letters and a comma. */
static void print_point(const char *kind, point p) {
  if (room - used < LINE) text = realloc(text, room = room * 2 + PRINTED);
  char *to = text + used;
  memcpy(to, kind, 5);
  to = print_number(to + 5, p.time);
  *to++ = ',';
  if (p.value < 0) *to++ = '-';
  to = print_number(to, (uint64_t)(p.value < 0 ? -p.value : p.value));
  *to++ = '\n';
  used = (size_t)(to - text);
}

/* Whether the slope rise / run is at most other_rise / other_run. */
static inline bool flatter(int64_t rise, uint64_t run, int64_t other_rise, uint64_t other_run) {
  return (wide)rise * other_run <= (wide)other_rise * run;
}

/* The compression of a value that was sent in order. */
static inline void compress(point p) {
  point newest = held.at;
  held = (maybe){true, p};
  if (!hinge.some) {
    print_point("kept,", p);
    hinge = held;
    return;
  }
  point a = hinge.at;
  if (!doors) {
    doors = true;
    upper = lower = p;
    return;
  }
  uint64_t run = p.time - a.time;
  int64_t rise = p.value - a.value, top = upper.value + comp_dev - a.value, bottom = lower.value - comp_dev - a.value;
  uint64_t top_run = upper.time - a.time, bottom_run = lower.time - a.time;
  if (run <= comp_max && flatter(rise, run, top, top_run) && flatter(bottom, bottom_run, rise, run)) {
    if (!flatter(top, top_run, rise + comp_dev, run)) upper = p;
    if (!flatter(rise - comp_dev, run, bottom, bottom_run)) lower = p;
    return;
  }
  if (run > comp_max || newest.time - a.time >= comp_min) {
    print_point("kept,", newest);
    hinge.at = newest;
  }
  upper = lower = p;
}

/* Sends the pending value, if there is one. */
static inline void send_waiting(void) {
  if (!waiting.some) return;
  waiting.some = false;
  compress(waiting.at);
}

/* The exception test. */
static inline void offer(point p) {
  if (!held.some) {
    compress(p);
    return;
  }
  uint64_t newest = waiting.some ? waiting.at.time : held.at.time;
  if (p.time <= newest) {
    send_waiting();
    print_point("late,", p);
    return;
  }
  int64_t step = p.value - held.at.value;
  if ((uint64_t)(step < 0 ? -step : step) <= exc_dev && p.time - held.at.time < exc_max) {
    waiting = (maybe){true, p};
    return;
  }
  send_waiting();
  compress(p);
}

/* The number that eight digits make, each in a byte of its own and the first one lowest. */
static inline uint64_t eight_digits(uint64_t word) {
  word = word * 10 + (word >> 8);
  return ((word & 0xff000000ff) * (100 + (1000000ull << 32)) + (word >> 16 & 0xff000000ff) * (1 + (10000ull << 32))) >> 32;
}

/* Reads a number in decimal. Returns the place after it. */
static inline const char *read_number(const char *at, uint64_t *number) {
  uint64_t word, sum = 0;
  memcpy(&word, at, 8);
  word ^= 0x3030303030303030;
  if (!((word + 0x7676767676767676 | word) & 0x8080808080808080)) {
    sum = eight_digits(word);
    at += 8;
  }
  for (unsigned digit; (digit = (unsigned char)*at - '0') < 10; at++) sum = sum * 10 + digit;
  *number = sum;
  return at;
}

/* Reads a line and offers its value. Returns the place after it. */
static inline const char *read_line(const char *at) {
  uint64_t time, size;
  at = read_number(at, &time) + 1;
  bool negative = *at == '-';
  at = read_number(at + negative, &size);
  at += *at == '\r';
  offer((point){time, negative ? -(int64_t)size : (int64_t)size});
  return at + 1;
}

int main(int count, char **words) {
  if (count != 7) return 2;
  exc_dev = strtoull(words[2], NULL, 10);
  exc_max = strtoull(words[3], NULL, 10);
  comp_dev = strtoll(words[4], NULL, 10);
  comp_min = strtoull(words[5], NULL, 10);
  comp_max = strtoull(words[6], NULL, 10);
  for (int n = 0; n < 100; n++) pairs[2 * n] = (char)('0' + n / 10), pairs[2 * n + 1] = (char)('0' + n % 10);
  char *buffer = calloc(1, PIECE + LINE);
  size_t begun = 0;
  ssize_t got;
  while ((got = read(0, buffer + begun, PIECE - begun)) > 0) {
    const char *at = buffer, *end = buffer + begun + got;
    while (end - at >= LINE) at = read_line(at);
    begun = (size_t)(end - at);
    memmove(buffer, at, begun);
  }
  memset(buffer + begun, 0, LINE);
  for (const char *at = buffer; at < buffer + begun;) at = read_line(at);
  if (held.some) print_point("held,", held.at);
  for (size_t done = 0; done < used;) {
    ssize_t wrote = write(1, text + done, used - done);
    if (wrote <= 0) return 1;
    done += (size_t)wrote;
  }
  return 0;
}
