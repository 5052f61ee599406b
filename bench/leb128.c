/* The loop that the reader of numbers is measured against: `numbers BYTES`. It makes the same data as
   bench/walrus_bench, prints what was read, and on standard error the microseconds that it took. */
#include <stdint.h>
#include <stdio.h>
#include <stdlib.h>
#include <time.h>

static int read_u32(const uint8_t *bytes, size_t size, size_t *position, uint32_t *number) {
  uint32_t read = 0;
  for (int shift = 0;; shift += 7) {
    if (*position >= size) return 1;
    uint8_t byte = bytes[(*position)++];
    if (shift == 28 && (byte & 0xf0)) return 2;
    read |= (uint32_t)(byte & 0x7f) << shift;
    if (!(byte & 0x80)) { *number = read; return 0; }
  }
}

__attribute__((noinline)) static uint64_t sum_of(const uint8_t *bytes, size_t size) {
  size_t position = 0;
  uint64_t sum = 0;
  uint32_t number;
  while (read_u32(bytes, size, &position, &number) == 0) sum += number;
  return sum;
}

static double micros(void) {
  struct timespec t;
  clock_gettime(CLOCK_MONOTONIC, &t);
  return t.tv_sec * 1e6 + t.tv_nsec / 1e3;
}

int main(int count, char **words) {
  if (count < 2) return 2;
  size_t size = strtoull(words[1], 0, 10), length = 0;
  uint8_t *bytes = malloc(size + 8);
  uint64_t state = 12345;
  const int shifts[5] = {25, 18, 11, 4, 0};
  while (length < size) {
    state = state * 6364136223846793005ull + 1442695040888963407ull;
    uint64_t n = ((state >> 20) & 0xffffffff) >> shifts[(state >> 60) % 5];
    for (; n >= 0x80; n >>= 7) bytes[length++] = (n & 0x7f) | 0x80;
    bytes[length++] = n & 0x7f;
  }
  double start = micros();
  uint64_t sum = sum_of(bytes, length);
  double took = micros() - start;
  printf("%zu bytes, sum %llu\n", length, (unsigned long long)sum);
  fprintf(stderr, "%.0f\n", took);
}
