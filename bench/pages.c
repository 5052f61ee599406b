// Touches so many MiB of new memory in large pages, and tells what the system took for it: what any program of that size pays on this machine.
//     gcc -O2 -o pages bench/pages.c; for size in 107 214 428 857; do ./pages $size; done
#include <stdio.h>
#include <stdlib.h>
#include <sys/mman.h>
#include <sys/resource.h>

int main(int count, char **words) {
  size_t large = 2 << 20, size = count == 2 ? (size_t)atol(words[1]) << 20 : 0;
  char *pages = mmap(0, size + large, PROT_READ | PROT_WRITE, MAP_PRIVATE | MAP_ANONYMOUS, -1, 0);
  if (size == 0 || pages == MAP_FAILED) return 1;
  pages = (char *)(((size_t)pages + large - 1) / large * large);
  madvise(pages, size, MADV_HUGEPAGE);
  for (size_t at = 0; at < size; at += 4096) pages[at] = 1;
  struct rusage used;
  getrusage(RUSAGE_SELF, &used);
  printf("%zu MiB: %.3f s\n", size >> 20, used.ru_stime.tv_sec + used.ru_stime.tv_usec / 1e6);
}
