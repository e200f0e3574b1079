/* Judges the log in each file that it is given, by libsiptrace, and writes a line for each, as the program siptrace does. */
#include "telling.h"

/* The status is 4 where a file cannot be read, or memory or random bytes are wanting. */
int main(int count, char **paths) {
  struct siptrace_seed seed;
  if (!fill_seed(&seed)) return 4;
  for (int at = 1; at < count; at++) {
    size_t length;
    uint8_t *log = read_all(paths[at], &length);
    if (!log) {
      fprintf(stderr, "%s: cannot read\n", paths[at]);
      return 4;
    }
    struct siptrace_verdict verdict;
    const uint32_t status = siptrace_judge(log, length, &seed, &verdict);
    free(log);
    if (status != SIPTRACE_ANSWERED) {
      fprintf(stderr, "%s: out of memory\n", paths[at]);
      return 4;
    }
    print_verdict(&verdict);
  }
  return 0;
}
