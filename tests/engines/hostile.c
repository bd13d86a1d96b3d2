/* Writes a line for each line of standard input, which has keys as bytes in hexadecimal, parted by commas: a read and a write of each. What is
   refused is told on standard error by its number. */
#include "lines.h"
#include <signal.h>

static size_t key_of(const char *text, size_t length, char *key) {
  for (size_t at = 0; at < length; at += 2) {
    char two[3] = {text[at], text[at + 1], 0};
    key[at / 2] = (char)strtol(two, NULL, 16);
  }
  return length / 2;
}

int main(void) {
  static char text[2000000], key[1000000];
  signal(SIGXFSZ, SIG_IGN);
  for (uint64_t id = 1; fgets(text, sizeof text, stdin); id++) {
    Line line = {0};
    text[strcspn(text, "\n")] = 0;
    for (char *at = text;; at++) {
      size_t length = strcspn(at, ","), size = key_of(at, length, key);
      line_read(&line, key, size, NULL);
      line_write(&line, key, size, UINT64_MAX - id);
      at += length;
      if (!*at) break;
    }
    if (line_committed(&line, 1, id, 2 * id, 2 * id + 1)) fprintf(stderr, "%llu\n", (unsigned long long)id);
  }
  return 0;
}
