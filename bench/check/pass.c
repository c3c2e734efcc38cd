/* A plain pass over a text: splits its lines and parses its numbers, and does nothing with them. */
#include <stdio.h>

int main(void) {
  static char piece[1 << 16];
  unsigned long long lines = 0, sum = 0, number = 0;
  size_t n;
  while ((n = fread(piece, 1, sizeof piece, stdin)) > 0)
    for (size_t at = 0; at < n; at++) {
      char byte = piece[at];
      if (byte >= '0' && byte <= '9') {
        number = 10 * number + (unsigned long long)(byte - '0');
      } else {
        sum += number;
        number = 0;
        lines += byte == '\n';
      }
    }
  printf("%llu lines, sum %llu\n", lines, sum + number);
  return 0;
}
