/* Signs of rows by C that lnc has emitted: a line +, - or 0 for each record of a rows file on standard input, which is read as it
   stands and not checked. Built with -DCALL=ln_NAME for the predicate NAME, beside the emitted file. examples/check and bench/c
   compare the lines with those of `lnc run`. */
#include <stdint.h>
#include <stdio.h>
#include <stdlib.h>
#include <string.h>

int CALL(const int64_t *x, const int64_t *v);

enum { LONGEST = 1 << 14, MOST = 256 };

/* of each column whether it is an index: its name, and a dot, begin the next */
static int columns(char *header, int *is_index) {
  char *name[MOST];
  int n = 0;
  for (char *at = strtok(header, ",\r\n"); at && n < MOST; at = strtok(NULL, ",\r\n")) name[n++] = at;
  for (int i = 0; i < n; i++) {
    size_t length = strlen(name[i]);
    is_index[i] = i + 1 < n && !strncmp(name[i], name[i + 1], length) && name[i + 1][length] == '.';
  }
  return n;
}

int main(void) {
  static char line[LONGEST];
  int is_index[MOST];
  if (!fgets(line, sizeof line, stdin)) return 1;
  int n = columns(line, is_index);
  while (fgets(line, sizeof line, stdin)) {
    int64_t x[MOST], v[MOST];
    int sites = 0, values = 0;
    char *at = line;
    for (int i = 0; i < n; i++, at++) {
      int64_t number = strtoll(at, &at, 10);
      if (is_index[i]) x[sites++] = number; else v[values++] = number;
    }
    int sign = CALL(x, v);
    puts(sign > 0 ? "+" : sign < 0 ? "-" : "0");
  }
  return 0;
}
