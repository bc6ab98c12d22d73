/* Rows for examples/orientation/orient.ln, of which some are no rows, and the lines that are owed for them, worked out from the
   definition: the plain value, and where it is 0 the coefficients at products of infinitesimals, from the one that counts most.
   Usage: rows BYTES ROWS LINES: writes rows until no more than BYTES are filled, and a line for each. */
#include <stdint.h>
#include <stdio.h>
#include <stdlib.h>

enum { VARS = 6, TERMS = 6, LIST = 1 + VARS + TERMS };

/* p.x q.y - p.x r.y - r.x q.y - p.y q.x + p.y r.x + r.y q.x, by the places of the coordinates in a row */
static const int term[TERMS][3] = {{0, 3, 1}, {0, 5, -1}, {4, 3, -1}, {1, 2, -1}, {1, 4, 1}, {5, 2, 1}};

static uint64_t state = 1;
static uint64_t draw(void) {
  state ^= state << 13; state ^= state >> 7; state ^= state << 17;
  return state;
}

/* the value of the coefficient at the product of the infinitesimals of these variables */
static int64_t coefficient(unsigned at, const int64_t *v) {
  int64_t sum = 0;
  for (int t = 0; t < TERMS; t++) {
    unsigned its = 1u << term[t][0] | 1u << term[t][1];
    if ((at & ~its) != 0) continue;
    int64_t product = term[t][2];
    for (int i = 0; i < 2; i++) if (!(at >> term[t][i] & 1)) product *= v[term[t][i]];
    sum += product;
  }
  return sum;
}

/* how much later a product counts than others: a site with a larger index, then a coordinate that is declared earlier, weighs most */
static unsigned rank(unsigned at, const uint64_t *index) {
  unsigned sum = 0;
  for (int v = 0; v < VARS; v++) {
    int above = 0;
    for (int s = 0; s < 3; s++) above += index[v / 2] > index[s];
    if (at >> v & 1) sum |= 1u << (2 * above + (v % 2 == 0));
  }
  return sum;
}

/* writes the line of a row */
static void answer(FILE *lines, const uint64_t *index, const int64_t *v) {
  int64_t plain = coefficient(0, v);
  if (plain != 0) { fputs(plain > 0 ? "+ F\n" : "- F\n", lines); return; }
  unsigned all[LIST];
  int n = 0, place = 0;
  all[n++] = 0;
  for (int i = 0; i < VARS; i++) all[n++] = 1u << i;
  for (int t = 0; t < TERMS; t++) all[n++] = 1u << term[t][0] | 1u << term[t][1];
  for (int i = 1; i < n; i++)
    for (int k = i; k > 0 && rank(all[k], index) < rank(all[k - 1], index); k--) {
      unsigned held = all[k]; all[k] = all[k - 1]; all[k - 1] = held;
    }
  while (coefficient(all[place], v) == 0) place++;
  fprintf(lines, "%c %d\n", coefficient(all[place], v) > 0 ? '+' : '-', place);
}

static char *put(char *to, int64_t z) {
  char digits[20];
  int n = 0;
  uint64_t left = z < 0 ? -(uint64_t)z : (uint64_t)z;
  if (z < 0) *to++ = '-';
  do digits[n++] = (char)('0' + left % 10); while (left /= 10);
  while (n > 0) *to++ = digits[--n];
  return to;
}

/* what stands in a record that is no row, and its line */
static const char *const bad[][2] = {
  {"1,0,0,2,1,0,3,0", "! fields"}, {"1,0,0,2,1,0,3,0,1,", "! fields"}, {"x", "! fields"}, {"1,0,0,2,1,0,3,0,", "! number r.y"},
  {"1,1001,0,2,1,0,3,0,1", "! range p.x"}, {"1,0,0,2,1,-1001,3,0,1", "! range q.y"}, {"1,0,0,9223372036854775808,1,0,3,0,1", "! range q"},
  {"1,0,0,-2,1,0,3,0,1", "! range q"}, {"1,0,0,2,1.5,0,3,0,1", "! number q.x"}, {"7,0,0,2,1,0,7,0,1", "! index r"}, {"2,0,0,2,1,0,2,x,1", "! number r.x"}};

int main(int count, char **words) {
  if (count != 4) return 2;
  size_t most = strtoull(words[1], NULL, 10), filled = 0;
  FILE *rows = fopen(words[2], "w"), *lines = fopen(words[3], "w");
  if (!rows || !lines) return 2;
  filled += (size_t)fprintf(rows, "p,p.x,p.y,q,q.x,q.y,r,r.x,r.y\n");
  for (long n = 1; filled + 200 < most; n++) {
    if (n % 5003 == 0) {
      const char *const *it = bad[n / 5003 % (sizeof bad / sizeof *bad)];
      filled += (size_t)fprintf(rows, "%s\n", it[0]);
      fprintf(lines, "%s\n", it[1]);
      continue;
    }
    uint64_t index[3];
    int64_t v[VARS], wide = n % 2 ? 1000 : n % 4 ? 2 : 1;
    do for (int s = 0; s < 3; s++) index[s] = draw() >> (n % 97 ? 40 : 1); while (index[0] == index[1] || index[0] == index[2] || index[1] == index[2]);
    for (int i = 0; i < VARS; i++) v[i] = (int64_t)(draw() % (uint64_t)(2 * wide + 1)) - wide;
    char text[200], *at = text;
    for (int s = 0; s < 3; s++) {
      at = put(at, (int64_t)index[s]); *at++ = ',';
      at = put(at, v[2 * s]); *at++ = ',';
      at = put(at, v[2 * s + 1]); *at++ = s < 2 ? ',' : '\n';
    }
    fwrite(text, 1, (size_t)(at - text), rows);
    filled += (size_t)(at - text);
    answer(lines, index, v);
  }
  return fclose(rows) || fclose(lines);
}
