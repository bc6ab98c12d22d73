// The plain program that a user would write for the task of `lnc run` on the orientation: rows from a CSV file, a sign for each.
// It checks what `lnc` checks of a row (nine numbers, ranges, indices that differ), and has no perturbation: degenerate rows give 0.
#include <cstdint>
#include <cstdio>
#include <cstdlib>
#include <fstream>
#include <iostream>
#include <string>

int main(int argc, char **argv) {
  if (argc != 2) return 2;
  std::ios::sync_with_stdio(false);
  std::ifstream in(argv[1]);
  std::string line;
  std::getline(in, line);
  while (std::getline(in, line)) {
    long long v[9];
    const char *at = line.c_str();
    int n = 0;
    while (n < 9) {
      char *end;
      v[n] = std::strtoll(at, &end, 10);
      if (end == at) break;
      n++;
      if (*end != ',') break;
      at = end + 1;
    }
    bool good = n == 9 && v[0] >= 0 && v[3] >= 0 && v[6] >= 0 && v[0] != v[3] && v[0] != v[6] && v[3] != v[6];
    for (int i = 0; good && i < 9; i++)
      if (i % 3 != 0 && (v[i] < -1000 || v[i] > 1000)) good = false;
    if (!good) { std::cout << "!\n"; continue; }
    __int128 d = (__int128)(v[1] - v[7]) * (v[5] - v[8]) - (__int128)(v[2] - v[8]) * (v[4] - v[7]);
    std::cout << (d > 0 ? "+\n" : d < 0 ? "-\n" : "0\n");
  }
}
