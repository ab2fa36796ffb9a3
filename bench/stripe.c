/* The plain program that `bench/stripe` compares with: it prints the indices below N that a position
   of a striping owns. Words: WEIGHTS POSITION N. It checks nothing. */
#include <stdio.h>
#include <stdlib.h>

static unsigned long gcd(unsigned long a, unsigned long b) {
  while (b) {
    unsigned long rest = a % b;
    a = b;
    b = rest;
  }
  return a;
}

int main(int argc, char **argv) {
  static unsigned long weight[100], given[100];
  static unsigned char owner[100000];
  unsigned long count = 0, divisor = 0, period = 0;
  if (argc != 4) return 2;
  for (char *at = argv[1]; *at; at += *at == ',') {
    weight[count] = strtoul(at, &at, 10);
    divisor = gcd(divisor, weight[count++]);
  }
  for (unsigned long j = 0; j < count; j++) period += weight[j] /= divisor;
  for (unsigned long i = 0; i < period; i++) {
    unsigned long first = 0, most = 0;
    for (unsigned long j = 0; j < count; j++)
      if (weight[j] > most && given[j] * period <= i * weight[j]) {
        first = j;
        most = weight[j];
      }
    given[first]++;
    owner[i] = first;
  }
  unsigned long position = strtoul(argv[2], 0, 10), n = strtoul(argv[3], 0, 10);
  const char *before = "";
  for (unsigned long x = 0; x < n; x++)
    if (owner[x % period] == position) {
      printf("%s%lu", before, x);
      before = " ";
    }
  putchar('\n');
  return 0;
}
