/* The report of a recording, through the static library: report FILE. Exit status: 0 no race, 1 races, 2 refused or trouble. */
#include "../include/tarungkis.h"
#include <stdio.h>

int main(int count, char **words) {
  /* one byte more than a recording may have, so that a longer file is refused */
  uint8_t file[TARUNGKIS_MAX_BYTES + 1];
  uint8_t out[2 * TARUNGKIS_LINE_BYTES];
  uint8_t area[TARUNGKIS_AREA_BYTES];
  uint32_t place[4] = {0};
  FILE *input = count == 2 ? fopen(words[1], "rb") : NULL;
  if (input == NULL) {
    fprintf(stderr, "report: use: report FILE, of a file that can be read\n");
    return 2;
  }
  size_t bytes = fread(file, 1, sizeof file, input);
  if (ferror(input)) {
    fprintf(stderr, "report: cannot read %s\n", words[1]);
    return 2;
  }
  size_t n;
  while ((n = tarungkis_report(file, bytes, place, out, sizeof out)) > 0)
    fwrite(out, 1, n, stdout);
  if (fflush(stdout) != 0) {
    fprintf(stderr, "report: cannot write the report\n");
    return 2;
  }
  uint64_t first = tarungkis_next_race(file, bytes, 0, 0, area, sizeof area);
  if (TARUNGKIS_IS_REFUSAL(first))
    return 2;
  return TARUNGKIS_CASE(first) == TARUNGKIS_RACE ? 1 : 0;
}
