/* Every function of the static library, called from C: the paper's recording Q, with the answers that the paper gives; and calls with nothing lent. */
#include "../include/tarungkis.h"
#include <stdio.h>
#include <string.h>

static int failed;
static void expect(const char *what, uint64_t answer, unsigned number, unsigned first, unsigned long second) {
  if (TARUNGKIS_CASE(answer) == number && TARUNGKIS_FIRST(answer) == first && TARUNGKIS_SECOND(answer) == second)
    return;
  printf("%s: %u %u %lu\n", what, TARUNGKIS_CASE(answer), TARUNGKIS_FIRST(answer), TARUNGKIS_SECOND(answer));
  failed = 1;
}
static void holds(const char *what, int fact) {
  if (!fact) {
    printf("%s\n", what);
    failed = 1;
  }
}

static const uint8_t q[] = {0, 2, 1, 0, 0, 3, 0, 0, 0, 1, 0, 0, 0, 4, 0, 0, 1, 3, 0, 0, 1, 1, 0, 0, 1, 4, 0, 0, 1, 1, 1, 0, 40, 0, 0, 0, 8, 0, 0x50, 0x4C};
static const uint8_t threads[] = {0, 0, 0, 0, 1, 1, 1, 1};
static const uint8_t kinds[] = {2, 3, 1, 4, 3, 1, 4, 1};
static const uint16_t objects[] = {1, 0, 0, 0, 0, 0, 0, 1};
static const char report[] = "events 8 threads 2\nrace 1 8 witness 5 6 7\nraces 1\n";
static uint8_t area[TARUNGKIS_AREA_BYTES];
static uint8_t out[TARUNGKIS_LINE_BYTES];

int main(void) {
  uint16_t list[10];
  uint16_t good[] = {5, 6, 7};
  uint16_t writes[] = {65535, 65535, 65535, 0, 65535, 65535, 0, 65535, 1, 9999};
  uint32_t place[4] = {0};
  uint8_t file[sizeof q + 1];

  expect("judge", tarungkis_judge(q, sizeof q), TARUNGKIS_GOOD, 8, 2);
  expect("observed write", tarungkis_observed_write(q, sizeof q, 8), TARUNGKIS_WRITE, 1, 0);
  expect("observed start", tarungkis_observed_write(q, sizeof q, 3), TARUNGKIS_START, 0, 0);
  expect("not a read", tarungkis_observed_write(q, sizeof q, 9), TARUNGKIS_NOT_A_READ, 0, 0);
  list[9] = 9999;
  expect("observed writes", tarungkis_observed_writes(q, sizeof q, list, 10), TARUNGKIS_GIVEN, 8, 0);
  holds("the entries", memcmp(list, writes, sizeof writes) == 0);
  expect("verdict", tarungkis_verdict(q, sizeof q, 1, 8, list, 10, area, sizeof area), TARUNGKIS_REPORTED, 3, 0);
  holds("the witness", memcmp(list, good, sizeof good) == 0 && memcmp(list + 3, writes + 3, 7 * sizeof *list) == 0);
  area[0] = area[TARUNGKIS_AREA_BYTES - 1] = 7;
  expect("no pair", tarungkis_verdict(q, sizeof q, 8, 1, list, 10, area, sizeof area), TARUNGKIS_NOT_CONFLICTING, 0, 0);
  expect("short list", tarungkis_verdict(q, sizeof q, 1, 8, list, 7, area, sizeof area), TARUNGKIS_LIST_SHORT, 0, 0);
  expect("short area", tarungkis_verdict(q, sizeof q, 1, 8, list, 8, area, sizeof area - 1), TARUNGKIS_AREA_SHORT, 0, 0);
  holds("a refusal changes nothing", memcmp(list, good, sizeof good) == 0 && area[0] == 7 && area[TARUNGKIS_AREA_BYTES - 1] == 7);
  expect("next race", tarungkis_next_race(q, sizeof q, 0, 0, area, sizeof area), TARUNGKIS_RACE, 1, 8);
  holds("the area is zero", area[0] == 0 && area[TARUNGKIS_AREA_BYTES - 1] == 0);
  expect("no race", tarungkis_next_race(q, sizeof q, 1, 8, area, sizeof area), TARUNGKIS_NO_RACE, 0, 0);
  expect("check", tarungkis_check_reordering(q, sizeof q, 1, 8, good, 3), TARUNGKIS_YES, 0, 0);
  expect("fault", tarungkis_check_reordering(q, sizeof q, 1, 8, good, 2), TARUNGKIS_NO, TARUNGKIS_HIGHER_NOT_ENABLED, 0);
  expect("note", tarungkis_note(q, sizeof q), TARUNGKIS_NOTE_OF_OPERATOR, 0, 0);
  expect("writer", tarungkis_write_file(NULL, 0, threads, 8, kinds, 8, objects, 8, file, sizeof q), TARUNGKIS_WRITTEN, sizeof q, 0);
  holds("the file", memcmp(file, q, sizeof q) == 0);
  expect("lists", tarungkis_write_file(NULL, 0, threads, 7, kinds, 8, objects, 8, file, sizeof q), TARUNGKIS_LIST_SHORT, 0, 0);
  expect("with a note", tarungkis_write_file((const uint8_t *)"n", 1, threads, 8, kinds, 8, objects, 8, file, sizeof file), TARUNGKIS_WRITTEN, sizeof file, 0);
  expect("its note", tarungkis_note(file, sizeof file), TARUNGKIS_NOTE_IN_FILE, 1, 0);
  file[sizeof file - 1 - 8 - 4 * 4 - 2] = 9;
  expect("kind 9", tarungkis_judge(file, sizeof file), TARUNGKIS_KIND, 4, 0);

  holds("the report", tarungkis_report(q, sizeof q, place, out, sizeof out) == 19 && memcmp(out, report, 19) == 0 && place[0] == 1);
  holds("its second line", tarungkis_report(q, sizeof q, place, out, sizeof out) == 23 && memcmp(out, report + 19, 23) == 0 && place[0] == 1);
  holds("a short buffer", tarungkis_report(q, sizeof q, place, out, sizeof out - 1) == 0 && place[0] == 1 && place[1] == 1 && place[2] == 8 && place[3] == 1);
  holds("its last line", tarungkis_report(q, sizeof q, place, out, sizeof out) == 8 && memcmp(out, report + 42, 8) == 0 && place[0] == 2);
  holds("its end", tarungkis_report(q, sizeof q, place, out, sizeof out) == 0 && place[0] == 2 && memcmp(out, report + 42, 8) == 0);
  place[0] = 0, place[3] = TARUNGKIS_MAX_RACES + 1;
  holds("no place", tarungkis_report(q, sizeof q, place, out, sizeof out) == 0 && place[3] == TARUNGKIS_MAX_RACES + 1);

  expect("nothing", tarungkis_judge(NULL, 0), TARUNGKIS_FILE_SIZE, 0, 0);
  expect("nothing, 2", tarungkis_observed_writes(NULL, 0, NULL, 0), TARUNGKIS_FILE_SIZE, 0, 0);
  expect("nothing, 3", tarungkis_verdict(NULL, 0, 0, 0, NULL, 0, NULL, 0), TARUNGKIS_FILE_SIZE, 0, 0);
  expect("nothing, 4", tarungkis_next_race(q, sizeof q, 0, 0, NULL, 0), TARUNGKIS_AREA_SHORT, 0, 0);
  expect("nothing, 5", tarungkis_check_reordering(q, sizeof q, 1, 8, NULL, 0), TARUNGKIS_NO, TARUNGKIS_HIGHER_NOT_ENABLED, 0);
  expect("nothing, 6", tarungkis_note(NULL, 0), TARUNGKIS_NOTE_IN_FILE, 0, 0);
  expect("nothing written", tarungkis_write_file(NULL, 0, NULL, 0, NULL, 0, NULL, 0, out, 8), TARUNGKIS_WRITTEN, 8, 0);
  expect("nowhere written", tarungkis_write_file(NULL, 0, NULL, 0, NULL, 0, NULL, 0, NULL, 0), TARUNGKIS_LIST_SHORT, 0, 0);
  return failed;
}
