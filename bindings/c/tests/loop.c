/* An interpreter's loop: so many sticky matches with a start that moves on over one text. `loop COUNT` */
#include <regress.h>

#include "check.h"

#include <stdlib.h>

int main(int count, char **words) {
  const char *source = "(?<word>[a-z]+)|(?<number>\\d+)|( +)|(.)";
  unsigned long turns = count > 1 ? strtoul(words[1], NULL, 10) : 100, tokens = 0;
  regress_tables tables = {0};
  regress_pattern pattern = {0};
  regress_search search = {0};
  regress_range ranges[5];
  static char text[4096];
  size_t at = 0;
  for (size_t k = 0; k < sizeof text; k++) text[k] = "ab 12 if x7; "[k % 13];
  CHECK(regress_tables_small(&tables) == REGRESS_OK);
  CHECK(regress_compile(source, strlen(source), "y", &tables, &pattern, NULL) == REGRESS_OK);
  CHECK(regress_search_new(&pattern, &search) == REGRESS_OK);
  for (unsigned long turn = 0; turn < turns; turn++) {
    if (regress_match_at_valid(&search, text, sizeof text, at, ranges, 5) == 5 && ranges[0].start == at) tokens++;
    at = ranges[0].end < sizeof text ? ranges[0].end : 0;
  }
  CHECK(tokens == turns);
  regress_free(&search);
  regress_free(&pattern);
  regress_free(&tables);
  return told();
}
