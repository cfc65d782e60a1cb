/* Prints the year of a date. Build it by `cc example.c $(pkg-config --cflags --libs regress)`. */
#include <regress.h>
#include <stdio.h>
#include <string.h>

int main(void) {
  const char *source = "(?<year>\\d{4})-(\\d\\d)", *text = "on 2025-06-01";
  regress_tables tables = {0};
  regress_pattern pattern = {0};
  regress_search search = {0};
  regress_error error;
  regress_range ranges[3];
  regress_tables_unicode(&tables);
  if (regress_compile(source, strlen(source), "u", &tables, &pattern, &error) != REGRESS_OK)
    printf("%s at %zu\n", error.text, error.place);
  else if (regress_search_new(&pattern, &search) == REGRESS_OK &&
           regress_find(&search, text, strlen(text), 0, ranges, 3) > 0)
    printf("%.*s\n", (int)(ranges[1].end - ranges[1].start), text + ranges[1].start);
  regress_free(&search);
  regress_free(&pattern);
  regress_free(&tables);
}
