/* What `ol check TERM JOURNAL` prints, by libolcheck; with -n the first file has a net, and with -t 1 or -t 2 the term
   is taken by that translation. The program of tests/run library. */

#include "olcheck.h"
#include <stdio.h>
#include <stdlib.h>
#include <string.h>

static char *read_file(const char *name, size_t *length) {
    FILE *file = fopen(name, "rb");
    char *text = malloc(1 << 26);
    if (!file || !text) exit(2);
    *length = fread(text, 1, 1 << 26, file);
    if (fgetc(file) != EOF) exit(2);
    fclose(file);
    return text;
}

int main(int count, char **words) {
    int is_net = count == 4 && !strcmp(words[1], "-n"), has_number = count == 5 && !strcmp(words[1], "-t");
    if (count != 3 && !is_net && !has_number) return 1;
    size_t m, n;
    char room[4096], *file = read_file(words[count - 2], &m), *journal = read_file(words[count - 1], &n);
    uint32_t by = has_number ? (uint32_t)atoi(words[2]) : 0;
    struct ol_counts r;
    struct ol_verdict v = is_net ? ol_count_net(file, m, journal, n, &r) : ol_count(file, m, by, journal, n, &r);
    size_t size = is_net ? ol_explain_net(file, m, journal, n, room, sizeof room)
                         : ol_explain(file, m, by, journal, n, room, sizeof room);
    fwrite(room, 1, size < sizeof room ? size : sizeof room, stdout);
    printf("%u %u: %u %u %u %u %u %u %u %u\n", v.word, v.number, r.beta, r.fan, r.croissant, r.bracket,
           r.cross_fan, r.cross_croissant, r.cross_bracket, r.erase);
    return 0;
}
