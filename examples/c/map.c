/* Maps the files that are named: `map_c CELLS GRAPH [ARRIVALS]` prints what `map` prints, with enough words lent for any graph.
 * gcc -Iinclude examples/c/map.c target/staticlib/libarraymap.a
 * Status 0: the netlist or the refusal is printed; 2: a file could not be read, or the answer not written, or the command line is at fault. */
#include "arraymap.h"
#include <errno.h>
#include <inttypes.h>
#include <stdio.h>
#include <stdlib.h>
#include <string.h>

static uint8_t cells[ARRAYMAP_LIMIT + 1], graph[ARRAYMAP_LIMIT + 1], arrivals[ARRAYMAP_LIMIT + 1], text[ARRAYMAP_TEXT(4095, 4096)];
static uint16_t work[ARRAYMAP_WORDS(4095, 4096)];

/* An absent file counts as empty, as it does for `map`. One that is there and cannot be read would give another netlist: that ends the program.
 * A folder opens and fails at the first read. */
static size_t load(const char *path, uint8_t *to)
{
    FILE *f = fopen(path, "rb");
    if (!f && errno == ENOENT)
        return 0;
    size_t n = f ? fread(to, 1, ARRAYMAP_LIMIT + 1, f) : 0;
    if (!f || ferror(f)) {
        fprintf(stderr, "map_c: %s: %s\n", path, strerror(errno));
        exit(2);
    }
    fclose(f);
    return n;
}

int main(int argc, char **argv)
{
    if (argc != 3 && argc != 4) {
        fprintf(stderr, "usage: map_c CELLS GRAPH [ARRIVALS]\n");
        return 2;
    }
    size_t n = load(argv[1], cells), m = load(argv[2], graph), k = argc == 4 ? load(argv[3], arrivals) : 0;
    ArraymapAnswer a = arraymap_map(cells, n, graph, m, arrivals, k, work, sizeof work / sizeof *work, text, sizeof text);
    int written;
    if (a.number == ARRAYMAP_MAPPED)
        written = fwrite(text, 1, a.value, stdout) == a.value;
    else
        written = printf("refused %" PRIu64 " %" PRIu64 "\n", a.number, a.value) > 0;
    /* What is still in the buffer fails at the flush. */
    if (fflush(stdout) != 0 || !written) {
        perror("map_c: standard output");
        return 2;
    }
    return 0;
}
