/* What include/arraymap.h says of every array of every call, from C: null is one of no elements, texts that are only read may share memory, the texts can be
 * constants that nobody may write, and the macros' lengths are enough. The same from Rust is in tests/calls.rs.
 * gcc -Iinclude tests/other/calls.c target/staticlib/libarraymap.a */
#include "arraymap.h"
#include <stdio.h>
#include <stdlib.h>
#include <string.h>

#define NETLIST                                                                                                                                      \
    ".model top\n.inputs p1 p2\n.outputs o0\n.gate inv A=m3 O=p3\n.gate nand2 A=p1 B=p2 O=m3\n.names p3 o0\n1 1\n.end\n"                             \
    "# gates 2 area 3 arrival 30\n"
#define GRAPH "aag 3 2 0 1 1\n2\n4\n6\n6 2 4\n"
#define LATE "input arrival\n1 5\n"
#define CELLS "cell pins table area d0 d1 d2 d3\ninv 1 0001 1 10 0 0 0\nnand2 2 0007 2 20 20 0 0\n"

enum { N = sizeof NETLIST - 1, G = sizeof GRAPH - 1, L = sizeof LATE - 1, C = sizeof CELLS - 1, ALL = N + G + L + C };
enum { WORDS = ARRAYMAP_CHECK_WORDS(3, 1, 16), BYTES = ARRAYMAP_TEXT_PAIRS(3, 1) };

/* What follows the last AND line and `.end` is not read: each text begins in the one before it. */
static const uint8_t all[] = NETLIST GRAPH LATE CELLS;
static const uint8_t *const netlist = all, *const graph = all + N, *const late = all + N + G, *const cells = all + N + G + L;
static const uint8_t genlib[] = "GATE inv 1 O=!a;\nPIN * INV 1 999 1 0 1 0\n";

static uint16_t work[2 * WORDS];
static uint8_t text[BYTES], second[BYTES];
static uint64_t tally[ARRAYMAP_TALLY];

static int tried, failed;

static void is(int line, uint64_t number, uint64_t value, uint64_t wanted, uint64_t place)
{
    tried++;
    if (number == wanted && value == place)
        return;
    failed++;
    printf("calls.c:%d: %llu %llu, not %llu %llu\n", line, (unsigned long long)number, (unsigned long long)value, (unsigned long long)wanted,
           (unsigned long long)place);
}

#define IS(answer, wanted, place)                                                                                                                    \
    do {                                                                                                                                             \
        ArraymapAnswer a = answer;                                                                                                                     \
        is(__LINE__, a.number, a.value, wanted, place);                                                                                              \
    } while (0)

#define BOTH(answers, wanted1, place1, wanted2, place2)                                                                                              \
    do {                                                                                                                                             \
        ArraymapTwo a = answers;                                                                                                                       \
        is(__LINE__, a.first.number, a.first.value, wanted1, place1);                                                                                \
        is(__LINE__, a.second.number, a.second.value, wanted2, place2);                                                                              \
    } while (0)

#define FINDS(checked, wanted, number, place)                                                                                                        \
    do {                                                                                                                                             \
        ArraymapChecked a = checked;                                                                                                                   \
        is(__LINE__, a.verdict, 0, wanted, 0);                                                                                                       \
        is(__LINE__, a.first, a.second, number, place);                                                                                              \
    } while (0)

typedef ArraymapAnswer Map(const uint8_t *, size_t, const uint8_t *, size_t, const uint8_t *, size_t, uint16_t *, size_t, uint8_t *, size_t);
typedef ArraymapTwo MapTwo(const uint8_t *, size_t, const uint8_t *, size_t, const uint8_t *, size_t, const uint8_t *, size_t, const uint8_t *, size_t,
                         uint16_t *, size_t, uint8_t *, size_t, uint8_t *, size_t);

static void one_graph(Map *map, size_t length)
{
    IS(map(NULL, 0, graph, G, late, L, work, WORDS, text, BYTES), ARRAYMAP_NAMES_LINE, 0);
    IS(map(cells, C, NULL, 0, late, L, work, WORDS, text, BYTES), ARRAYMAP_HEADER_FORM, 0);
    IS(map(cells, C, graph, G, NULL, 0, work, WORDS, text, BYTES), ARRAYMAP_MAPPED, length);
    IS(map(cells, C, graph, G, late, L, NULL, 0, text, BYTES), ARRAYMAP_WORK_SHORT, 0);
    IS(map(cells, C, graph, G, late, L, work, WORDS, NULL, 0), ARRAYMAP_TEXT_SHORT, length);
    IS(map(NULL, 0, NULL, 0, NULL, 0, NULL, 0, NULL, 0), ARRAYMAP_NAMES_LINE, 0);
    /* The graph's text has the arrivals and the cells in it. */
    ArraymapAnswer a = map(cells, C, graph, G + L + C, late, L, work, ARRAYMAP_WORDS(3, 1), text, length);
    is(__LINE__, a.number, a.arrival, ARRAYMAP_MAPPED, 35);
    IS(map(cells, C, cells, C, cells, C, work, WORDS, text, BYTES), ARRAYMAP_HEADER_FORM, 0);
    IS(map(cells, C, graph, G, graph, G, work, WORDS, text, BYTES), ARRAYMAP_ARRIVAL_FORM, 0);
    IS(map(all, ALL, all, ALL, all, ALL, work, WORDS, text, BYTES), ARRAYMAP_NAMES_LINE, 0);
}

static void two_graphs(MapTwo *map, size_t length)
{
    BOTH(map(NULL, 0, NULL, 0, NULL, 0, NULL, 0, NULL, 0, NULL, 0, NULL, 0, NULL, 0), ARRAYMAP_NAMES_LINE, 0, ARRAYMAP_NAMES_LINE, 0);
    BOTH(map(cells, C, NULL, 0, NULL, 0, graph, G, NULL, 0, work, WORDS, text, BYTES, second, BYTES), ARRAYMAP_HEADER_FORM, 0, ARRAYMAP_HEADER_FORM, 0);
    BOTH(map(cells, C, graph, G, late, L, NULL, 0, late, L, work, WORDS, text, BYTES, second, BYTES), ARRAYMAP_HEADER_FORM, 0, ARRAYMAP_HEADER_FORM, 0);
    BOTH(map(cells, C, graph, G, late, L, graph, G, late, L, NULL, 0, text, BYTES, second, BYTES), ARRAYMAP_WORK_SHORT, 0, ARRAYMAP_WORK_SHORT, 0);
    BOTH(map(cells, C, graph, G, NULL, 0, graph, G, late, L, work, 2 * WORDS, NULL, 0, second, BYTES), ARRAYMAP_TEXT_SHORT, length, ARRAYMAP_MAPPED, length);
    BOTH(map(cells, C, graph, G, late, L, graph, G, NULL, 0, work, 2 * WORDS, text, BYTES, NULL, 0), ARRAYMAP_MAPPED, length, ARRAYMAP_TEXT_SHORT, length);
    /* One graph and one arrivals text for both channels. */
    BOTH(map(cells, C, graph, G + L + C, late, L, graph, G + L + C, late, L, work, 2 * ARRAYMAP_WORDS(3, 1), text, length, second, length), ARRAYMAP_MAPPED,
         length, ARRAYMAP_MAPPED, length);
    tried++;
    if (memcmp(text, second, length) != 0) {
        failed++;
        printf("calls.c:%d: two channels of one graph differ\n", __LINE__);
    }
    BOTH(map(all, ALL, all, ALL, all, ALL, all, ALL, all, ALL, work, WORDS, text, BYTES, second, BYTES), ARRAYMAP_NAMES_LINE, 0, ARRAYMAP_NAMES_LINE, 0);
}

int main(void)
{
    one_graph(arraymap_map, N);
    one_graph(arraymap_map_pairs, N + 2);
    two_graphs(arraymap_map_two, N);
    two_graphs(arraymap_map_two_pairs, N + 2);

    FINDS(arraymap_check(NULL, 0, graph, G, netlist, N, work, WORDS), ARRAYMAP_REFUSED, ARRAYMAP_NAMES_LINE, 0);
    FINDS(arraymap_check(cells, C, NULL, 0, netlist, N, work, WORDS), ARRAYMAP_REFUSED, ARRAYMAP_HEADER_FORM, 0);
    FINDS(arraymap_check(cells, C, graph, G, NULL, 0, work, WORDS), ARRAYMAP_REFUSED, ARRAYMAP_EDITED_FORM, 0);
    FINDS(arraymap_check(cells, C, graph, G, netlist, N, NULL, 0), ARRAYMAP_REFUSED, ARRAYMAP_WORK_SHORT, 0);
    FINDS(arraymap_check(NULL, 0, NULL, 0, NULL, 0, NULL, 0), ARRAYMAP_REFUSED, ARRAYMAP_NAMES_LINE, 0);
    FINDS(arraymap_check(cells, C, graph, G + L + C, netlist, N, work, ARRAYMAP_CHECK_WORDS(3, 1, 9)), ARRAYMAP_ACCEPTED, 0, 0);
    FINDS(arraymap_check(cells, C, graph, G + L + C, all, ALL, work, ARRAYMAP_CHECK_WORDS(3, 1, 19)), ARRAYMAP_ACCEPTED, 0, 0);
    FINDS(arraymap_check(cells, C, cells, C, cells, C, work, WORDS), ARRAYMAP_REFUSED, ARRAYMAP_HEADER_FORM, 0);

    IS(arraymap_cells(NULL, 0, text, BYTES), ARRAYMAP_MAPPED, 33);
    IS(arraymap_cells(NULL, 0, NULL, 0), ARRAYMAP_TEXT_SHORT, 33);
    IS(arraymap_cells(genlib, sizeof genlib - 1, NULL, 0), ARRAYMAP_TEXT_SHORT, 60);

    IS(arraymap_count(NULL, 0, netlist, N, tally, ARRAYMAP_TALLY), ARRAYMAP_NAMES_LINE, 0);
    IS(arraymap_count(cells, C, NULL, 0, tally, ARRAYMAP_TALLY), ARRAYMAP_NETLIST_LINE, 0);
    IS(arraymap_count(cells, C, netlist, N, NULL, 0), ARRAYMAP_TALLY_FULL, 64);
    IS(arraymap_count(NULL, 0, NULL, 0, NULL, 0), ARRAYMAP_NAMES_LINE, 0);
    IS(arraymap_count(cells, C, cells, C, tally, ARRAYMAP_TALLY), ARRAYMAP_NETLIST_LINE, 0);
    IS(arraymap_count(cells, C, all, ALL, tally, ARRAYMAP_TALLY), ARRAYMAP_NETLIST_LINE, N);
    IS(arraymap_count(cells, C, netlist, N, tally, ARRAYMAP_TALLY), ARRAYMAP_MAPPED, 0);

    IS(arraymap_report(NULL, 0, tally, ARRAYMAP_TALLY, text, BYTES), ARRAYMAP_NAMES_LINE, 0);
    IS(arraymap_report(cells, C, NULL, 0, text, BYTES), ARRAYMAP_TALLY_FULL, 64);
    IS(arraymap_report(cells, C, tally, ARRAYMAP_TALLY, NULL, 0), ARRAYMAP_TEXT_SHORT, 34);
    IS(arraymap_report(NULL, 0, NULL, 0, NULL, 0), ARRAYMAP_NAMES_LINE, 0);
    IS(arraymap_report(cells, C, tally, ARRAYMAP_TALLY, text, 34), ARRAYMAP_MAPPED, 34);
    /* The tally's own bytes as the cells: they are no names line. */
    IS(arraymap_report((const uint8_t *)tally, sizeof tally, tally, ARRAYMAP_TALLY, text, BYTES), ARRAYMAP_NAMES_LINE, 0);

    if (failed)
        return 1;
    printf("%d answers from C, with null, with shared texts and with constants\n", tried);
    return 0;
}
