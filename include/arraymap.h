/* The calls of the array mapper. What they return and leave in memory is proved (crates/arraymap); these comments describe it.
 *
 * Every call
 *   Arrays   A call never reads or writes outside the arrays that it is given, always returns, and requires nothing of their contents. Arrays that are const
 *            are only read. An array of length 0 may be null. Arrays that are only read may overlap, in part or entirely; an array that is written must not
 *            overlap another array of the same call.
 *   Status   A call returns a number: 0, or that of a refusal, with its position (docs/GUIDE.md). arraymap_check returns a verdict, and with ARRAYMAP_REFUSED
 *            the same. There is no other failure. A call prints nothing, allocates no memory and does not set errno.
 *   Threads  A call keeps no state and may be made from several threads at once, each with its own arrays to write.
 *   Stack    ARRAYMAP_STACK bytes are enough for every call. Measured on x86-64, with texts that need a deep stack, a call takes up to
 *              arraymap_map            1,150 KB
 *              arraymap_map_pairs      1,150 KB
 *              arraymap_map_two          450 KB
 *              arraymap_map_two_pairs  1,150 KB
 *              arraymap_check          1,050 KB
 *              arraymap_cells              6 KB
 *              arraymap_count             16 KB
 *              arraymap_report            14 KB
 *
 * arraymap_map maps a graph. It takes a cell library, an AIGER graph in the ASCII or the binary form, and the input arrivals, empty for none, all as texts. The
 * cells have one of two first lines. With the longer one, `cell pins table area d0 d1 d2 d3 l0 l1 l2 l3`, a `# timing` line for each output follows the netlist
 * and counts as part of it; the line has the output's minimum and maximum arrival.
 *   success   number is 0, value the netlist's length; text begins with the netlist and keeps its other bytes; gates, area and arrival are the
 *             figures of the `# gates` line; every word of work is 0
 *   refusal   number and value are the refusal's number and position, the figures are 0; text is unchanged; work is unchanged for numbers up to 10 and for 19,
 *             27 and 30, and every word of it is 0 for any other */
#ifndef ARRAYMAP_H
#define ARRAYMAP_H
#include <stddef.h>
#include <stdint.h>

#ifdef __cplusplus
extern "C" {
#endif

/* The words of work that a graph of M variables and O outputs needs, and an upper bound on the bytes of its netlist, with 43 per output for the
 * `# timing` lines. M is at most 4,095 and O at most 4,096: ARRAYMAP_WORDS(4095, 4096) and ARRAYMAP_TEXT(4095, 4096), 1 MB and 0.8 MB, are
 * enough for every graph. */
#define ARRAYMAP_WORDS(m, o) (124 * ((size_t)(m) + 1) + (size_t)(o))
#define ARRAYMAP_TEXT(m, o) (116 * ((size_t)(m) + 1) + 72 * (size_t)(o) + 128)

/* The same bound for mapping with pairs of cells: a phase has one or two gates, of at most 88 bytes together. ARRAYMAP_TEXT_PAIRS(4095, 4096), 1 MB, is
 * enough for every graph. */
#define ARRAYMAP_TEXT_PAIRS(m, o) (182 * ((size_t)(m) + 1) + 72 * (size_t)(o) + 128)

/* The words of work that arraymap_check needs for a netlist; lines is its number of bytes 10, including those after `.end`.
 * ARRAYMAP_CHECK_WORDS(4095, 4096, ARRAYMAP_LIMIT), 2.1 MB, is enough for every graph and netlist. */
#define ARRAYMAP_CHECK_WORDS(m, o, lines) (ARRAYMAP_WORDS(m, o) + 8 * (size_t)(lines))

/* The bytes of stack with which a thread can make any call. */
#define ARRAYMAP_STACK 1500000

/* The longest text that is read. For a longer file pass one byte more than this: the answer is then ARRAYMAP_TOO_LONG. */
#define ARRAYMAP_LIMIT 65536

/* The number of an answer. Its value is a byte offset in the cells (3 to 6, 27), in the graph (11 to 14, 20, 21), in the genlib text (22 to 24), in the
 * arrivals (25, 26) or in the netlist (29, 32, 33); 64 (28); a variable (15, 16); an output's index from 0 (17); the bytes needed (18); otherwise 0. */
enum {
    ARRAYMAP_MAPPED = 0,
    ARRAYMAP_TOO_LONG = 1,             /* a text is longer than 65,536 bytes */
    ARRAYMAP_NAMES_LINE = 2,           /* the cells' first line is neither of the two names lines */
    ARRAYMAP_CELLS_OVER_32 = 3,        /* the library has a thirty-third cell line */
    ARRAYMAP_CELL_FORM = 4,            /* a cell line is malformed: it must have 8 fields, or 12 under the longer names line */
    ARRAYMAP_CELL_REPEATED = 5,        /* a cell name is repeated */
    ARRAYMAP_CELL_BEYOND_PINS = 6,     /* a table bit, delay or lowest delay beyond the cell's pins is not 0 */
    ARRAYMAP_HEADER_FORM = 7,          /* the graph's header is malformed */
    ARRAYMAP_LATCHES = 8,              /* the graph has latches */
    ARRAYMAP_GRAPH_TOO_LARGE = 9,      /* M exceeds 4,095, O exceeds 4,096, or I + A exceeds M */
    ARRAYMAP_WORK_SHORT = 10,          /* work has fewer words than ARRAYMAP_WORDS(M, O), or in a check than ARRAYMAP_CHECK_WORDS */
    ARRAYMAP_LINE_FORM = 11,           /* an expected line is malformed or missing */
    ARRAYMAP_LITERAL = 12,             /* a literal exceeds 2M+1, or an input literal or left literal is odd or 0 */
    ARRAYMAP_DEFINED_TWICE = 13,       /* an input variable or left variable is already defined */
    ARRAYMAP_UNDEFINED = 14,           /* an output or operand uses an undefined variable */
    ARRAYMAP_CIRCLE = 15,              /* an AND cannot be ordered: it is on a cycle, or depends on one */
    ARRAYMAP_CUTS_OVER_18 = 16,        /* an AND has more than 18 cuts */
    ARRAYMAP_NO_COVER = 17,            /* an output has no cover */
    ARRAYMAP_TEXT_SHORT = 18,          /* text is too short for the output */
    ARRAYMAP_BINARY_HEADER = 19,       /* the M of a binary header is not I + A */
    ARRAYMAP_DIFFERENCE_FORM = 20,     /* a difference takes more than two bytes, or the graph ends before the difference does */
    ARRAYMAP_DIFFERENCE_TOO_LARGE = 21, /* a first difference is 0, or a difference exceeds the number that it is subtracted from */
    ARRAYMAP_GENLIB_FORM = 22,         /* a GATE or PIN line is malformed, a PIN line precedes the first GATE, or a pin has no PIN line */
    ARRAYMAP_GENLIB_PINS = 23,         /* a gate has more than four pins, or brackets nested more than 16 deep */
    ARRAYMAP_GENLIB_FIGURE = 24,       /* an area, or a block delay that is used, has more than three decimals or exceeds 65.535 */
    ARRAYMAP_ARRIVAL_FORM = 25,        /* a line of the arrivals is malformed */
    ARRAYMAP_ARRIVAL_INPUT = 26,       /* its input is I or more, or is repeated */
    ARRAYMAP_LOW_DELAY = 27,           /* a pin's lowest delay exceeds its delay */
    ARRAYMAP_TALLY_FULL = 28,          /* 64 netlists are already counted, or a figure of the tally exceeds 2^40 */
    ARRAYMAP_NETLIST_LINE = 29,        /* a line of the netlist is not one that mapping prints there */
    ARRAYMAP_PAIRS_OVER_256 = 30,      /* there are more than 256 cells and pairs of cells */
    ARRAYMAP_INPUTS_OVER_12 = 31,      /* the graph that a netlist is checked against has more than 12 inputs */
    ARRAYMAP_EDITED_FORM = 32,         /* a line of an edited netlist is malformed, names an unlisted cell, or has other inputs or outputs than the graph */
    ARRAYMAP_EDITED_NET = 33           /* a line of it drives a net that is already driven, uses a net that no line drives, or drives a net on a cycle */
};

typedef struct {
    uint64_t number;
    uint64_t value;
    uint32_t gates;
    uint32_t area;
    uint32_t arrival;
} ArraymapAnswer;

ArraymapAnswer arraymap_map(const uint8_t *cells, size_t cells_len, const uint8_t *graph, size_t graph_len, const uint8_t *arrivals,
                        size_t arrivals_len, uint16_t *work, size_t work_len, uint8_t *text, size_t text_len);

/* The same with pairs of cells. A pair is two cells with pins, of which the inner feeds a pin of the root; it is formed if at most four pins remain. Pairs are
 * matched like cells, after them, and no cover by cells and pairs gives a printed `p` or `m` net an earlier arrival. A pair is printed as two gates, the inner
 * first; the net between them is `s` followed by the name of the root's net. There is one more refusal: ARRAYMAP_PAIRS_OVER_256, value 0, tried after the
 * cells' own and before ARRAYMAP_HEADER_FORM. Otherwise it does what arraymap_map does, with ARRAYMAP_TEXT_PAIRS. */
ArraymapAnswer arraymap_map_pairs(const uint8_t *cells, size_t cells_len, const uint8_t *graph, size_t graph_len, const uint8_t *arrivals,
                              size_t arrivals_len, uint16_t *work, size_t work_len, uint8_t *text, size_t text_len);

/* Maps two graphs with one cell library and one work memory, each with its own arrivals and text memory. work must have at least the sum of both graphs'
 * words. If a refusal tried up to 10 (1 to 10, 19, 27, 30) applies to either channel, both answers are that refusal, the first channel's if both have one, and
 * work is unchanged. Any other refusal concerns its own channel only, and the other is mapped as if alone. Otherwise each answer and text is that of
 * arraymap_map. */
typedef struct {
    ArraymapAnswer first;
    ArraymapAnswer second;
} ArraymapTwo;

ArraymapTwo arraymap_map_two(const uint8_t *cells, size_t cells_len, const uint8_t *graph1, size_t graph1_len, const uint8_t *arrivals1,
                         size_t arrivals1_len, const uint8_t *graph2, size_t graph2_len, const uint8_t *arrivals2, size_t arrivals2_len,
                         uint16_t *work, size_t work_len, uint8_t *text1, size_t text1_len, uint8_t *text2, size_t text2_len);

/* The same with pairs of cells, for both channels. */
ArraymapTwo arraymap_map_two_pairs(const uint8_t *cells, size_t cells_len, const uint8_t *graph1, size_t graph1_len, const uint8_t *arrivals1,
                               size_t arrivals1_len, const uint8_t *graph2, size_t graph2_len, const uint8_t *arrivals2, size_t arrivals2_len,
                               uint16_t *work, size_t work_len, uint8_t *text1, size_t text1_len, uint8_t *text2, size_t text2_len);

/* Checks a netlist, as printed or edited since, against the graph. The netlist has `.model top`, `.inputs` and `.outputs` as mapping prints them for the graph,
 * gate lines in any order, with cells of the library and nets of 1 to 8 letters or digits, then the outputs' `.names` lines and `.end`. What follows `.end` is
 * not read.
 *   ARRAYMAP_ACCEPTED  every output has the graph's value under each of the 2^I assignments of the inputs; first and second are 0
 *   ARRAYMAP_DIFFERS   first is the lowest assignment under which an output differs, input k being bit k; second is the first such output, from 0
 *   ARRAYMAP_REFUSED   first and second are a refusal's number and position: ARRAYMAP_TOO_LONG, the cells' (2 to 6, 27), the graph's (7 to 15, 19 to 21), then
 *                      ARRAYMAP_INPUTS_OVER_12, ARRAYMAP_EDITED_FORM and ARRAYMAP_EDITED_NET; the last is tried first for a net driven twice, then for one
 *                      that no line drives, then for a cycle, each at the first such line
 * work is unchanged after a refusal with a number up to 10, 19 or 27, and every word of it is 0 otherwise. If there is enough memory and the graph has up to 12
 * inputs, every netlist of up to ARRAYMAP_LIMIT bytes that arraymap_map or arraymap_map_pairs printed from these cells, this graph and any arrivals is
 * accepted. */
enum { ARRAYMAP_ACCEPTED = 0, ARRAYMAP_DIFFERS = 1, ARRAYMAP_REFUSED = 2 };

typedef struct {
    uint64_t verdict;
    uint64_t first;
    uint64_t second;
} ArraymapChecked;

ArraymapChecked arraymap_check(const uint8_t *cells, size_t cells_len, const uint8_t *graph, size_t graph_len, const uint8_t *netlist,
                           size_t netlist_len, uint16_t *work, size_t work_len);

/* Converts a genlib library to a cell text, to be passed to arraymap_map as cells.
 *   success   number is 0, value the cell text's length; text begins with it and keeps its other bytes
 *   refusal   ARRAYMAP_TOO_LONG, ARRAYMAP_GENLIB_FORM, ARRAYMAP_GENLIB_PINS or ARRAYMAP_GENLIB_FIGURE, or ARRAYMAP_TEXT_SHORT; text is unchanged
 * The figures are 0 in both cases. */
ArraymapAnswer arraymap_cells(const uint8_t *genlib, size_t genlib_len, uint8_t *text, size_t text_len);

/* Adds a netlist that was mapped with the cells to a tally. The caller keeps the tally between calls and clears it before the first. It has 97 numbers: the
 * gates of each of the 32 cells, their areas, the numbers of netlists in which each occurs, and the number of netlists counted.
 *   success   number is 0, value 0; the tally includes this netlist
 *   refusal   ARRAYMAP_TOO_LONG, the cells' (2 to 6, 27), ARRAYMAP_TALLY_FULL or ARRAYMAP_NETLIST_LINE; the tally is unchanged
 * A tally of another length is refused like a full one: number 28, value 64, after the cells' refusals. The figures are 0 in both cases. */
#define ARRAYMAP_TALLY 97
ArraymapAnswer arraymap_count(const uint8_t *cells, size_t cells_len, const uint8_t *netlist, size_t netlist_len, uint64_t *tally, size_t tally_len);

/* Writes the report of a tally. It has one line per cell in the order of the cells, as `inv 3 3 2`: its gates, their total area and the number of netlists in
 * which it occurs. A line `total` with gates, area and netlists counted follows. ARRAYMAP_REPORT bytes are enough for every report.
 *   success   number is 0, value the report's length; text begins with it and keeps its other bytes
 *   refusal   ARRAYMAP_TOO_LONG, the cells', ARRAYMAP_TALLY_FULL for a figure over 2^40 or a tally of another length, or ARRAYMAP_TEXT_SHORT; text is unchanged
 * The figures are 0 in both cases. */
#define ARRAYMAP_REPORT 2048
ArraymapAnswer arraymap_report(const uint8_t *cells, size_t cells_len, const uint64_t *tally, size_t tally_len, uint8_t *text, size_t text_len);

#ifdef __cplusplus
}
#endif
#endif
