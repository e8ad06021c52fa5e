/* What both C mappers of this folder share: the texts read, the lent words, the cover marked, the netlist, the call and the program.
 * By document 01 and requests N1, N3, N4 and N5; nothing in it is proved. The file that includes it places, lists cuts and chooses. */
#include <stdint.h>
#include <stdio.h>
#include <stdlib.h>
#include <string.h>
#include <time.h>
typedef uint8_t u8; typedef uint16_t u16; typedef uint32_t u32; typedef uint64_t u64;

#define L 18u                     /* cut limit */
#define EACH (16u + 6u * L)       /* words for each variable */
#define LIMIT 65536u
typedef struct { u8 name[8]; u8 len, pins; u16 table, area, d[4]; } Cell;
typedef struct { u32 n; Cell c[32]; } Library;
typedef struct { u32 number, place, gates, area, arrival; } Answer;
typedef struct { u32 ok, v, at; } Num;          /* cursor step */

static Answer refused(u32 n, u32 place) { Answer a = {n, place, 0, 0, 0}; return a; }

/* ---- text */
static Num number(const u8 *t, u32 len, u32 at)
{
    Num r = {0, 0, at};
    if (at >= len || t[at] < '0' || t[at] > '9') return r;
    if (t[at] == '0') { r.ok = 1; r.at = at + 1; return r; }   /* a digit after it breaks the separator */
    u32 v = 0, k = at;
    while (k < len && t[k] >= '0' && t[k] <= '9' && v <= 6553) v = v * 10 + (t[k] - '0'), k++;
    if (v > 65535) return r;
    if (k < len && t[k] >= '0' && t[k] <= '9') return r;
    r.ok = 1; r.v = v; r.at = k;
    return r;
}
static Num field(const u8 *t, u32 len, u32 at, u8 end)         /* a number and the byte after it */
{
    Num r = number(t, len, at);
    if (!r.ok || r.at >= len || t[r.at] != end) { r.ok = 0; return r; }
    r.at++;
    return r;
}

static u32 line_end(const u8 *t, u32 len, u32 at, int either)  /* the next line, or 0: byte 10, or, in either way, 13 and 10 */
{
    if (either && at < len && t[at] == 13) at++;
    return at < len && t[at] == 10 ? at + 1 : 0;
}
static Num last_field(const u8 *t, u32 len, u32 at, int either) /* a number and the line's end after it */
{
    Num r = number(t, len, at);
    u32 next = r.ok ? line_end(t, len, r.at, either) : 0;
    if (!next) { r.ok = 0; return r; }
    r.at = next;
    return r;
}

/* ---- library, 2 to 6 */
static int letter(u8 b) { return (b >= 'a' && b <= 'z') || (b >= 'A' && b <= 'Z'); }
static int word_byte(u8 b) { return letter(b) || (b >= '0' && b <= '9') || b == '_'; }
static u32 cell_line(const u8 *t, u32 len, u32 at, Cell *c)     /* next line, or 0 where the form breaks */
{
    u32 k = at;
    memset(c, 0, sizeof *c);
    if (k >= len || !letter(t[k])) return 0;
    while (k < len && k - at < 8 && word_byte(t[k])) c->name[k - at] = t[k], k++;
    c->len = k - at;
    if (k >= len || t[k] != ' ') return 0;
    k++;
    if (k >= len || t[k] < '0' || t[k] > '4') return 0;
    c->pins = t[k++] - '0';
    if (k >= len || t[k] != ' ') return 0;
    k++;
    u32 v = 0;
    for (u32 j = 0; j < 4; j++, k++) {
        if (k >= len) return 0;
        if (t[k] >= '0' && t[k] <= '9') v = v * 16 + (t[k] - '0');
        else if (t[k] >= 'a' && t[k] <= 'f') v = v * 16 + (t[k] - 'a' + 10);
        else return 0;
    }
    c->table = v;
    if (k >= len || t[k] != ' ') return 0;
    k++;
    Num r = field(t, len, k, ' ');
    if (!r.ok) return 0;
    c->area = r.v;
    for (u32 j = 0; j < 4; j++) {
        r = j < 3 ? field(t, len, r.at, ' ') : last_field(t, len, r.at, 1);
        if (!r.ok) return 0;
        c->d[j] = r.v;
    }
    return r.at;
}
static int excess(const Cell *c)
{
    if (c->pins < 4 && c->table >> (1u << c->pins)) return 1;
    for (u32 j = c->pins; j < 4; j++) if (c->d[j]) return 1;
    return 0;
}
static Answer read_cells(const u8 *t, u32 len, Library *lib)
{
    static const char names[] = "cell pins table area d0 d1 d2 d3";
    u32 at = sizeof names - 1;
    lib->n = 0;
    if (len < at) return refused(2, 0);
    for (u32 k = 0; k < at; k++) if (t[k] != (u8)names[k]) return refused(2, 0);
    at = line_end(t, len, at, 1);
    if (!at) return refused(2, 0);
    while (at < len) {
        if (lib->n == 32) return refused(3, at);
        Cell *c = &lib->c[lib->n];
        u32 next = cell_line(t, len, at, c);
        if (!next) return refused(4, at);
        for (u32 k = 0; k < lib->n; k++)
            if (lib->c[k].len == c->len && !memcmp(lib->c[k].name, c->name, 8)) return refused(5, at);
        if (excess(c)) return refused(6, at);
        lib->n++;
        at = next;
    }
    return refused(0, 0);
}

/* ---- lent words */
static u32 W;                                    /* M + 1 */
#define KIND(v)   w[(v)]
#define LEFT(v)   w[W + (v)]
#define RIGHT(v)  w[2 * W + (v)]
#define ORDER(v)  w[3 * W + (v)]
#define PLACED(v) w[4 * W + (v)]
#define COUNT(v)  w[5 * W + (v)]
#define NEEDED(v) w[6 * W + (v)]
#define SCRATCH(v) w[7 * W + (v)]
/* phase p: columns 8 + 4p ..: source, detail, arrival low, arrival high */
#define SRC(p, v) w[(8 + 4 * (p)) * W + (v)]
#define DET(p, v) w[(9 + 4 * (p)) * W + (v)]
#define ALO(p, v) w[(10 + 4 * (p)) * W + (v)]
#define AHI(p, v) w[(11 + 4 * (p)) * W + (v)]
#define SIZE(c)   w[16 * W + (c)]
#define LEAF(i, c) w[(16 + L * (1 + (i))) * W + (c)]
#define FUN(c)    w[(16 + L * 5) * W + (c)]
#define OUTS(k)   w[EACH * W + (k)]
#define NOLEAF 8191u                             /* in the place of an absent leaf; above every variable */
enum { UNDEF, CONST, INPUT, AND };
enum { NOTHING, OWN, MATCHED, INVERTER };        /* source: kind + 4 * cell */
#define NOARR 0x7fffffffu
static __attribute__((noinline, noclone)) void clear(u16 *w, u64 n) { memset(w, 0, n * sizeof *w); }   /* by the call that bench/run leaves out */
static inline u32 arr(const u16 *w, u32 p, u32 v) { return ALO(p, v) | (u32)AHI(p, v) << 16; }
static inline void set_source(u16 *w, u32 p, u32 v, u32 src, u32 det, u32 a)
{ SRC(p, v) = src; DET(p, v) = det; ALO(p, v) = a & 0xffff; AHI(p, v) = a >> 16; }

static const u8 place_of[24][4] = {
    {0,1,2,3},{0,1,3,2},{0,2,1,3},{0,2,3,1},{0,3,1,2},{0,3,2,1},
    {1,0,2,3},{1,0,3,2},{1,2,0,3},{1,2,3,0},{1,3,0,2},{1,3,2,0},
    {2,0,1,3},{2,0,3,1},{2,1,0,3},{2,1,3,0},{2,3,0,1},{2,3,1,0},
    {3,0,1,2},{3,0,2,1},{3,1,0,2},{3,1,2,0},{3,2,0,1},{3,2,1,0}};
static u8 row_of[24][16];                        /* the row of a cell's table that a row of the cut reads, by order */
static const u16 leaf_rows[4] = {0xaaaa, 0xcccc, 0xf0f0, 0xff00};
static void __attribute__((constructor)) fill(void)
{
    for (int o = 0; o < 24; o++) for (int r = 0; r < 16; r++) for (int j = 0; j < 4; j++)
        row_of[o][r] |= (r >> place_of[o][j] & 1) << j;
}

/* ---- graph, 7 to 14 and 19 to 21 */
typedef struct { u32 m, i, l, o, a, at, binary; } Header;
static Answer read_header(const u8 *t, u32 len, u64 words, Header *h)
{
    if (len < 4 || t[0] != 'a' || (t[1] != 'a' && t[1] != 'i') || t[2] != 'g' || t[3] != ' ') return refused(7, 0);
    u32 v[5];
    Num r = {1, 0, 4};
    for (u32 k = 0; k < 5; k++) {
        r = k < 4 ? field(t, len, r.at, ' ') : last_field(t, len, r.at, t[1] == 'a');
        if (!r.ok) return refused(7, 0);
        v[k] = r.v;
    }
    h->m = v[0]; h->i = v[1]; h->l = v[2]; h->o = v[3]; h->a = v[4]; h->at = r.at; h->binary = t[1] == 'i';
    if (h->l) return refused(8, 0);
    if (h->m > 4095 || h->o > 4096 || h->i + h->a > h->m) return refused(9, 0);
    if (h->binary && h->m != h->i + h->a) return refused(19, 0);
    if (words < EACH * (h->m + 1) + h->o) return refused(10, 0);
    return refused(0, 0);
}
static u32 line_offset(const u8 *t, u32 k)       /* where line k begins; it does */
{
    u32 at = 0;
    for (; k; at++) if (t[at] == 10) k--;
    return at;
}
static Num difference(const u8 *t, u32 len, u32 at)            /* one or two groups of seven bits, lowest first */
{
    Num r = {0, 0, at};
    if (at < len && t[at] < 128) { r.ok = 1; r.v = t[at]; r.at = at + 1; }
    else if (at + 1 < len && t[at + 1] < 128) { r.ok = 1; r.v = t[at] % 128 + 128u * t[at + 1]; r.at = at + 2; }
    return r;
}
static Answer load_differences(u16 *w, const u8 *t, u32 len, u32 at, Header h)
{
    for (u32 v = h.i + 1; v <= h.m; v++) {
        u32 left = 2 * v;
        Num x = difference(t, len, at); if (!x.ok) return refused(20, at);
        if (x.v == 0 || x.v > left) return refused(21, at);
        Num y = difference(t, len, x.at); if (!y.ok) return refused(20, x.at);
        if (y.v > left - x.v) return refused(21, x.at);
        KIND(v) = AND; LEFT(v) = left - x.v; RIGHT(v) = left - x.v - y.v;
        at = y.at;
    }
    return refused(0, 0);
}
/* During loading SCRATCH(k) is the variable of the k-th AND line. */
static Answer load_graph(u16 *w, const u8 *t, u32 len, Header h)
{
    u32 at = h.at, top = 2 * h.m + 1;
    KIND(0) = CONST; ORDER(0) = 0; PLACED(0) = 1;
    for (u32 k = 1; h.binary && k <= h.i; k++) { KIND(k) = INPUT; ORDER(k) = k; PLACED(k) = 1; }
    for (u32 k = 0; !h.binary && k < h.i; k++) {
        Num r = last_field(t, len, at, 1);
        if (!r.ok) return refused(11, at);
        if (r.v > top || r.v % 2 || r.v == 0) return refused(12, at);
        u32 v = r.v / 2;
        if (KIND(v) != UNDEF) return refused(13, at);
        KIND(v) = INPUT; ORDER(k + 1) = v; PLACED(v) = 1;
        at = r.at;
    }
    for (u32 k = 0; k < h.o; k++) {
        Num r = last_field(t, len, at, !h.binary);
        if (!r.ok) return refused(11, at);
        if (r.v > top) return refused(12, at);
        OUTS(k) = r.v;
        at = r.at;
    }
    if (h.binary) return load_differences(w, t, len, at, h);
    for (u32 k = 0; k < h.a; k++) {
        Num x = field(t, len, at, ' '); if (!x.ok) return refused(11, at);
        Num y = field(t, len, x.at, ' '); if (!y.ok) return refused(11, at);
        Num z = last_field(t, len, y.at, 1); if (!z.ok) return refused(11, at);
        if (x.v > top || y.v > top || z.v > top || x.v % 2 || x.v == 0) return refused(12, at);
        u32 v = x.v / 2;
        if (KIND(v) != UNDEF) return refused(13, at);
        KIND(v) = AND; LEFT(v) = y.v; RIGHT(v) = z.v; SCRATCH(k) = v;
        at = z.at;
    }
    for (u32 k = 0; k < h.o; k++)
        if (KIND(OUTS(k) / 2) == UNDEF) return refused(14, line_offset(t, 1 + h.i + k));
    for (u32 k = 0; k < h.a; k++) {
        u32 v = SCRATCH(k);
        if (KIND(LEFT(v) / 2) == UNDEF || KIND(RIGHT(v) / 2) == UNDEF)
            return refused(14, line_offset(t, 1 + h.i + h.o + k));
    }
    return refused(0, 0);
}

/* ---- what the including file has */
static u32 place_all(u16 *w, Header h);                        /* 0, or the lowest AND that cannot be placed, for 15 */
static void build(const Library *lib);                         /* the variants of the library's cells by table */
static int enumerate(u16 *w, u32 v);                           /* 0 where v has too many cuts, for 16 */
static void choose(u16 *w, const Library *lib, u32 v, u32 slot); /* the functions of v's cuts and its matches in both phases */

/* ---- cover */
typedef struct { u32 has, line, delay; } Inv;
static Inv inverter(const Library *lib)
{
    Inv r = {0, 0, 0};
    for (u32 k = 0; k < lib->n; k++)
        if (lib->c[k].pins == 1 && lib->c[k].table == 1 && (!r.has || lib->c[k].d[0] < r.delay))
            r.has = 1, r.line = k, r.delay = lib->c[k].d[0];
    return r;
}
static void invert(u16 *w, Inv inv, u32 v)
{
    if (!inv.has) return;
    u32 sp = SRC(0, v), sn = SRC(1, v);
    u32 ap = arr(w, 0, v), an = arr(w, 1, v);
    if (sp % 4 != OWN && sn % 4 != NOTHING && (sp % 4 == NOTHING || an + inv.delay < ap))
        set_source(w, 0, v, INVERTER + 4 * inv.line, 0, an + inv.delay);
    if (sp % 4 != NOTHING && (sn % 4 == NOTHING || ap + inv.delay < an))
        set_source(w, 1, v, INVERTER + 4 * inv.line, 0, ap + inv.delay);
}
static void mark_feeds(u16 *w, const Library *lib, u32 p, u32 v)
{
    u32 s = SRC(p, v), d = DET(p, v), c = L * v + d / 512;
    const u8 *pl = place_of[d / 16 % 32];
    for (u32 j = 0; j < lib->c[s / 4].pins; j++) {
        u32 leaf = LEAF(pl[j], c);
        NEEDED(leaf) |= 1 + (d >> j & 1);
    }
}
static void mark(u16 *w, const Library *lib, Header h)
{
    for (u32 k = 0; k < h.o; k++) NEEDED(OUTS(k) / 2) |= 1 + OUTS(k) % 2;
    for (u32 s = h.i + h.a + 1; s > 0; s--) {
        u32 v = ORDER(s - 1), n = NEEDED(v);
        if (!n) continue;
        if ((n & 1) && SRC(0, v) % 4 == INVERTER) n |= 2;
        if ((n & 2) && SRC(1, v) % 4 == INVERTER) n |= 1;
        NEEDED(v) = n;
        if ((n & 1) && SRC(0, v) % 4 == MATCHED) mark_feeds(w, lib, 0, v);
        if ((n & 2) && SRC(1, v) % 4 == MATCHED) mark_feeds(w, lib, 1, v);
    }
}
/* ---- netlist */
static inline u32 digits(u32 x) { return x < 10 ? 1 : x < 100 ? 2 : x < 1000 ? 3 : x < 10000 ? 4 : x < 100000 ? 5 : x < 1000000 ? 6 : x < 10000000 ? 7 : x < 100000000 ? 8 : x < 1000000000 ? 9 : 10; }
static u32 gate_length(const u16 *w, const Library *lib, u32 p, u32 v)
{
    u32 s = SRC(p, v), d = DET(p, v), c = L * v + d / 512;
    const Cell *x = &lib->c[s / 4];
    u32 n = 6 + x->len + 4 + digits(v) + 1;           /* ".gate name" .. " O=p" v byte 10; the space after .gate counted in 6 */
    if (s % 4 == INVERTER) return n + 4 + digits(v);
    const u8 *pl = place_of[d / 16 % 32];
    for (u32 j = 0; j < x->pins; j++) n += 4 + digits(LEAF(pl[j], c));
    return n;
}
static Answer measure(const u16 *w, const Library *lib, Header h)  /* place: the length */
{
    Answer a = {0, 0, 0, 0, 0};
    u32 n = 11 + 7 + 8 + 1 + 1 + 5;                    /* .model top / .inputs / .outputs / .end */
    for (u32 k = 0; k < h.i; k++) n += 2 + digits(ORDER(k + 1));
    for (u32 k = 0; k < h.o; k++) {
        u32 x = OUTS(k), t = arr(w, x % 2, x / 2);
        n += 2 + digits(k) + 11 + digits(x / 2) + digits(k) + 4;  /* " o" k; ".names p" v " o" k byte 10; "1 1" byte 10 */
        if (t > a.arrival) a.arrival = t;
    }
    for (u32 v = 0; v < W; v++)
        for (u32 p = 0; p < 2; p++)
            if ((NEEDED(v) >> p & 1) && SRC(p, v) % 4 != OWN) {
                n += gate_length(w, lib, p, v);
                a.gates++;
                a.area += lib->c[SRC(p, v) / 4].area;
            }
    n += 8 + digits(a.gates) + 6 + digits(a.area) + 9 + digits(a.arrival) + 1;
    a.place = n;
    return a;
}
static u32 put_number(u8 *t, u32 at, u32 x)
{
    u32 n = digits(x), k = at + n;
    for (u32 j = 0; j < n; j++) { k--; t[k] = '0' + x % 10; x /= 10; }
    return at + n;
}
static u32 put_text(u8 *t, u32 at, const char *s, u32 n) { for (u32 k = 0; k < n; k++) t[at + k] = s[k]; return at + n; }
static inline u32 put_net(u8 *t, u32 at, u32 p, u32 v) { t[at] = p ? 'm' : 'p'; return put_number(t, at + 1, v); }
static u32 put_pin(u8 *t, u32 at, u8 pin, u32 p, u32 v)
{ t[at] = ' '; t[at + 1] = pin; t[at + 2] = '='; return put_net(t, at + 3, p, v); }
static u32 put_gate(const u16 *w, const Library *lib, u8 *t, u32 at, u32 p, u32 v)
{
    u32 s = SRC(p, v), d = DET(p, v), c = L * v + d / 512;
    const Cell *x = &lib->c[s / 4];
    at = put_text(t, at, ".gate ", 6);
    for (u32 k = 0; k < x->len; k++) t[at + k] = x->name[k];
    at += x->len;
    if (s % 4 == INVERTER) at = put_pin(t, at, 'A', 1 - p, v);
    else {
        const u8 *pl = place_of[d / 16 % 32];
        for (u32 j = 0; j < x->pins; j++) at = put_pin(t, at, 'A' + j, d >> j & 1, LEAF(pl[j], c));
    }
    at = put_pin(t, at, 'O', p, v);
    t[at] = 10;
    return at + 1;
}
static void put_netlist(const u16 *w, const Library *lib, Header h, Answer a, u8 *t)
{
    u32 at = put_text(t, 0, ".model top\n.inputs", 18);
    for (u32 k = 0; k < h.i; k++) { t[at] = ' '; at = put_net(t, at + 1, 0, ORDER(k + 1)); }
    at = put_text(t, at, "\n.outputs", 9);
    for (u32 k = 0; k < h.o; k++) { at = put_text(t, at, " o", 2); at = put_number(t, at, k); }
    at = put_text(t, at, "\n", 1);
    for (u32 v = 0; v < W; v++)
        for (u32 p = 0; p < 2; p++)
            if ((NEEDED(v) >> p & 1) && SRC(p, v) % 4 != OWN) at = put_gate(w, lib, t, at, p, v);
    for (u32 k = 0; k < h.o; k++) {
        at = put_net(t, put_text(t, at, ".names ", 7), OUTS(k) % 2, OUTS(k) / 2);
        at = put_number(t, put_text(t, at, " o", 2), k);
        at = put_text(t, at, "\n1 1\n", 5);
    }
    at = put_text(t, at, ".end\n# gates ", 13);
    at = put_number(t, at, a.gates);
    at = put_text(t, at, " area ", 6);
    at = put_number(t, at, a.area);
    at = put_text(t, at, " arrival ", 9);
    at = put_number(t, at, a.arrival);
    put_text(t, at, "\n", 1);
}

/* ---- the call */
static void store_cut(u16 *w, u32 e, u32 size, u32 leaf, u32 f)
{ SIZE(e) = size; LEAF(0, e) = leaf; LEAF(1, e) = NOLEAF; LEAF(2, e) = NOLEAF; LEAF(3, e) = NOLEAF; FUN(e) = f; }
static Answer map_loaded(u16 *w, const u8 *g, u32 glen, Header h, const Library *lib, u8 *t, u32 tlen)
{
    Answer a = load_graph(w, g, glen, h);
    if (a.number) return a;
    u32 bad = place_all(w, h);
    if (bad) return refused(15, bad);
    Inv inv = inverter(lib);
    u32 end = 1 + h.i + h.a;
    build(lib);
    COUNT(0) = 1; store_cut(w, 0, 0, NOLEAF, 0);      /* the empty cut */
    choose(w, lib, 0, 0);
    invert(w, inv, 0);
    for (u32 s = 1; s <= h.i; s++) {
        u32 v = ORDER(s);
        COUNT(v) = 1; store_cut(w, L * v, 1, v, 0xaaaa);
        set_source(w, 0, v, OWN, 0, 0); set_source(w, 1, v, NOTHING, 0, NOARR);
        invert(w, inv, v);
    }
    for (u32 s = h.i + 1; s < end; s++) {
        u32 v = ORDER(s);
        if (!enumerate(w, v)) return refused(16, v);
        choose(w, lib, v, s);
        invert(w, inv, v);
    }
    for (u32 k = 0; k < h.o; k++)
        if (SRC(OUTS(k) % 2, OUTS(k) / 2) % 4 == NOTHING) return refused(17, k);
    mark(w, lib, h);
    a = measure(w, lib, h);
    if (a.place > tlen) return refused(18, a.place);
    put_netlist(w, lib, h, a, t);
    return a;
}
static Answer map_texts(const u8 *cells, u32 clen, const u8 *g, u32 glen, u16 *w, u64 words, u8 *t, u32 tlen)
{
    Library lib;
    Header h;
    if (clen > LIMIT || glen > LIMIT) return refused(1, 0);
    Answer a = read_cells(cells, clen, &lib);
    if (a.number) return a;
    a = read_header(g, glen, words, &h);
    if (a.number) return a;
    W = h.m + 1;
    clear(w, 8 * W);                             /* cut records are written whole */
    a = map_loaded(w, g, glen, h, &lib, t, tlen);
    clear(w, words);
    return a;
}

/* ---- program: CELLS GRAPH WORDS BYTES prints the netlist or the refusal; with CALLS behind them, the least processor time of so many calls */
static u32 read_file(const char *name, u8 *t)
{
    FILE *f = fopen(name, "rb");
    if (!f) { perror(name); exit(2); }
    u32 n = fread(t, 1, LIMIT + 1, f);
    fclose(f);
    return n;
}
static double microseconds(void)
{
    struct timespec t;
    clock_gettime(CLOCK_PROCESS_CPUTIME_ID, &t);
    return t.tv_sec * 1e6 + t.tv_nsec * 1e-3;
}
static u8 cells_text[LIMIT + 1], graph_text[LIMIT + 1], out[1u << 20];
static u16 work[1u << 20];
int main(int argc, char **argv)
{
    if (argc < 5) { fprintf(stderr, "usage: %s CELLS GRAPH WORDS BYTES [CALLS]\n", argv[0]); return 2; }
    u32 clen = read_file(argv[1], cells_text), glen = read_file(argv[2], graph_text);
    u32 words = atoi(argv[3]), bytes = atoi(argv[4]), calls = argc > 5 ? atoi(argv[5]) : 0;
    if (words > sizeof work / sizeof *work || bytes > sizeof out) { fprintf(stderr, "%s: too much memory\n", argv[0]); return 2; }
    Answer a = map_texts(cells_text, clen, graph_text, glen, work, words, out, bytes);
    double least = 1e12;
    for (u32 k = 0; k < calls; k++) {
        double start = microseconds();
        map_texts(cells_text, clen, graph_text, glen, work, words, out, bytes);
        double took = microseconds() - start;
        if (took < least) least = took;
    }
    if (calls) printf("microseconds %.1f\n", least);
    else if (a.number) printf("refused %u %u\n", a.number, a.place);
    else fwrite(out, 1, a.place, stdout);
    return 0;
}
