/* The mapper in C that this one is measured against: the same algorithm, with all that was found to make it fast; nothing in it is proved.
 * placing: the scan goes on from the lowest user of what was placed
 * cuts: a merge that knows how many leaves either cut may still have alone, lists kept sorted as keys of 55 bits
 * functions: walk with a memo stamped by the cut's own number; an operand that has the same cut hands its function over
 * matching: chains of variants by table, built by the arithmetic of tables; a variant's four leaves in one word, a cut's arrivals read once */
#include "frame.h"

/* ---- placing, 15 */
static inline int ready(const u16 *w, u32 v)
{ return KIND(v) == AND && !PLACED(v) && PLACED(LEFT(v) / 2) && PLACED(RIGHT(v) / 2); }
static u32 place_all(u16 *w, Header h)
{
    u32 slot = 1 + h.i, end = 1 + h.i + h.a, low = 1;
    for (u32 v = h.m; v >= 1; v--)               /* NEEDED(v): the lowest AND that uses v */
        if (KIND(v) == AND) NEEDED(LEFT(v) / 2) = v, NEEDED(RIGHT(v) / 2) = v;
    while (slot < end) {
        u32 v = low;                             /* no AND below low is ready */
        while (v < W && !ready(w, v)) v++;
        if (v == W) break;
        ORDER(slot) = v; PLACED(v) = 1; slot++;
        low = NEEDED(v) && NEEDED(v) < v ? NEEDED(v) : v + 1;
    }
    clear(&NEEDED(0), W);
    if (slot == end) return 0;
    for (u32 v = 1; v < W; v++) if (KIND(v) == AND && !PLACED(v)) return v;
    return 0;
}

/* ---- cuts. A key: the size, then four fields of 13 bits, the leaves and NOLEAF behind them; keys stand in document 01's order of cuts */
typedef struct { u16 l[5], n; } Leaves;          /* l[4] is NOLEAF always */
static inline Leaves load_leaves(const u16 *c, u32 col)
{
    Leaves r = {{c[col], c[2 * col], c[3 * col], c[4 * col], NOLEAF}, c[0]};
    return r;
}
static inline u64 join(const u16 *p, u32 pn, const u16 *q, u32 qn)   /* the union's key, or 0 where it has a fifth leaf */
{
    u32 ra = 4 - qn, rb = 4 - pn;                /* the leaves that p alone, q alone, may still have */
    u64 x = 0;
    u32 c = *p, d = *q;
    for (;;) {
        if (c == d) {
            if (c == NOLEAF) break;
            x = x << 13 | c; c = *++p; d = *++q;
        } else if (c < d) {
            if (ra == 0) return 0;
            ra--; x = x << 13 | c; c = *++p;
        } else {
            if (rb == 0) return 0;
            rb--; x = x << 13 | d; d = *++q;
        }
    }
    return (u64)(4 - rb) << 52 | x << 13 * rb | ((1ull << 13 * rb) - 1);
}
static inline u32 insert(u64 *key, u32 n, u64 x) /* how many keys there are then; L + 1 where they are too many */
{
    u32 k = n;
    while (k > 0 && key[k - 1] > x) k--;
    if (k > 0 && key[k - 1] == x) return n;
    if (n == L) return L + 1;
    for (u32 e = n; e > k; e--) key[e] = key[e - 1];
    key[k] = x;
    return n + 1;
}
static int enumerate(u16 *w, u32 v)
{
    u32 a = LEFT(v) / 2, b = RIGHT(v) / 2, na = COUNT(a), nb = COUNT(b), n = 1, col = L * W;
    u64 key[L];
    Leaves q[L];
    key[0] = 1ull << 52 | (u64)v << 39 | ((1ull << 39) - 1);
    for (u32 j = 0; j < nb; j++) q[j] = load_leaves(&SIZE(L * b + j), col);
    for (u32 i = 0; i < na; i++) {
        Leaves p = load_leaves(&SIZE(L * a + i), col);
        for (u32 j = 0; j < nb; j++) {
            u64 x = join(p.l, p.n, q[j].l, q[j].n);
            if (x == 0) continue;
            n = insert(key, n, x);
            if (n > L) return 0;
        }
    }
    u16 *c = &SIZE(L * v);
    for (u32 k = 0; k < n; k++, c++) {
        u64 x = key[k];
        c[0] = x >> 52; c[col] = x >> 39 & 8191; c[2 * col] = x >> 26 & 8191; c[3 * col] = x >> 13 & 8191; c[4 * col] = x & 8191;
    }
    COUNT(v) = n;
    return 1;
}

/* ---- a cut's function: memo[x] is 65536 * stamp + x's rows under the cut with that stamp.
 * A cut's stamp, 1 + L * its root's slot + its number, is above all earlier ones, so nothing is cleared. */
static u64 memo[4096];
static u32 walk(const u16 *left, u32 n, u32 v, u64 stamp)      /* left: that column; the right one is n further */
{
    u32 a = left[v], b = left[n + v];
    u64 x = memo[a / 2] - stamp, y;
    if (x >= 65536) x = walk(left, n, a / 2, stamp);
    y = memo[b / 2] - stamp;
    if (y >= 65536) y = walk(left, n, b / 2, stamp);
    u32 f = (x ^ (0 - (a & 1))) & (y ^ (0 - (b & 1))) & 65535;
    memo[v] = stamp + f;
    return f;
}
static inline void recall(const u16 *w, u32 a, const u16 *e, u32 col, u64 stamp)   /* cuts of four stand last in a list */
{
    const u16 *first = &SIZE(L * a), *c = first + COUNT(a);
    while (c > first && c[-1] == 4) {
        c--;
        if (c[4 * col] == e[4 * col] && c[3 * col] == e[3 * col] && c[2 * col] == e[2 * col] && c[col] == e[col]) {
            memo[a] = stamp + c[5 * col];
            return;
        }
    }
}
static inline u32 cut_function(const u16 *w, u32 v, const u16 *e, u32 col, u32 number)
{
    u64 stamp = (u64)number << 16;
    u32 n = e[0];
    memo[0] = stamp;
    for (u32 i = 0; i < n; i++) memo[e[(i + 1) * col]] = stamp + leaf_rows[i];
    if (n == 4) {
        u32 a = LEFT(v) / 2, b = RIGHT(v) / 2;
        if (memo[a] - stamp >= 65536) recall(w, a, e, col, stamp);
        if (memo[b] - stamp >= 65536) recall(w, b, e, col, stamp);
    }
    return walk(w + W, W, v, stamp);
}

/* ---- matching. Variant: 512 * (cell + 1) + 16 * order + mask; 0 ends a chain */
static u16 head[65536];                          /* by table: the lowest variant */
static u32 chain[33 * 512];                      /* low half: the next variant of the same table; high half: four selectors,
                                                    2 * place + phase of the pin's leaf, 8 for an absent pin */
static u32 delays[33 * 4];
static inline u32 variant_table(const Cell *x, u32 o)
{
    u32 full = (1u << x->pins) - 1, t = 0;
    for (u32 r = 0; r < 16; r++) t |= (x->table >> (row_of[o][r] & full) & 1u) << r;
    return t;
}
static void build(const Library *lib)
{
    static const u8 block[5] = {24, 6, 2, 1, 1}; /* orders that agree on the first m places stand together */
    clear(head, 65536);
    for (u32 c = lib->n; c-- > 0;) {
        const Cell *x = &lib->c[c];
        u32 m = x->pins;
        for (u32 j = 0; j < 4; j++) delays[4 * (c + 1) + j] = x->d[j];
        for (u32 o = 24; o > 0;) {
            o -= block[m];
            u16 t[16];
            u32 s[16];
            s[0] = 0x8888;
            t[0] = variant_table(x, o);
            for (u32 j = 0; j < m; j++) {        /* masks with bit j: the half before, with that place complemented */
                u32 pl = place_of[o][j], hi = leaf_rows[pl], sh = 1u << pl, z = 1u << j;
                for (u32 k = 0; k < z; k++) {
                    t[z + k] = (t[k] & hi) >> sh | (t[k] << sh & hi);
                    s[k] = s[k] - (8u << 4 * j) + (2 * pl << 4 * j);
                    s[z + k] = s[k] + (1u << 4 * j);
                }
            }
            for (u32 mask = 1u << m; mask-- > 0;) {
                u32 var = 512 * (c + 1) + 16 * o + mask;
                chain[var] = s[mask] << 16 | head[t[mask]];
                head[t[mask]] = var;
            }
        }
    }
}
typedef struct { u32 arrival, var, cut; } Best;
static inline Best follow(const u32 *at, u32 cut, u32 var, Best b)   /* left at the first pin that is no earlier than the best */
{
    while (var) {
        u32 s = chain[var], own = var;
        const u32 *d = &delays[var / 512 * 4];
        var = s & 65535;
        u32 t = at[s >> 16 & 15] + d[0];
        if (t >= b.arrival) continue;
        u32 y = at[s >> 20 & 15] + d[1];
        if (y >= b.arrival) continue;
        if (y > t) t = y;
        y = at[s >> 24 & 15] + d[2];
        if (y >= b.arrival) continue;
        if (y > t) t = y;
        y = at[s >> 28] + d[3];
        if (y >= b.arrival) continue;
        if (y > t) t = y;
        b.arrival = t; b.var = own; b.cut = cut;
    }
    return b;
}
static inline void put_best(u16 *w, u32 p, u32 v, Best b)
{
    if (b.var) set_source(w, p, v, MATCHED + 4 * (b.var / 512 - 1), b.cut * 512 + b.var % 512, b.arrival);
    else set_source(w, p, v, NOTHING, 0, NOARR);
}
static void choose(u16 *w, const Library *lib, u32 v, u32 slot)
{
    (void)lib;                                   /* chain and delays have it */
    Best bp = {NOARR, 0, 0}, bn = {NOARR, 0, 0};
    u32 n = COUNT(v), at[9], col = L * W;
    const u16 *pos = &ALO(0, 0), *neg = &ALO(1, 0);
    at[8] = 0;
    u16 *e = &SIZE(L * v);
    for (u32 k = 0; k < n; k++, e++) {
        if (e[col] == v) { e[5 * col] = 0xaaaa; continue; }   /* the variable alone */
        u32 f = v ? cut_function(w, v, e, col, L * slot + k + 1) : 0;
        e[5 * col] = f;
        u32 x = head[f], y = head[f ^ 0xffff];
        if (!(x | y)) continue;
        u32 size = e[0], i = 0;
        for (; i < size; i++) {
            u32 leaf = e[(i + 1) * col];
            at[2 * i] = pos[leaf] | (u32)pos[W + leaf] << 16;
            at[2 * i + 1] = neg[leaf] | (u32)neg[W + leaf] << 16;
        }
        for (; i < 4; i++) at[2 * i] = at[2 * i + 1] = NOARR;
        bp = follow(at, k, x, bp);
        bn = follow(at, k, y, bn);
    }
    put_best(w, 0, v, bp);
    put_best(w, 1, v, bn);
}
