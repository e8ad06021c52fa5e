/* A mapper in plain C, to compare with: nothing in it is proved.
 * cuts: plain merge up to the fifth leaf, a sorted list of cut records by value
 * functions: walk with a memo stamped by the cut's own number
 * matching: chains of all variants (cell, each of 24 orders, mask) by table, built by the plain rule of 16 rows
 * placing: the scan restarts at the lowest AND that waits */
#include "frame.h"

/* ---- placing, 15 */
static inline int ready(const u16 *w, u32 v)
{ return KIND(v) == AND && !PLACED(v) && PLACED(LEFT(v) / 2) && PLACED(RIGHT(v) / 2); }
static u32 place_all(u16 *w, Header h)
{
    u32 slot = 1 + h.i, end = 1 + h.i + h.a, low = 1;
    while (slot < end) {
        while (low < W && (KIND(low) != AND || PLACED(low))) low++;   /* below low nothing waits */
        u32 v = low;
        while (v < W && !ready(w, v)) v++;
        if (v == W) return low;
        ORDER(slot) = v; PLACED(v) = 1; slot++;
    }
    return 0;
}

/* ---- cuts */
typedef struct { u16 n, l[5]; } Cut;             /* l[4] is NOLEAF always */
static inline Cut load_cut(const u16 *w, u32 e)
{ Cut c = {SIZE(e), {LEAF(0, e), LEAF(1, e), LEAF(2, e), LEAF(3, e), NOLEAF}}; return c; }
typedef struct { u32 ok; Cut c; } Joined;
static inline Joined join(Cut p, Cut q)
{
    Joined r = {0, {0, {NOLEAF, NOLEAF, NOLEAF, NOLEAF, NOLEAF}}};
    u32 i = 0, j = 0, n = 0;
    while (p.l[i] != NOLEAF || q.l[j] != NOLEAF) {
        u32 c = p.l[i], d = q.l[j];
        if (n == 4) return r;
        r.c.l[n] = c < d ? c : d;
        n++;
        if (c <= d) i++;
        if (d <= c) j++;
    }
    r.ok = 1; r.c.n = n;
    return r;
}
static inline int before(Cut a, Cut b)
{
    if (a.n != b.n) return a.n < b.n;
    if (a.l[0] != b.l[0]) return a.l[0] < b.l[0];
    if (a.l[1] != b.l[1]) return a.l[1] < b.l[1];
    if (a.l[2] != b.l[2]) return a.l[2] < b.l[2];
    return a.l[3] < b.l[3];
}
typedef struct { u32 n; Cut c[L]; } List;
static inline void insert(List *s, Cut x)
{
    u32 k = s->n;
    while (k > 0 && before(x, s->c[k - 1])) k--;
    if (k > 0 && !before(s->c[k - 1], x)) return;
    if (s->n < L) {
        for (u32 e = s->n; e > k; e--) s->c[e] = s->c[e - 1];
        s->c[k] = x;
    }
    s->n++;
}
static int enumerate(u16 *w, u32 v)
{
    u32 a = LEFT(v) / 2, b = RIGHT(v) / 2, na = COUNT(a), nb = COUNT(b);
    List s;
    Cut own = {1, {v, NOLEAF, NOLEAF, NOLEAF, NOLEAF}};
    s.n = 1;
    s.c[0] = own;
    for (u32 i = 0; i < na; i++) {
        Cut p = load_cut(w, L * a + i);
        for (u32 j = 0; j < nb; j++) {
            Joined x = join(p, load_cut(w, L * b + j));
            if (!x.ok) continue;
            insert(&s, x.c);
            if (s.n > L) return 0;
        }
    }
    for (u32 k = 0; k < s.n; k++) {
        u32 e = L * v + k;
        Cut c = s.c[k];
        SIZE(e) = c.n; LEAF(0, e) = c.l[0]; LEAF(1, e) = c.l[1]; LEAF(2, e) = c.l[2]; LEAF(3, e) = c.l[3];
    }
    COUNT(v) = s.n;
    return 1;
}

/* ---- a cut's function: memo[x] is 65536 * stamp + x's rows under the cut with that stamp.
 * A cut's stamp, 1 + L * its root's slot + its number, is above all earlier ones, so nothing is cleared. */
static u64 memo[4096];
static u32 walk(const u16 *w, u32 v, u64 stamp)
{
    if (memo[v] / 65536 == stamp) return memo[v] % 65536;
    u32 a = LEFT(v), b = RIGHT(v);
    u32 x = walk(w, a / 2, stamp), y = walk(w, b / 2, stamp);
    u32 f = (a % 2 ? 65535 - x : x) & (b % 2 ? 65535 - y : y);
    memo[v] = stamp * 65536 + f;
    return f;
}
static u32 cut_function(const u16 *w, u32 v, u32 e, u64 stamp)
{
    memo[0] = stamp * 65536;
    for (u32 i = 0; i < SIZE(e); i++) memo[LEAF(i, e)] = stamp * 65536 + leaf_rows[i];
    return walk(w, v, stamp);
}
static void functions(u16 *w, u32 v, u32 slot)
{
    u32 n = COUNT(v);
    for (u32 k = 0; k < n; k++) FUN(L * v + k) = cut_function(w, v, L * v + k, L * slot + k + 1);
}

/* ---- matching.  Variant: 512 * (cell + 1) + 16 * order + mask; 0 ends a chain */
static u16 head[65536], next[33 * 512];          /* by table: the lowest variant; the next one of the same table */
static u32 variant_table(const Cell *x, u32 o, u32 mask)
{
    u32 full = (1u << x->pins) - 1, t = 0;
    for (u32 r = 0; r < 16; r++) t |= (x->table >> ((row_of[o][r] ^ mask) & full) & 1u) << r;
    return t;
}
static void build(const Library *lib)
{
    clear(head, 65536);
    for (u32 c = lib->n; c-- > 0;)
        for (u32 o = 24; o-- > 0;) {
            u32 m = lib->c[c].pins;
            for (u32 mask = 1u << m; mask-- > 0;) {
                u32 var = 512 * (c + 1) + 16 * o + mask, t = variant_table(&lib->c[c], o, mask);
                next[var] = head[t];
                head[t] = var;
            }
        }
}
typedef struct { u32 arrival, var, cut; } Best;
/* the variant's arrival on cut e if it is below `best`, else `best` */
static u32 arrival_on(const u16 *w, const Library *lib, u32 e, u32 var, u32 best)
{
    const Cell *x = &lib->c[var / 512 - 1];
    u32 t = 0, size = SIZE(e), o = var / 16 % 32;
    for (u32 j = 0; j < x->pins; j++) {
        u32 pl = place_of[o][j];
        if (pl >= size) return best;
        u32 y = arr(w, var >> j & 1, LEAF(pl, e)) + x->d[j];   /* NOARR where there is no source */
        if (y >= best) return best;
        if (y > t) t = y;
    }
    return t < best ? t : best;
}
static void choose_phase(u16 *w, const Library *lib, u32 v, u32 p)
{
    Best b = {NOARR, 0, 0};
    u32 n = COUNT(v);
    for (u32 k = 0; k < n; k++) {
        u32 e = L * v + k;
        if (LEAF(0, e) == v) continue;           /* the variable alone */
        for (u32 var = head[p ? 65535 - FUN(e) : FUN(e)]; var; var = next[var]) {
            u32 t = arrival_on(w, lib, e, var, b.arrival);
            if (t < b.arrival) { b.arrival = t; b.var = var; b.cut = k; }
        }
    }
    if (b.var) set_source(w, p, v, MATCHED + 4 * (b.var / 512 - 1), b.cut * 512 + b.var % 512, b.arrival);
    else set_source(w, p, v, NOTHING, 0, NOARR);
}
static void choose(u16 *w, const Library *lib, u32 v, u32 slot)
{
    if (v) functions(w, v, slot);                /* the empty cut is stored with its own */
    choose_phase(w, lib, v, 0);
    choose_phase(w, lib, v, 1);
}
