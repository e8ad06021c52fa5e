//! ANDs for a function of up to four leaves. Over all functions of four leaves no AND that is made here has more than 17 cuts (the test below counts).

/// The value of leaf k in the 16 rows.
pub const LEAF: [u16; 4] = [0xaaaa, 0xcccc, 0xf0f0, 0xff00];

/// The function where leaf k is 0, and where it is 1, in all 16 rows.
fn halves(table: u16, k: usize) -> [u16; 2] {
    let (low, high) = (table & !LEAF[k], table & LEAF[k]);
    [low | low << (1 << k), high | high >> (1 << k)]
}

/// The leaves that the function depends on.
pub fn support(table: u16) -> impl Iterator<Item = usize> {
    (0..4).filter(move |&k| {
        let [low, high] = halves(table, k);
        low != high
    })
}

/// The literal of the function over these literals of leaves, made of ANDs by `both`. A leaf that it does not depend on is not asked for.
pub fn literal(table: u16, leaves: &[u32; 4], both: &mut impl FnMut(u32, u32) -> u32) -> u32 {
    if table == 0 || table == 0xffff {
        return u32::from(table & 1);
    }
    let parts = || support(table).map(|k| (leaves[k], halves(table, k)));
    for (leaf, [low, high]) in parts() {
        match (low, high) {
            (0, _) => return both_of(leaf, literal(high, leaves, both), both),
            (_, 0) => return both_of(leaf ^ 1, literal(low, leaves, both), both),
            (0xffff, _) => return both_of(leaf, literal(!high, leaves, both), both) ^ 1,
            (_, 0xffff) => return both_of(leaf ^ 1, literal(!low, leaves, both), both) ^ 1,
            _ => {}
        }
    }
    if let Some((leaf, [low, _])) = parts().find(|(_, [low, high])| *low == !high) {
        let rest = literal(low, leaves, both);
        let (one, other) = (both_of(leaf, rest, both), both_of(leaf ^ 1, rest ^ 1, both));
        return both_of(one ^ 1, other ^ 1, both);
    }
    let Some((leaf, [low, high])) = parts().next() else { return 0 };
    let (low, high) = (literal(low, leaves, both), literal(high, leaves, both));
    let (one, other) = (both_of(leaf, high, both), both_of(leaf ^ 1, low, both));
    both_of(one ^ 1, other ^ 1, both) ^ 1
}

/// The same as an AND that has all the leaves in `needed` in a cut, those among them that the function does not depend on: a cell that ignores a pin needs
/// a leaf for it. The value that these bring in is x AND NOT x, which is 0.
pub fn literal_with(table: u16, needed: &[usize], leaves: &[u32; 4], both: &mut impl FnMut(u32, u32) -> u32) -> u32 {
    let bare = literal(table, leaves, both);
    let is_constant = bare < 2;
    let mut ignored = needed.iter().filter(|k| !support(table).any(|other| other == **k));
    let Some(&first) = ignored.next() else { return bare };
    let ordered = |a: u32, b: u32| (a.max(b), a.min(b));
    let (a, b) = ordered(leaves[first], leaves[first] ^ 1);
    let mut zero = both(a, b);
    for &k in ignored {
        let (a, b) = ordered(zero, leaves[k]);
        zero = both(a, b);
    }
    if is_constant {
        return zero ^ bare;
    }
    // The complement of the function is joined where the function is one: the literal is then that of the AND again.
    let (a, b) = ordered(bare & !1, zero ^ 1);
    both(a, b) ^ bare & 1
}

fn both_of(a: u32, b: u32, both: &mut impl FnMut(u32, u32) -> u32) -> u32 {
    match (a.max(b), a.min(b)) {
        (_, 0) => 0,
        (a, 1) => a,
        (a, b) if a == b => a,
        (a, b) if a == b ^ 1 => 0,
        (a, b) => both(a, b),
    }
}

#[cfg(test)]
mod tests {
    use super::*;

    /// The value of the literal in the 16 rows, the cuts of the AND with most of them, and the cuts of the literal's own.
    fn made_by(make: impl Fn(&[u32; 4], &mut dyn FnMut(u32, u32) -> u32) -> u32) -> (u16, usize, Vec<u64>) {
        let mut ands: Vec<[u32; 2]> = Vec::new();
        let out = make(&[2, 4, 6, 8], &mut |a, b| {
            let k = ands.iter().position(|and| *and == [a, b]).unwrap_or_else(|| {
                ands.push([a, b]);
                ands.len() - 1
            });
            2 * (5 + k) as u32
        });
        let mut value = vec![0, LEAF[0], LEAF[1], LEAF[2], LEAF[3]];
        let mut cuts: Vec<Vec<u64>> = (0..5).map(|v| vec![if v == 0 { 0 } else { 1 << v }]).collect();
        for [a, b] in &ands {
            assert!(a >= b, "the larger operand first");
            let of = |literal: u32| value[literal as usize / 2] ^ if literal % 2 == 1 { 0xffff } else { 0 };
            let mut mine = vec![1u64 << value.len()];
            for p in &cuts[*a as usize / 2] {
                mine.extend(cuts[*b as usize / 2].iter().map(|q| p | q).filter(|u| u.count_ones() <= 4));
            }
            mine.sort_unstable();
            mine.dedup();
            value.push(of(*a) & of(*b));
            cuts.push(mine);
        }
        let value = value[out as usize / 2] ^ if out % 2 == 1 { 0xffff } else { 0 };
        (value, cuts.iter().map(Vec::len).max().unwrap_or_default(), cuts[out as usize / 2].clone())
    }

    fn made(table: u16) -> (u16, usize) {
        let (value, cuts, _) = made_by(|leaves, both| literal(table, leaves, &mut |a, b| both(a, b)));
        (value, cuts)
    }

    /// The same for every set of leaves that a cell may need: the value stays, no AND has more than 18 cuts, and one cut has just these leaves.
    #[test]
    fn ignored_leaves_are_in_a_cut() {
        for table in 0..=0xffff {
            let support: Vec<usize> = support(table).collect();
            for set in 0..16usize {
                let needed: Vec<usize> = (0..4).filter(|k| set >> k & 1 == 1).collect();
                if support.len() == 4 || needed == support || !support.iter().all(|k| needed.contains(k)) {
                    continue;
                }
                let (value, cuts, own) =
                    made_by(|leaves, both| literal_with(table, &needed, leaves, &mut |a, b| both(a, b)));
                assert_eq!(value, table);
                assert!(cuts <= 18, "{table:04x} with {needed:?} has {cuts} cuts");
                assert!(own.contains(&((set as u64) << 1)), "{table:04x} with {needed:?}: {own:?}");
            }
        }
    }

    #[test]
    fn every_function_of_four_leaves_is_within_the_limit() {
        for table in 0..=0xffff {
            let (value, cuts) = made(table);
            assert_eq!(value, table);
            assert!(cuts <= 17, "{table:04x} has {cuts} cuts");
        }
    }
}
