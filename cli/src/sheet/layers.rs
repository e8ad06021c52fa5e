//! Where the boxes of a drawing stand: in columns by how far they are from the inputs, in an order with few crossings, near what they are joined to.

/// What is drawn: boxes, each with its column, and the joins from a box to boxes in later columns.
pub struct Plan {
    pub columns: Vec<usize>,
    /// From which box, to which.
    pub joins: Vec<(usize, usize)>,
}

/// A place in a column: a box, or where a join passes through.
struct Place {
    column: usize,
    /// Half of the height that it takes.
    half: f64,
    y: f64,
    before: Vec<usize>,
    behind: Vec<usize>,
}

pub struct Layout {
    /// The middle of each box, downwards.
    pub boxes: Vec<f64>,
    /// For each join, the heights at which it passes the columns between its ends.
    pub ways: Vec<Vec<f64>>,
    pub height: f64,
}

const BOX: f64 = 17.0;
const PASS: f64 = 3.0;
const GAP: f64 = 9.0;
const SWEEPS: usize = 16;

pub fn layout(plan: &Plan) -> Layout {
    let mut places: Vec<Place> = plan.columns.iter().map(|&column| place(column, BOX)).collect();
    let ways: Vec<Vec<usize>> = passes(plan, &mut places);
    let columns = plan.columns.iter().max().map_or(0, |last| last + 1);
    let mut order: Vec<Vec<usize>> = vec![Vec::new(); columns];
    for (k, place) in places.iter().enumerate() {
        order[place.column].push(k);
    }
    settle_order(&mut places, &mut order);
    settle_heights(&mut places, &order);
    let top = places.iter().map(|place| place.y - place.half).fold(f64::INFINITY, f64::min);
    let top = if top.is_finite() { top } else { 0.0 };
    for place in &mut places {
        place.y -= top;
    }
    Layout {
        boxes: places[..plan.columns.len()].iter().map(|place| place.y).collect(),
        ways: ways.iter().map(|way| way.iter().map(|&k| places[k].y).collect()).collect(),
        height: places.iter().map(|place| place.y + place.half).fold(0.0, f64::max),
    }
}

fn place(column: usize, half: f64) -> Place {
    Place { column, half, y: 0.0, before: Vec::new(), behind: Vec::new() }
}

/// Joins all places that follow each other; the joins of one box share the places that they pass through.
fn passes(plan: &Plan, places: &mut Vec<Place>) -> Vec<Vec<usize>> {
    let mut shared: Vec<Vec<usize>> = vec![Vec::new(); plan.columns.len()];
    let mut ways = Vec::new();
    for &(from, to) in &plan.joins {
        let between = plan.columns[to].saturating_sub(plan.columns[from] + 1);
        while shared[from].len() < between {
            let last = shared[from].last().copied().unwrap_or(from);
            let k = places.len();
            places.push(place(places[last].column + 1, PASS));
            join(places, last, k);
            shared[from].push(k);
        }
        let way = shared[from][..between].to_vec();
        join(places, way.last().copied().unwrap_or(from), to);
        ways.push(way);
    }
    ways
}

fn join(places: &mut [Place], from: usize, to: usize) {
    places[from].behind.push(to);
    places[to].before.push(from);
}

/// Sweeps to and fro, each column by the mean place of its neighbours in the one before; the order with the fewest crossings stays.
fn settle_order(places: &mut [Place], order: &mut [Vec<usize>]) {
    let number = |places: &mut [Place], column: &[usize]| {
        for (k, &p) in column.iter().enumerate() {
            places[p].y = k as f64;
        }
    };
    for column in order.iter() {
        number(places, column);
    }
    let mut best: Vec<Vec<usize>> = order.to_vec();
    let mut fewest = crossings(places, order);
    for sweep in 0..SWEEPS {
        let forth = sweep % 2 == 0;
        for k in 0..order.len() {
            let k = if forth { k } else { order.len() - 1 - k };
            let mean = |p: &usize| {
                let place = &places[*p];
                let near = if forth { &place.before } else { &place.behind };
                mean(near.iter().map(|&p| places[p].y)).unwrap_or(place.y)
            };
            let mut keyed: Vec<(f64, usize)> = order[k].iter().map(|p| (mean(p), *p)).collect();
            keyed.sort_by(|a, b| a.0.total_cmp(&b.0));
            order[k] = keyed.into_iter().map(|(_, p)| p).collect();
            number(places, &order[k]);
        }
        let crossed = crossings(places, order);
        if crossed < fewest {
            fewest = crossed;
            best = order.to_vec();
        }
    }
    order.clone_from_slice(&best);
    for column in order.iter() {
        number(places, column);
    }
}

/// How many joins cross, places being numbered within their columns.
fn crossings(places: &[Place], order: &[Vec<usize>]) -> usize {
    let column = |column: &Vec<usize>| {
        let joins: Vec<(f64, f64)> =
            column.iter().flat_map(|&p| places[p].behind.iter().map(move |&q| (places[p].y, places[q].y))).collect();
        let crossed = |(k, one): (usize, &(f64, f64))| {
            joins[..k].iter().filter(|two| (one.0 - two.0) * (one.1 - two.1) < 0.0).count()
        };
        joins.iter().enumerate().map(crossed).sum::<usize>()
    };
    order.iter().map(column).sum()
}

fn mean(values: impl Iterator<Item = f64>) -> Option<f64> {
    let (sum, n) = values.fold((0.0, 0), |(sum, n), value| (sum + value, n + 1));
    (n > 0).then(|| sum / f64::from(n))
}

/// Moves each place towards its neighbours, the order and the gaps kept.
fn settle_heights(places: &mut [Place], order: &[Vec<usize>]) {
    for column in order {
        let mut y = 0.0;
        for &p in column {
            places[p].y = y + places[p].half;
            y += 2.0 * places[p].half + GAP;
        }
        let half = y / 2.0;
        for &p in column {
            places[p].y -= half;
        }
    }
    for sweep in 0..SWEEPS {
        for k in 0..order.len() {
            let k = if sweep % 2 == 0 { k } else { order.len() - 1 - k };
            let wanted: Vec<f64> = order[k]
                .iter()
                .map(|&p| {
                    let near = places[p].before.iter().chain(&places[p].behind);
                    mean(near.map(|&q| places[q].y)).unwrap_or(places[p].y)
                })
                .collect();
            spread(places, &order[k], &wanted);
        }
    }
}

/// The wanted heights, apart by the gaps: the mean of pushing down from the top and up from the bottom.
fn spread(places: &mut [Place], column: &[usize], wanted: &[f64]) {
    let apart = |a: usize, b: usize| places[a].half + places[b].half + GAP;
    let mut down = wanted.to_vec();
    for k in 1..column.len() {
        down[k] = down[k].max(down[k - 1] + apart(column[k - 1], column[k]));
    }
    let mut up = wanted.to_vec();
    for k in (1..column.len()).rev() {
        up[k - 1] = up[k - 1].min(up[k] - apart(column[k - 1], column[k]));
    }
    for (k, &p) in column.iter().enumerate() {
        places[p].y = (down[k] + up[k]) / 2.0;
    }
}

#[cfg(test)]
mod tests {
    use super::*;

    /// A plan of chance: no two boxes of a column overlap, and every join passes each column between its ends.
    #[test]
    fn boxes_keep_apart() {
        let mut chance = 7u64;
        let mut below = |n: usize| {
            chance = chance.wrapping_mul(6_364_136_223_846_793_005).wrapping_add(1_442_695_040_888_963_407);
            (chance >> 33) as usize % n
        };
        for _ in 0..40 {
            let columns: Vec<usize> = (0..30).map(|k| if k < 6 { k } else { below(6) }).collect();
            let joins: Vec<(usize, usize)> =
                (0..40).map(|_| (below(30), below(30))).filter(|&(a, b)| columns[a] < columns[b]).collect();
            let layout = layout(&Plan { columns: columns.clone(), joins: joins.clone() });
            for a in 0..30 {
                for b in 0..a {
                    let apart = (layout.boxes[a] - layout.boxes[b]).abs();
                    assert!(columns[a] != columns[b] || apart >= 2.0 * BOX, "{a} {b} {apart}");
                }
                assert!((BOX - 0.001..=layout.height - BOX + 0.001).contains(&layout.boxes[a]));
            }
            for (way, (from, to)) in layout.ways.iter().zip(joins) {
                assert_eq!(way.len(), columns[to] - columns[from] - 1);
            }
        }
    }

    #[test]
    fn two_that_cross_are_turned() {
        let layout = layout(&Plan { columns: vec![0, 0, 1, 1], joins: vec![(0, 3), (1, 2)] });
        assert!((layout.boxes[0] < layout.boxes[1]) == (layout.boxes[3] < layout.boxes[2]));
    }
}
