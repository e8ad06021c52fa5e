//! The delay of a timing group at one load and one input slew.

use super::syntax::{Group, Word};
use std::collections::HashMap;

/// Where delay tables are looked up, in the library's own units; the middle of a table's axis where nothing is said.
#[derive(Clone, Copy, Debug, Default, PartialEq)]
pub struct Point {
    pub load: Option<f64>,
    pub slew: Option<f64>,
}

/// What an axis of a table goes by.
#[derive(Clone, Copy, Debug, PartialEq, Eq)]
enum Axis {
    Load,
    Slew,
    /// Nothing that is known here: the middle counts.
    Other,
}

#[derive(Clone, Debug, Default)]
struct Template {
    axes: Vec<Axis>,
    indices: Vec<Vec<f64>>,
}

/// The templates of a library, by name.
pub struct Templates(HashMap<String, Template>);

const INDICES: [&str; 2] = ["index_1", "index_2"];
const VARIABLES: [&str; 2] = ["variable_1", "variable_2"];

impl Templates {
    pub fn new(library: &Group) -> Templates {
        let template = |group: &Group| {
            let axis = |name: &&str| match group.value(name)?.text.as_str() {
                "total_output_net_capacitance" => Some(Axis::Load),
                "input_net_transition" | "input_transition_time" => Some(Axis::Slew),
                _ => Some(Axis::Other),
            };
            let axes = VARIABLES.iter().map_while(axis).collect();
            let indices = INDICES.iter().map_while(|name| numbers(group, name)).collect();
            (group.title().to_string(), Template { axes, indices })
        };
        Templates(library.all("lu_table_template").map(template).collect())
    }

    /// The value of a table such as `cell_rise` at a point.
    fn value(&self, table: &Group, point: Point) -> Result<f64, String> {
        let template = self.0.get(table.title()).cloned().unwrap_or_default();
        let rows: Vec<Vec<f64>> = match table.all("values").next() {
            Some(values) => {
                values.arguments.iter().map(list).collect::<Option<_>>().ok_or("its values are not numbers")?
            }
            None => return Err("it has no values".into()),
        };
        let flat: Vec<f64> = rows.concat();
        let given = INDICES.iter().map_while(|name| numbers(table, name)).collect::<Vec<_>>();
        let indices = if given.is_empty() { template.indices } else { given };
        let at = |k: usize| match template.axes.get(k) {
            Some(Axis::Load) => point.load,
            Some(Axis::Slew) => point.slew,
            _ => None,
        };
        if flat.len() == 1 {
            return Ok(flat[0]);
        }
        match &indices[..] {
            [one] if one.len() == flat.len() => Ok(place(one, at(0))?.of(&flat)),
            [one, two] if one.len() * two.len() == flat.len() => {
                let (first, second) = (place(one, at(0))?, place(two, at(1))?);
                let row = |k: usize| second.of(&flat[k * two.len()..(k + 1) * two.len()]);
                Ok(first.of(&(0..one.len()).map(row).collect::<Vec<_>>()))
            }
            _ => Err(format!("its {} values do not fit its indices", flat.len())),
        }
    }

    /// The larger of the rise and fall delays of a timing group, in the library's time unit.
    pub fn delay(&self, timing: &Group, point: Point) -> Result<f64, String> {
        let mut delays = Vec::new();
        for (table, intrinsic) in [("cell_rise", "intrinsic_rise"), ("cell_fall", "intrinsic_fall")] {
            if let Some(table) = timing.all(table).next() {
                let what = &table.name.text;
                delays.push(self.value(table, point).map_err(|why| format!("{what}: {why}"))?);
            } else if let Some(word) = timing.value(intrinsic) {
                delays.push(number(&word.text).ok_or_else(|| format!("`{}` is not a number", word.text))?);
            }
        }
        delays.into_iter().reduce(f64::max).ok_or_else(|| "neither delay tables nor intrinsic delays".into())
    }
}

/// A place on an axis: between two of its indices, or beyond them.
struct Place {
    below: usize,
    share: f64,
}

impl Place {
    /// The value there, on a straight line through the two neighbours.
    fn of(&self, values: &[f64]) -> f64 {
        match values.get(self.below + 1) {
            Some(next) => values[self.below] + self.share * (next - values[self.below]),
            None => values[self.below],
        }
    }
}

fn place(index: &[f64], at: Option<f64>) -> Result<Place, String> {
    if index.is_empty() || index.windows(2).any(|pair| pair[0] >= pair[1]) {
        return Err("its indices do not ascend".into());
    }
    let Some(at) = at else { return Ok(Place { below: (index.len() - 1) / 2, share: 0.0 }) };
    if index.len() == 1 {
        return Ok(Place { below: 0, share: 0.0 });
    }
    let below = index.partition_point(|&value| value <= at).saturating_sub(1).min(index.len() - 2);
    Ok(Place { below, share: (at - index[below]) / (index[below + 1] - index[below]) })
}

/// A finite number.
pub fn number(text: &str) -> Option<f64> {
    text.trim().parse().ok().filter(|value: &f64| value.is_finite())
}

/// The numbers of a word, parted by commas or blanks.
fn list(word: &Word) -> Option<Vec<f64>> {
    word.text.split(|c: char| c == ',' || c.is_whitespace()).filter(|part| !part.is_empty()).map(number).collect()
}

fn numbers(group: &Group, name: &str) -> Option<Vec<f64>> {
    let words = &group.all(name).next()?.arguments;
    words.iter().map(list).collect::<Option<Vec<_>>>().map(|lists| lists.concat())
}

#[cfg(test)]
mod tests {
    use super::*;
    use crate::liberty::syntax::parse;

    const LIBRARY: &str = "library (l) {
        lu_table_template (t) { variable_1 : input_net_transition; variable_2 : total_output_net_capacitance;
            index_1 (\"1, 2, 4\"); index_2 (\"10, 30\"); }
        lu_table_template (u) { variable_1 : total_output_net_capacitance; index_1 (\"10, 30\"); }
        timing () { cell_rise (t) { values (\"1, 3\", \"2, 6\", \"10, 20\"); } cell_fall (scalar) { values (\"0.5\"); } }
        timing () { cell_rise (u) { index_1 (\"0, 1\"); values (\"5, 7\"); } }
        timing () { intrinsic_rise : 0.2; intrinsic_fall : 0.3; }
        timing () { cell_rise (t) { values (\"1, 2\"); } }
        timing () { related_pin : \"A\"; } }";

    #[test]
    fn values_at_a_point() {
        let library = parse(LIBRARY.as_bytes()).expect("in form");
        let templates = Templates::new(&library);
        let timings: Vec<&Group> = library.all("timing").collect();
        let of = |k: usize, slew, load| templates.delay(timings[k], Point { load, slew });
        // The middle of three is the second, of two the first.
        assert_eq!(of(0, None, None), Ok(2.0));
        assert_eq!(of(0, Some(1.0), Some(10.0)), Ok(1.0));
        assert_eq!(of(0, Some(1.5), Some(20.0)), Ok(3.0));
        assert_eq!(of(0, Some(4.0), Some(30.0)), Ok(20.0));
        // Beyond the table on the line of its last two values.
        assert_eq!(of(0, Some(4.0), Some(50.0)), Ok(30.0));
        assert_eq!(of(1, None, Some(0.5)), Ok(6.0));
        assert_eq!(of(2, None, None), Ok(0.3));
        assert_eq!(of(3, None, None), Err("cell_rise: its 2 values do not fit its indices".into()));
        assert_eq!(of(4, None, None), Err("neither delay tables nor intrinsic delays".into()));
    }
}
