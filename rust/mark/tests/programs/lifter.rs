//! A lifter as a student writes it, from the definition alone: `lifter` is
//! right, and `lifter MISTAKE` has that mistake in it.
//!
//! It reads a plan as text from standard input, and writes its lift as text.

use std::collections::{BTreeMap, BTreeSet};
use std::env;
use std::io::{self, Read};

/// A lifted dart: plan dart, level, height, and whether it is the upper side.
type Lifted = (usize, usize, i64, bool);

struct Plan {
    m: usize,
    links: Vec<Vec<usize>>,
    places: Vec<Vec<i64>>,
    rows: Vec<Vec<(i64, i64)>>,
    /// The objects of the spans.
    objects: Vec<Vec<i64>>,
    mistake: String,
}

impl Plan {
    fn read(text: &str, mistake: String) -> Plan {
        let mut lines = text.lines();
        let head: Vec<&str> = lines.next().unwrap().split(' ').collect();
        assert_eq!(head[..2], ["laremban-plan", "2"]);
        let m: usize = head[2].parse().unwrap();
        let mut plan = Plan {
            m,
            links: vec![],
            places: vec![],
            rows: vec![],
            objects: vec![],
            mistake,
        };
        for line in lines {
            let numbers: Vec<i64> = line.split(' ').map(|word| word.parse().unwrap()).collect();
            let (links, rest) = numbers.split_at(m + 1);
            let (place, spans) = rest.split_at(m);
            plan.links
                .push(links.iter().map(|&link| link as usize).collect());
            plan.places.push(place.to_vec());
            let row = spans.chunks(3).map(|span| (span[0], span[1])).collect();
            plan.rows.push(row);
            plan.objects
                .push(spans.chunks(3).map(|span| span[2]).collect());
        }
        assert_eq!(plan.links.len(), head[3].parse::<usize>().unwrap());
        if plan.has("joins touching spans") {
            plan.rows.iter_mut().for_each(joined);
        }
        if plan.has("fills gaps") {
            plan.rows.iter_mut().for_each(filled);
        }
        if plan.has("reads seven spans") {
            plan.rows.iter_mut().for_each(|row| row.truncate(7));
        }
        plan
    }

    fn has(&self, mistake: &str) -> bool {
        self.mistake == mistake
    }

    /// The darts of a dart's k-cell.
    fn cell(&self, dart: usize, k: usize) -> BTreeSet<usize> {
        let mut cell = BTreeSet::from([dart]);
        let mut open = vec![dart];
        while let Some(dart) = open.pop() {
            for axis in (0..=self.m).filter(|&axis| axis != k) {
                // Only parcels that share a wall, and not those across a corner.
                if self.has("cuts at walls only") && axis == self.m && cell.len() > 4 {
                    continue;
                }
                let next = self.links[dart][axis];
                if cell.insert(next) {
                    open.push(next);
                }
            }
        }
        cell
    }

    /// B_k(d).
    fn ends(&self, dart: usize, k: usize) -> BTreeSet<i64> {
        let cell = match self.mistake.as_str() {
            "cuts at own ends only" => BTreeSet::from([dart]),
            "takes the cell one level above" => self.cell(dart, self.m.min(k + 1)),
            "cuts in dimension 4 at own ends only" if self.m == 4 => BTreeSet::from([dart]),
            "cuts corners alone" if k > 0 => self.cell(dart, self.m),
            "looks two parcels far" => self.near(dart, k),
            _ => self.cell(dart, k),
        };
        let rows = cell.iter().flat_map(|&dart| &self.rows[dart]);
        rows.flat_map(|&(lo, hi)| [lo, hi]).collect()
    }

    /// As many darts of a cell as three parcels in a row have there.
    fn near(&self, dart: usize, k: usize) -> BTreeSet<usize> {
        let mut near = BTreeSet::from([dart]);
        for _ in 0..4 {
            for dart in near.clone() {
                let axes = (0..=self.m).filter(|&axis| axis != k);
                near.extend(axes.map(|axis| self.links[dart][axis]));
            }
        }
        near
    }

    fn covered(&self, dart: usize, t: i64, up: bool) -> bool {
        self.covering(dart, t, up).is_some()
    }

    /// Which span of the dart's row covers the side.
    fn covering(&self, dart: usize, t: i64, up: bool) -> Option<usize> {
        self.rows[dart].iter().position(|&(lo, hi)| match up {
            true => lo <= t && t < hi,
            false => lo < t && t <= hi,
        })
    }

    /// The object of the span that covers a lifted dart's side.
    fn object(&self, (d, _, t, up): Lifted) -> i64 {
        let side = match self.mistake.as_str() {
            "takes the object of the other side" if self.covered(d, t, !up) => !up,
            "forgets objects" => return 0,
            _ => up,
        };
        let span = match self.has("takes the object of the first span") {
            true => Some(0),
            false => self.covering(d, t, side),
        };
        let object = span.and_then(|span| self.objects[d].get(span));
        object.copied().unwrap_or(0)
    }
}

fn joined(row: &mut Vec<(i64, i64)>) {
    let mut joined: Vec<(i64, i64)> = vec![];
    for &(lo, hi) in row.iter() {
        match joined.last_mut() {
            Some(last) if last.1 == lo => last.1 = hi,
            _ => joined.push((lo, hi)),
        }
    }
    *row = joined;
}

fn filled(row: &mut Vec<(i64, i64)>) {
    if let (Some(&(lo, _)), Some(&(_, hi))) = (row.first(), row.last()) {
        *row = vec![(lo, hi)];
    }
}

/// A link of a lifted dart.
fn link(plan: &Plan, ends: &[Vec<BTreeSet<i64>>], (d, k, t, up): Lifted, i: usize) -> Lifted {
    let (m, own) = (plan.m, (d, k, t, up));
    if i < k {
        return (plan.links[d][i], k, t, up);
    }
    if i == k && k >= 1 {
        return (d, k - 1, t, up);
    }
    if i == 0 {
        let next = match up {
            _ if plan.has("goes to the last end") && up => ends[d][0].iter().next_back(),
            true => ends[d][0].range(t + 1..).next(),
            false => ends[d][0].range(..t).next_back(),
        };
        return (d, 0, *next.unwrap_or(&t), !up);
    }
    if i == k + 1 && i <= m {
        return match ends[d][k + 1].contains(&t) {
            true => (d, k + 1, t, up),
            false if plan.has("leaves a cut open") => own,
            false => (d, k, t, !up),
        };
    }
    if i == k + 1 {
        return match plan.covered(d, t, !up) {
            true if plan.has("keeps touching solids apart") => own,
            true => (d, m, t, !up),
            false => own,
        };
    }
    across(plan, own, i)
}

/// A link along an axis at least two above the level.
fn across(plan: &Plan, (d, k, t, up): Lifted, i: usize) -> Lifted {
    let (m, own, other) = (plan.m, (d, k, t, up), plan.links[d][i - 1]);
    match i > m {
        true if plan.has("never links across") => own,
        true if plan.has("links across to a neighbour that stops") => {
            // Any dart of the neighbour at that height will do.
            (other, k, t, up == plan.covered(other, t, up))
        }
        true if plan.has("looks at the other side across") && plan.covered(other, t, !up) => {
            (other, k, t, up)
        }
        true if plan.has("looks at the other side across") => own,
        true if !plan.covered(other, t, up) => own,
        false if plan.has("takes the link of axis i") => (plan.links[d][i], k, t, up),
        _ => (other, k, t, up),
    }
}

/// All lifted darts, by their numbers.
fn lifted(plan: &Plan, ends: &[Vec<BTreeSet<i64>>]) -> Vec<Lifted> {
    let mut lifted: Vec<Lifted> = vec![];
    for (d, levels) in ends.iter().enumerate() {
        for (k, heights) in levels.iter().enumerate() {
            for &t in heights {
                let sides = [false, true].into_iter();
                let all = plan.has("takes sides that are not covered") && !plan.rows[d].is_empty();
                let sides = sides.filter(|&up| all || plan.covered(d, t, up));
                lifted.extend(sides.map(|up| (d, k, t, up)));
            }
        }
    }
    match plan.mistake.as_str() {
        "sorts heights as words" => {
            lifted.sort_by_key(|&(d, k, t, up)| (d, k, t.to_string(), up));
        }
        "numbers levels first" => lifted.sort_by_key(|&(d, k, t, up)| (k, d, t, up)),
        "numbers up before down" => lifted.sort_by_key(|&(d, k, t, up)| (d, k, t, !up)),
        "loses the last dart" => drop(lifted.pop()),
        _ => {}
    }
    lifted
}

fn lift(plan: &Plan) -> String {
    let (m, darts) = (plan.m, plan.links.len());
    let levels = |d: usize| (0..=m).map(|k| plan.ends(d, k)).collect();
    let ends: Vec<Vec<BTreeSet<i64>>> = (0..darts).map(levels).collect();
    let lifted = lifted(plan, &ends);
    let number: BTreeMap<Lifted, usize> = lifted.iter().copied().zip(0..).collect();
    let mut text = format!("laremban-map 2 {} {}\n", m + 1, lifted.len());
    for &dart in &lifted {
        let links = (0..=m + 1).map(|i| {
            let to = link(plan, &ends, dart, i);
            number.get(&to).or(number.get(&dart)).copied().unwrap() as i64
        });
        let height = match plan.mistake.as_str() {
            "forgets signs" => dart.2.abs(),
            "wraps at 16 bits" => i64::from(dart.2 as i16),
            _ => dart.2,
        };
        let place = plan.places[dart.0].iter().copied().chain([height]);
        let numbers: Vec<String> = links
            .chain(place)
            .chain([plan.object(dart)])
            .map(|number| number.to_string())
            .collect();
        text += &(numbers.join(" ") + "\n");
    }
    text
}

fn main() {
    let mut text = String::new();
    io::stdin().read_to_string(&mut text).unwrap();
    let plan = Plan::read(&text, env::args().nth(1).unwrap_or_default());
    if plan.has("fails in dimension 4") && plan.m == 4 {
        panic!("dimension 4 is not done yet");
    }
    print!("{}", lift(&plan));
}
