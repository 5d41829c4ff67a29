//! `liftrun` as a student writes it, from the definitions alone: `replier` is
//! right, and `replier MISTAKE` has that mistake in it.

mod tables;

use std::collections::{BTreeMap, BTreeSet};
use std::io::{self, Read};
use tables::{Map, Span, lifted};

const PLAN: usize = 192;
const LIFTED: usize = 512;
const REPLIES: usize = 1_024;

/// The number of a refusal.
type Refused = u8;

struct Run {
    plan: Map,
    lifted: Map,
    mistake: String,
}

/// The command's byte and its operands.
struct Given {
    byte: u8,
    numbers: Vec<i64>,
}

/// How many bytes the operands of a command have.
fn widths(byte: u8) -> Option<&'static [usize]> {
    Some(match byte {
        0x10 => &[1],
        0x11 | 0x17 | 0x18 => &[],
        0x12 => &[1, 2, 2],
        0x13 => &[1, 2],
        0x14 => &[2, 1, 4],
        0x15 => &[2, 4, 4],
        0x16 => &[2],
        0x19 => &[1, 1],
        0x1a => &[2, 4, 4, 2],
        _ => return None,
    })
}

/// The command at the front, and the bytes behind it.
fn read(bytes: &[u8]) -> Result<(Given, &[u8]), Refused> {
    let (&byte, mut rest) = bytes.split_first().ok_or(2)?;
    let mut numbers = vec![];
    for &width in widths(byte).ok_or(1)? {
        let (own, others) = rest.split_at_checked(width).ok_or(2)?;
        let number = own.iter().fold(0, |sum, &byte| 256 * sum + i64::from(byte));
        numbers.push(match width {
            4 => i64::from(number as u32 as i32),
            _ => number,
        });
        rest = others;
    }
    Ok((Given { byte, numbers }, rest))
}

/// Whether two spans share more than an end.
fn overlap(one: Span, other: Span) -> bool {
    one.0 < other.1 && other.0 < one.1
}

/// Whether one ends where the other begins.
fn touch(one: Span, other: Span) -> bool {
    one.1 == other.0 || other.1 == one.0
}

/// The first as far as both reach.
fn hull(one: Span, other: Span) -> Span {
    (one.0.min(other.0), one.1.max(other.1), one.2)
}

/// A refusal where something is so.
fn refuse(number: Refused, is: bool) -> Result<(), Refused> {
    match is {
        true => Err(number),
        false => Ok(()),
    }
}

impl Run {
    fn has(&self, mistake: &str) -> bool {
        self.mistake == mistake
    }

    fn take(&mut self, given: &Given) -> Result<usize, Refused> {
        let n = &given.numbers;
        match given.byte {
            0x10 => {
                refuse(3, !(1..=4).contains(&n[0]))?;
                self.plan = Map::new(n[0] as usize);
                if self.has("NEW forgets the lifted map") {
                    self.lifted = Map::new(0);
                }
                return Ok(0);
            }
            0x18 => return self.adopt(),
            0x19 => return self.count(n[0], n[1] as usize),
            _ => refuse(12, self.plan.m == 0)?,
        }
        match given.byte {
            0x11 => self.dart(),
            0x12 => self.sew(n[0] as usize, n[1] as usize, n[2] as usize),
            0x13 => self.unsew(n[0] as usize, n[1] as usize),
            0x14 => self.place(n[0] as usize, n[1] as usize, n[2]),
            0x15 => self.span(n[0] as usize, (n[1], n[2], 0)),
            0x1a if self.has("takes no objects") => self.span(n[0] as usize, (n[1], n[2], 0)),
            0x1a => self.span(n[0] as usize, (n[1], n[2], n[3])),
            0x16 => self.clear(n[0] as usize),
            _ => self.lift(),
        }
    }

    fn dart(&mut self) -> Result<usize, Refused> {
        let (count, m) = (self.plan.links.len(), self.plan.m);
        refuse(13, count >= PLAN)?;
        self.plan.links.push(vec![count; m + 1]);
        self.plan.places.push(vec![0; m]);
        self.plan.rows.push(vec![]);
        Ok(count)
    }

    /// Axes at distance 2 or more.
    fn far(&self, i: usize) -> Vec<usize> {
        let axes = (0..=self.plan.m).filter(|&j| j.abs_diff(i) >= 2);
        match self.has("sews one dart alone") {
            true => vec![],
            false => axes.collect(),
        }
    }

    fn sew(&mut self, i: usize, a: usize, b: usize) -> Result<usize, Refused> {
        let count = self.plan.links.len();
        refuse(3, i > self.plan.m && !self.has("asks for darts first"))?;
        refuse(4, a >= count || b >= count)?;
        refuse(3, i > self.plan.m)?;
        let plan = &self.plan;
        refuse(14, plan.links[a][i] != a || plan.links[b][i] != b)?;
        let far = self.far(i);
        let (of_a, of_b) = (plan.orbit(a, &far), plan.orbit(b, &far));
        refuse(15, of_a.intersection(&of_b).next().is_some())?;
        let (mut pairs, mut open) = (BTreeMap::from([(a, b)]), vec![(a, b)]);
        while let Some((d, e)) = open.pop() {
            for &j in &far {
                let (d, e) = (plan.links[d][j], plan.links[e][j]);
                match pairs.insert(d, e) {
                    None => open.push((d, e)),
                    Some(other) => refuse(15, other != e)?,
                }
            }
        }
        let partners: BTreeSet<usize> = pairs.values().copied().collect();
        refuse(15, partners.len() != pairs.len() || partners != of_b)?;
        for (&d, &e) in &pairs {
            let places = i >= 1 && plan.places[d] != plan.places[e];
            let rows = i < plan.m && !self.same_rows(&plan.rows[d], &plan.rows[e]);
            refuse(16, places && !self.has("places are not compared"))?;
            refuse(16, rows)?;
        }
        for (&d, &e) in &pairs {
            self.plan.links[d][i] = e;
            self.plan.links[e][i] = d;
        }
        Ok(2 * pairs.len())
    }

    fn same_rows(&self, own: &[Span], other: &[Span]) -> bool {
        let ends = |row: &[Span]| -> Vec<_> { row.iter().map(|span| (span.0, span.1)).collect() };
        match self.has("objects are not compared") {
            true => ends(own) == ends(other),
            false => own == other,
        }
    }

    fn unsew(&mut self, i: usize, a: usize) -> Result<usize, Refused> {
        refuse(3, i > self.plan.m)?;
        refuse(4, a >= self.plan.links.len())?;
        refuse(17, self.plan.links[a][i] == a)?;
        let mut freed = self.plan.orbit(a, &self.far(i));
        let around = freed.len();
        let others: Vec<usize> = freed.iter().map(|&d| self.plan.links[d][i]).collect();
        freed.extend(others);
        for &d in &freed {
            self.plan.links[d][i] = d;
        }
        match self.has("counts what is freed twice") {
            true => Ok(2 * around),
            false => Ok(freed.len()),
        }
    }

    fn place(&mut self, dart: usize, axis: usize, at: i64) -> Result<usize, Refused> {
        refuse(3, axis >= self.plan.m)?;
        refuse(4, dart >= self.plan.links.len())?;
        let mut corner = self.plan.cell(dart, 0);
        if self.has("places one dart alone") {
            corner = BTreeSet::from([dart]);
        }
        for &d in &corner {
            self.plan.places[d][axis] = at;
        }
        Ok(corner.len())
    }

    fn span(&mut self, dart: usize, span: Span) -> Result<usize, Refused> {
        refuse(4, dart >= self.plan.links.len())?;
        refuse(5, span.0 >= span.1)?;
        let row = self.plan.rows[dart].clone();
        let clashes = self.clashes(span, &row);
        if clashes && self.has("a refused span stays") {
            self.plan.rows[dart] = vec![span];
        }
        refuse(19, row.len() >= 8 && self.has("asks for room first"))?;
        refuse(18, clashes)?;
        refuse(19, row.len() >= 8 && self.has("a full row joins nothing"))?;
        let row = self.joined(span, &row);
        let most = if self.has("a row holds nine") { 9 } else { 8 };
        refuse(19, row.len() > most)?;
        let cell = self.plan.cell(dart, self.plan.m);
        for &d in &cell {
            self.plan.rows[d].clone_from(&row);
        }
        Ok(cell.len())
    }

    /// Whether a row has something that a new span may not overlap.
    fn clashes(&self, span: Span, row: &[Span]) -> bool {
        let over: Vec<&Span> = row.iter().filter(|&&old| overlap(span, old)).collect();
        let other = |old: &&Span| old.2 != span.2;
        let clashes = over.iter().any(other);
        match self.mistake.as_str() {
            "refuses touching spans" => clashes || row.iter().any(|&old| touch(span, old)),
            "refuses every overlap" => !over.is_empty(),
            "refuses where all are another's" => clashes && over.iter().all(other),
            _ => clashes,
        }
    }

    /// A row with a new span: it and those that it overlaps are one.
    fn joined(&self, span: Span, row: &[Span]) -> Vec<Span> {
        let beside = |all: Span, old: Span| all.2 == old.2 && touch(all, old);
        let touching = self.has("joins what touches");
        let meets = |&&old: &&Span| overlap(span, old) || touching && beside(span, old);
        let (over, mut rest): (Vec<Span>, Vec<Span>) = row.iter().partition(meets);
        let mut all = over.iter().fold(span, |all, &old| hull(all, old));
        if let Some(last) = over.last() {
            if self.has("keeps the old high end") {
                all.1 = last.1;
            }
            while self.has("joins on and on")
                && let Some(at) = rest.iter().position(|&old| beside(all, old))
            {
                all = hull(all, rest.remove(at));
            }
        }
        rest.push(all);
        rest.sort_unstable();
        rest
    }

    fn clear(&mut self, dart: usize) -> Result<usize, Refused> {
        refuse(4, dart >= self.plan.links.len())?;
        let cell = self.plan.cell(dart, self.plan.m);
        cell.iter().for_each(|&d| self.plan.rows[d].clear());
        Ok(cell.len())
    }

    fn lift(&mut self) -> Result<usize, Refused> {
        refuse(22, self.plan.m == 5)?;
        let map = lifted(&self.plan);
        refuse(20, map.links.len() > LIFTED)?;
        self.lifted = map;
        Ok(self.lifted.links.len())
    }

    fn adopt(&mut self) -> Result<usize, Refused> {
        refuse(21, self.lifted.m == 0)?;
        refuse(13, self.lifted.links.len() > PLAN)?;
        let old = std::mem::replace(&mut self.plan, self.lifted.clone());
        if self.has("ADOPT takes spans along") {
            for (row, old) in self.plan.rows.iter_mut().zip(old.rows) {
                *row = old;
            }
        }
        Ok(self.plan.links.len())
    }

    fn count(&self, side: i64, axis: usize) -> Result<usize, Refused> {
        refuse(3, side > 1)?;
        let (map, blank) = match side {
            0 => (&self.plan, 12),
            _ => (&self.lifted, 21),
        };
        refuse(blank, map.m == 0)?;
        refuse(3, axis > map.m)?;
        Ok(map.cells(axis).len())
    }
}

fn main() {
    let mut bytes = vec![];
    io::stdin().read_to_end(&mut bytes).unwrap();
    if bytes.len() > 2_048 {
        return println!("long");
    }
    let mut run = Run {
        plan: Map::new(0),
        lifted: Map::new(0),
        mistake: std::env::args().nth(1).unwrap_or_default(),
    };
    let (mut left, mut counts, mut ended) = (&bytes[..], [0, 0], 0);
    while !left.is_empty() && ended == 0 {
        if counts[0] + counts[1] == REPLIES {
            ended = 23;
            break;
        }
        let reply = match read(left) {
            Ok((given, rest)) => {
                left = rest;
                run.take(&given)
            }
            Err(number) => {
                ended = number;
                Err(number)
            }
        };
        counts[usize::from(reply.is_err())] += 1;
        match reply {
            Ok(value) => println!("0 {value}"),
            Err(number) => println!("{number} 0"),
        }
    }
    let [accepted, refused] = counts;
    println!("end {ended} {} {accepted} {refused}", accepted + refused);
}
