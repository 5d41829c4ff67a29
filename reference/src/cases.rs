//! Test cases with the reference's answers inside, and their text.
//!
//! # The text format
//!
//! One case a line. Lines that begin with `#` and blank lines are skipped. A
//! line is the kind's word and then words `key=value`, separated by single
//! spaces; each key of the kind stands exactly once, in any order.
//!
//! * A number is decimal, with a leading `-` where it is negative.
//! * A list is decimal numbers separated by commas; an empty list is `key=`.
//! * Bytes are pairs of hexadecimal digits without spaces; none is `key=`.
//! * Replies are a list `number,value,number,value,...`.
//! * A map under a prefix, say `plan`, is five words: `plan.dim`, `plan.count`,
//!   `plan.links` (dim + 1 numbers a dart), `plan.places` (dim numbers a dart)
//!   and `plan.rows` (for each dart the count of its spans, then lo, hi and
//!   object of each). Dimension 0 with count 0 is the blank map.
//! * Raw plan tables are six words: `links`, `places`, `spans` (flat, as lent,
//!   of any length), `work` (only the length of that table), `dimension` and
//!   `count`.
//!
//! The kinds and their keys; what the reference answers stands behind the bar:
//!
//! * `run` bytes plan_capacity lifted_capacity reply_length | number taken
//!   accepted refused replies, the maps plan and lifted, lifted.objects (one
//!   number a lifted dart)
//! * `tables` bytes lengths (eight: plan links, places, spans, work, lifted
//!   links, places, objects, work) reply.before (bytes) | plan.links plan.places
//!   plan.spans lifted.links lifted.places lifted.objects (whole tables)
//!   reply.after (bytes) number taken accepted refused
//! * `prints` bytes | text (the output's bytes in hexadecimal)
//! * `check` raw plan tables | number value
//! * `lift` raw plan tables, lifted.links.before lifted.places.before
//!   lifted.objects.before lifted.work (a length) | number value
//!   lifted.links.after lifted.places.after lifted.objects.after
//! * `pieces` raw plan tables, dart axis memory.before | number pairs
//!   memory.after
//! * `row` plan.links lifted.links side dart | part (six numbers or none)
//! * `looseness` links dimension dart | number bits ones

use crate::calls;
use crate::lift::Lifted;
use crate::print::printed;
use crate::run::{After, Ended, Lengths, run, run_on_tables};
use crate::table::Raw;
use crate::text::{Line, Words};

/// Raw plan tables that own their contents.
#[derive(Clone, Debug, PartialEq, Eq)]
pub struct Plan {
    pub links: Vec<u16>,
    pub places: Vec<i32>,
    pub spans: Vec<i32>,
    pub work: usize,
    pub dimension: u8,
    pub count: usize,
}

impl Plan {
    /// The same tables as they are lent to a call.
    pub fn raw(&self) -> Raw<'_> {
        Raw {
            links: &self.links,
            places: &self.places,
            spans: &self.spans,
            work: self.work,
            dimension: self.dimension,
            count: self.count,
        }
    }
}

/// The lifted side's tables, which own their contents; of work the length.
#[derive(Clone, Debug, PartialEq, Eq)]
pub struct LiftedTables {
    pub links: Vec<u16>,
    pub places: Vec<i32>,
    pub objects: Vec<u16>,
    pub work: usize,
}

impl LiftedTables {
    /// The same tables as they are lent to a call.
    pub fn lent(&mut self) -> calls::Lent<'_> {
        calls::Lent {
            links: &mut self.links,
            places: &mut self.places,
            objects: &mut self.objects,
            work: self.work,
        }
    }
}

/// A test case of one kind, with the answer.
#[derive(Clone, Debug, PartialEq, Eq)]
pub enum Case {
    Run {
        bytes: Vec<u8>,
        plan_capacity: usize,
        lifted_capacity: usize,
        reply_length: usize,
        ended: Ended,
    },
    Tables {
        bytes: Vec<u8>,
        lengths: Lengths,
        before: Vec<u8>,
        after: After,
    },
    Prints {
        bytes: Vec<u8>,
        text: String,
    },
    Check {
        plan: Plan,
        number: u8,
        value: usize,
    },
    Lift {
        plan: Plan,
        before: LiftedTables,
        number: u8,
        value: usize,
        after: LiftedTables,
    },
    Pieces {
        plan: Plan,
        dart: usize,
        axis: u8,
        before: Vec<i32>,
        number: u8,
        pairs: usize,
        after: Vec<i32>,
    },
    Row {
        plan_links: Vec<u16>,
        lifted_links: Vec<u16>,
        side: u8,
        dart: usize,
        part: Vec<u16>,
    },
    Looseness {
        links: Vec<u16>,
        dimension: u8,
        dart: usize,
        number: u8,
        bits: u8,
        ones: u32,
    },
}

impl Case {
    /// A run with the answer of the run on paper.
    pub fn run(bytes: Vec<u8>, plan: usize, lifted: usize, reply_length: usize) -> Case {
        let ended = run(&bytes, plan, lifted, reply_length);
        Case::Run {
            bytes,
            plan_capacity: plan,
            lifted_capacity: lifted,
            reply_length,
            ended,
        }
    }

    /// A run on tables with all that is fixed after it.
    pub fn tables(bytes: Vec<u8>, lengths: Lengths, before: Vec<u8>) -> Case {
        let after = run_on_tables(&bytes, lengths, &before);
        Case::Tables {
            bytes,
            lengths,
            before,
            after,
        }
    }

    /// An input of the program with what it prints.
    pub fn prints(bytes: Vec<u8>) -> Case {
        let text = printed(&bytes);
        Case::Prints { bytes, text }
    }

    /// A check call with its answer.
    pub fn check(plan: Plan) -> Case {
        let calls::Answer { number, value } = calls::check(&plan.raw());
        Case::Check {
            plan,
            number,
            value,
        }
    }

    /// A lift call with its answer and the lifted tables after it.
    pub fn lift(plan: Plan, before: LiftedTables) -> Case {
        let mut after = before.clone();
        let calls::Answer { number, value } = calls::lift(&plan.raw(), after.lent());
        Case::Lift {
            plan,
            before,
            number,
            value,
            after,
        }
    }

    /// A pieces call with its answer and the memory after it.
    pub fn pieces(plan: Plan, dart: usize, axis: u8, before: Vec<i32>) -> Case {
        let mut after = before.clone();
        let (number, pairs) = calls::pieces(&plan.raw(), dart, axis, &mut after);
        Case::Pieces {
            plan,
            dart,
            axis,
            before,
            number,
            pairs,
            after,
        }
    }

    /// A row call with the part it gives.
    pub fn row(plan_links: Vec<u16>, lifted_links: Vec<u16>, side: u8, dart: usize) -> Case {
        let part = calls::row(&plan_links, &lifted_links, side, dart).to_vec();
        Case::Row {
            plan_links,
            lifted_links,
            side,
            dart,
            part,
        }
    }

    /// A looseness call with its answer.
    pub fn looseness(links: Vec<u16>, dimension: u8, dart: usize) -> Case {
        let calls::Loose { number, bits, ones } = calls::looseness(&links, dimension, dart);
        Case::Looseness {
            links,
            dimension,
            dart,
            number,
            bits,
            ones,
        }
    }

    /// The same question asked of this reference again.
    pub fn again(&self) -> Case {
        match self.clone() {
            Case::Run {
                bytes,
                plan_capacity,
                lifted_capacity,
                reply_length,
                ..
            } => Case::run(bytes, plan_capacity, lifted_capacity, reply_length),
            Case::Tables {
                bytes,
                lengths,
                before,
                ..
            } => Case::tables(bytes, lengths, before),
            Case::Prints { bytes, .. } => Case::prints(bytes),
            other => other.call_again(),
        }
    }

    /// The same for the table calls.
    fn call_again(self) -> Case {
        match self {
            Case::Check { plan, .. } => Case::check(plan),
            Case::Lift { plan, before, .. } => Case::lift(plan, before),
            Case::Pieces {
                plan,
                dart,
                axis,
                before,
                ..
            } => Case::pieces(plan, dart, axis, before),
            Case::Row {
                plan_links,
                lifted_links,
                side,
                dart,
                ..
            } => Case::row(plan_links, lifted_links, side, dart),
            Case::Looseness {
                links,
                dimension,
                dart,
                ..
            } => Case::looseness(links, dimension, dart),
            other => other,
        }
    }
}

/// The line of a case, without a newline.
pub fn write(case: &Case) -> String {
    match case {
        Case::Run { .. } | Case::Tables { .. } | Case::Prints { .. } => write_run(case),
        _ => write_call(case),
    }
}

/// The line of a run, a run on tables or a print.
fn write_run(case: &Case) -> String {
    match case {
        Case::Run {
            bytes,
            plan_capacity,
            lifted_capacity,
            reply_length,
            ended,
        } => Line::new("run")
            .hex("bytes", bytes)
            .put("plan_capacity", plan_capacity)
            .put("lifted_capacity", lifted_capacity)
            .put("reply_length", reply_length)
            .put("number", ended.number)
            .put("taken", ended.taken)
            .put("accepted", ended.accepted)
            .put("refused", ended.refused)
            .replies("replies", &ended.replies)
            .map("plan", &ended.plan)
            .map("lifted", &ended.lifted.map)
            .list("lifted.objects", &ended.lifted.objects)
            .done(),
        Case::Tables {
            bytes,
            lengths,
            before,
            after,
        } => write_tables(bytes, lengths, before, after),
        Case::Prints { bytes, text } => Line::new("prints")
            .hex("bytes", bytes)
            .hex("text", text.as_bytes())
            .done(),
        other => write_call(other),
    }
}

/// The line of a run on tables.
fn write_tables(bytes: &[u8], lengths: &Lengths, before: &[u8], after: &After) -> String {
    Line::new("tables")
        .hex("bytes", bytes)
        .list("lengths", &eight(lengths))
        .hex("reply.before", before)
        .list("plan.links", &after.plan_links)
        .list("plan.places", &after.plan_places)
        .list("plan.spans", &after.plan_spans)
        .list("lifted.links", &after.lifted_links)
        .list("lifted.places", &after.lifted_places)
        .list("lifted.objects", &after.lifted_objects)
        .hex("reply.after", &after.reply)
        .put("number", after.number)
        .put("taken", after.taken)
        .put("accepted", after.accepted)
        .put("refused", after.refused)
        .done()
}

/// The eight lengths in the order of the text.
fn eight(lengths: &Lengths) -> [usize; 8] {
    [
        lengths.plan_links,
        lengths.plan_places,
        lengths.plan_spans,
        lengths.plan_work,
        lengths.lifted_links,
        lengths.lifted_places,
        lengths.lifted_objects,
        lengths.lifted_work,
    ]
}

/// Starts the line of a call on raw plan tables.
fn plan_line(kind: &str, plan: &Plan) -> Line {
    Line::new(kind)
        .list("links", &plan.links)
        .list("places", &plan.places)
        .list("spans", &plan.spans)
        .put("work", plan.work)
        .put("dimension", plan.dimension)
        .put("count", plan.count)
}

/// The line of a table call.
fn write_call(case: &Case) -> String {
    match case {
        Case::Check {
            plan,
            number,
            value,
        } => plan_line("check", plan)
            .put("number", number)
            .put("value", value)
            .done(),
        Case::Lift { .. } => write_lift(case),
        Case::Pieces {
            plan,
            dart,
            axis,
            before,
            number,
            pairs,
            after,
        } => plan_line("pieces", plan)
            .put("dart", dart)
            .put("axis", axis)
            .list("memory.before", before)
            .put("number", number)
            .put("pairs", pairs)
            .list("memory.after", after)
            .done(),
        other => write_small_call(other),
    }
}

/// The line of a lift call; nothing for another kind.
fn write_lift(case: &Case) -> String {
    let Case::Lift {
        plan,
        before,
        number,
        value,
        after,
    } = case
    else {
        return String::new();
    };
    plan_line("lift", plan)
        .list("lifted.links.before", &before.links)
        .list("lifted.places.before", &before.places)
        .list("lifted.objects.before", &before.objects)
        .put("lifted.work", before.work)
        .put("number", number)
        .put("value", value)
        .list("lifted.links.after", &after.links)
        .list("lifted.places.after", &after.places)
        .list("lifted.objects.after", &after.objects)
        .done()
}

/// The line of a row or looseness call; nothing for another kind.
fn write_small_call(case: &Case) -> String {
    match case {
        Case::Row {
            plan_links,
            lifted_links,
            side,
            dart,
            part,
        } => Line::new("row")
            .list("plan.links", plan_links)
            .list("lifted.links", lifted_links)
            .put("side", side)
            .put("dart", dart)
            .list("part", part)
            .done(),
        Case::Looseness {
            links,
            dimension,
            dart,
            number,
            bits,
            ones,
        } => Line::new("looseness")
            .list("links", links)
            .put("dimension", dimension)
            .put("dart", dart)
            .put("number", number)
            .put("bits", bits)
            .put("ones", ones)
            .done(),
        _ => String::new(),
    }
}

/// All cases of a text; comments and blank lines are skipped, and an error
/// names its line.
pub fn parse_all(text: &str) -> Result<Vec<Case>, String> {
    let mut cases = Vec::new();
    for (at, line) in text.lines().enumerate() {
        if line.trim().is_empty() || line.starts_with('#') {
            continue;
        }
        cases.push(parse(line).map_err(|wrong| format!("line {}: {wrong}", at + 1))?);
    }
    Ok(cases)
}

/// The case of one line, with the answer that stands there.
pub fn parse(line: &str) -> Result<Case, String> {
    let mut words = Words::split(line)?;
    let case = match words.kind {
        "run" => parse_run(&mut words)?,
        "tables" => parse_tables(&mut words)?,
        "prints" => parse_prints(&mut words)?,
        "check" => parse_check(&mut words)?,
        "lift" => parse_lift(&mut words)?,
        "pieces" => parse_pieces(&mut words)?,
        "row" => parse_row(&mut words)?,
        "looseness" => parse_looseness(&mut words)?,
        other => return Err(format!("there is no kind '{other}'")),
    };
    words.done()?;
    Ok(case)
}

/// Reads a run.
fn parse_run(words: &mut Words) -> Result<Case, String> {
    Ok(Case::Run {
        bytes: words.hex("bytes")?,
        plan_capacity: words.number("plan_capacity")?,
        lifted_capacity: words.number("lifted_capacity")?,
        reply_length: words.number("reply_length")?,
        ended: Ended {
            number: words.number("number")?,
            taken: words.number("taken")?,
            accepted: words.number("accepted")?,
            refused: words.number("refused")?,
            replies: words.replies("replies")?,
            plan: words.map("plan")?,
            lifted: Lifted {
                map: words.map("lifted")?,
                objects: words.list("lifted.objects")?,
            },
        },
    })
}

/// Reads the eight lengths of the lent tables.
fn parse_lengths(words: &mut Words) -> Result<Lengths, String> {
    let lengths: Vec<usize> = words.list("lengths")?;
    let &[
        plan_links,
        plan_places,
        plan_spans,
        plan_work,
        lifted_links,
        lifted_places,
        lifted_objects,
        lifted_work,
    ] = lengths.as_slice()
    else {
        return Err(format!("'lengths' has {} numbers, not 8", lengths.len()));
    };
    Ok(Lengths {
        plan_links,
        plan_places,
        plan_spans,
        plan_work,
        lifted_links,
        lifted_places,
        lifted_objects,
        lifted_work,
    })
}

/// Reads a run on tables.
fn parse_tables(words: &mut Words) -> Result<Case, String> {
    Ok(Case::Tables {
        lengths: parse_lengths(words)?,
        bytes: words.hex("bytes")?,
        before: words.hex("reply.before")?,
        after: After {
            plan_links: words.list("plan.links")?,
            plan_places: words.list("plan.places")?,
            plan_spans: words.list("plan.spans")?,
            lifted_links: words.list("lifted.links")?,
            lifted_places: words.list("lifted.places")?,
            lifted_objects: words.list("lifted.objects")?,
            reply: words.hex("reply.after")?,
            number: words.number("number")?,
            taken: words.number("taken")?,
            accepted: words.number("accepted")?,
            refused: words.number("refused")?,
        },
    })
}

/// Reads a print.
fn parse_prints(words: &mut Words) -> Result<Case, String> {
    let text = String::from_utf8(words.hex("text")?);
    Ok(Case::Prints {
        bytes: words.hex("bytes")?,
        text: text.map_err(|_| "'text' is no text".to_string())?,
    })
}

/// Reads raw plan tables.
fn parse_plan(words: &mut Words) -> Result<Plan, String> {
    Ok(Plan {
        links: words.list("links")?,
        places: words.list("places")?,
        spans: words.list("spans")?,
        work: words.number("work")?,
        dimension: words.number("dimension")?,
        count: words.number("count")?,
    })
}

/// Reads a check call.
fn parse_check(words: &mut Words) -> Result<Case, String> {
    Ok(Case::Check {
        plan: parse_plan(words)?,
        number: words.number("number")?,
        value: words.number("value")?,
    })
}

/// Reads a lift call.
fn parse_lift(words: &mut Words) -> Result<Case, String> {
    let work = words.number("lifted.work")?;
    let mut lifted = |when: &str| -> Result<LiftedTables, String> {
        Ok(LiftedTables {
            links: words.list(&format!("lifted.links.{when}"))?,
            places: words.list(&format!("lifted.places.{when}"))?,
            objects: words.list(&format!("lifted.objects.{when}"))?,
            work,
        })
    };
    let (before, after) = (lifted("before")?, lifted("after")?);
    Ok(Case::Lift {
        plan: parse_plan(words)?,
        before,
        number: words.number("number")?,
        value: words.number("value")?,
        after,
    })
}

/// Reads a pieces call.
fn parse_pieces(words: &mut Words) -> Result<Case, String> {
    Ok(Case::Pieces {
        plan: parse_plan(words)?,
        dart: words.number("dart")?,
        axis: words.number("axis")?,
        before: words.list("memory.before")?,
        number: words.number("number")?,
        pairs: words.number("pairs")?,
        after: words.list("memory.after")?,
    })
}

/// Reads a row call.
fn parse_row(words: &mut Words) -> Result<Case, String> {
    Ok(Case::Row {
        plan_links: words.list("plan.links")?,
        lifted_links: words.list("lifted.links")?,
        side: words.number("side")?,
        dart: words.number("dart")?,
        part: words.list("part")?,
    })
}

/// Reads a looseness call.
fn parse_looseness(words: &mut Words) -> Result<Case, String> {
    Ok(Case::Looseness {
        links: words.list("links")?,
        dimension: words.number("dimension")?,
        dart: words.number("dart")?,
        number: words.number("number")?,
        bits: words.number("bits")?,
        ones: words.number("ones")?,
    })
}
