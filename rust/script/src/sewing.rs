//! Why SEW was refused, from the plan before it.

use crate::history::Maps;
use crate::pairing::{far_axes, pairs};
use crate::prose::{axes, many, owned_spans, place, spans};
use laremban::Span;

/// 14: who is linked already, and to whom.
pub(crate) fn linked(maps: &Maps, a: usize, b: usize, axis: usize) -> String {
    let plan = maps.plan();
    let to = |dart| plan.link(dart, axis);
    match (plan.is_free(a, axis), plan.is_free(b, axis)) {
        (false, false) if a != b => format!(
            "dart {a} is linked to dart {}, and dart {b} to dart {}, along axis {axis} already",
            to(a),
            to(b)
        ),
        (a_free, _) => {
            let dart = if a_free { b } else { a };
            let other = to(dart);
            format!("dart {dart} is linked to dart {other} along axis {axis} already")
        }
    }
}

/// 15: why a and b can't be paired.
pub(crate) fn no_pairing(maps: &Maps, a: usize, b: usize, axis: usize) -> Option<String> {
    if a == b {
        return Some(format!("no pairing: dart {a} cannot be sewn to itself"));
    }
    let plan = maps.plan();
    let far = far_axes(&plan, axis);
    let along = axes(&far);
    let (of_a, of_b) = (plan.orbit(a, &far), plan.orbit(b, &far));
    if of_a.contains(&b) {
        return Some(format!(
            "no pairing: dart {a} reaches dart {b} along {along}, so that both would need the same partners"
        ));
    }
    let clash = pairs(&plan, a, b, &far).err()?;
    let ([one, other], dart) = (clash.partners, clash.dart);
    let twice = format!("dart {dart} would need two partners, {one} and {other}");
    if of_a.len() == of_b.len() {
        return Some(format!("no pairing: along {along} {twice}"));
    }
    let (of_a, of_b) = (many(of_a.len(), "dart"), of_b.len());
    Some(format!(
        "no pairing: dart {a} reaches {of_a} along {along} and dart {b} reaches {of_b}: {twice}"
    ))
}

/// 16: the first pair that disagrees, and in what.
pub(crate) fn disagreement(maps: &Maps, a: usize, b: usize, axis: usize) -> Option<String> {
    let plan = maps.plan();
    let pairs = pairs(&plan, a, b, &far_axes(&plan, axis)).ok()?;
    pairs.into_iter().find_map(|[d, e]| {
        let (here, there) = (plan.place(d), plan.place(e));
        if axis >= 1 && here != there {
            let (here, there) = (place(here), place(there));
            return Some(format!(
                "places disagree: dart {d} is at {here}, its partner dart {e} at {there}"
            ));
        }
        let (own, other) = (plan.row(d), plan.row(e));
        let differ = axis < plan.dimension() && own != other;
        differ.then(|| {
            let (what, own, other) = difference(&own, &other);
            format!("{what} disagree: dart {d} has {own}, its partner dart {e} has {other}")
        })
    })
}

/// In what two rows differ, and both of them. Where they have the same ends, all
/// objects are told: one of them may be 0.
fn difference(own: &[Span], other: &[Span]) -> (&'static str, String, String) {
    let ends = |row: &[Span]| row.iter().map(|span| (span.lo, span.hi)).collect();
    let (of_own, of_other): (Vec<_>, Vec<_>) = (ends(own), ends(other));
    match of_own == of_other {
        true => ("objects", owned_spans(own), owned_spans(other)),
        false => ("spans", row(own), row(other)),
    }
}

/// A row of spans, or that there are none.
fn row(row: &[Span]) -> String {
    match row {
        [] => "none".to_string(),
        some => spans(some),
    }
}
