//! The pairing that SEW needs, looked for as document 01 tells it.

use laremban::Map;

/// A dart that would need two partners.
#[derive(Clone, Copy, Debug, PartialEq, Eq)]
pub(crate) struct Clash {
    pub dart: usize,
    pub partners: [usize; 2],
}

/// The axes at distance 2 or more from an axis: partners are found along them.
pub(crate) fn far_axes(map: &Map, axis: usize) -> Vec<usize> {
    let axes = 0..=map.dimension();
    axes.filter(|&other| other.abs_diff(axis) >= 2).collect()
}

/// The pairs that sewing a to b makes, found by walking from both in step along
/// these axes; or the first dart at which they can't be paired. The darts that
/// a reaches are none that b reaches.
pub(crate) fn pairs(
    map: &Map,
    a: usize,
    b: usize,
    axes: &[usize],
) -> Result<Vec<[usize; 2]>, Clash> {
    let mut partner = vec![None; map.count()];
    let mut pairs = vec![[a, b]];
    (partner[a], partner[b]) = (Some(b), Some(a));
    let mut next = 0;
    while let Some(&[d, e]) = pairs.get(next) {
        next += 1;
        for &axis in axes {
            let (d, e) = (map.link(d, axis), map.link(e, axis));
            match (partner[d], partner[e]) {
                (None, None) => {
                    (partner[d], partner[e]) = (Some(e), Some(d));
                    pairs.push([d, e]);
                }
                (Some(other), _) if other != e => return Err(clash(d, other, e)),
                (_, Some(other)) if other != d => return Err(clash(e, other, d)),
                _ => {}
            }
        }
    }
    Ok(pairs)
}

fn clash(dart: usize, one: usize, other: usize) -> Clash {
    let partners = [one, other];
    Clash { dart, partners }
}
