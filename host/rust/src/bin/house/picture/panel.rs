//! The line in panels: where on the picture each instant stands.

use std::collections::BTreeSet;

use super::lane::{Band, Lane};

/// The width of a panel, and the least and greatest that a stretch has whatever its length.
pub const WIDTH: f64 = 1300.0;
const LEAST: f64 = 13.0;
const AMPLE: f64 = 84.0;

/// A part of the line. The edges are where a band begins or has ended, with their distance from the
/// panel's left; between two of them is a stretch, on which nothing changes.
#[derive(Debug)]
pub struct Panel {
    pub edges: Vec<(i128, f64)>,
}

/// The part of a band that a panel shows.
#[derive(Clone, Copy, Debug)]
pub struct Part<'a> {
    pub band: &'a Band,
    pub x: f64,
    pub width: f64,
}

/// The panels that show all lanes. One panel shows the line with wider stretches for longer ones;
/// where there are too many for that, several panels show stretches of one width.
pub fn panels(lanes: &[&Lane]) -> Vec<Panel> {
    let bands = lanes.iter().flat_map(|lane| &lane.bands);
    let edges: Vec<i128> =
        bands.flat_map(Band::edges).collect::<BTreeSet<_>>().into_iter().collect();
    let stretches = edges.len().saturating_sub(1).max(1);
    let most = (WIDTH / LEAST) as usize;
    if stretches <= most {
        return vec![proportioned(&edges, stretches)];
    }
    let panels = stretches.div_ceil(most);
    let each = stretches.div_ceil(panels);
    let starts = (0..stretches).step_by(each);
    starts.map(|first| even(&edges[first..=(first + each).min(stretches)], each)).collect()
}

/// Each stretch has a least width, and a share of what is left by its length.
fn proportioned(edges: &[i128], stretches: usize) -> Panel {
    let count = stretches as f64;
    let least = (WIDTH / 2.0 / count).clamp(LEAST, AMPLE);
    let (Some(first), Some(last)) = (edges.first(), edges.last()) else {
        return Panel { edges: Vec::new() };
    };
    let share = (WIDTH - least * count) / (last - first) as f64;
    let place = |(before, edge): (usize, &i128)| {
        (*edge, least * before as f64 + share * (edge - first) as f64)
    };
    Panel { edges: edges.iter().enumerate().map(place).collect() }
}

/// All stretches have the width of one of so many.
fn even(edges: &[i128], stretches: usize) -> Panel {
    let width = WIDTH / stretches as f64;
    let place = |(before, edge): (usize, &i128)| (*edge, width * before as f64);
    Panel { edges: edges.iter().enumerate().map(place).collect() }
}

impl Panel {
    pub fn width(&self) -> f64 {
        self.edges.last().map_or(WIDTH, |edge| edge.1)
    }

    /// What the panel shows of a lane.
    pub fn parts<'a>(&self, lane: &'a Lane) -> Vec<Part<'a>> {
        lane.bands.iter().filter_map(|band| self.part(band)).collect()
    }

    fn part<'a>(&self, band: &'a Band) -> Option<Part<'a>> {
        let (first, last) = (self.edges.first()?, self.edges.last()?);
        let [from, to] = band.edges();
        let (from, to) = (from.max(first.0), to.min(last.0));
        let x = self.x(from)?;
        (from < to).then_some(Part { band, x, width: self.x(to)? - x })
    }

    fn x(&self, edge: i128) -> Option<f64> {
        let at = self.edges.binary_search_by_key(&edge, |edge| edge.0).ok()?;
        Some(self.edges[at].1)
    }
}
