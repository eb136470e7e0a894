//! Lists and their join as a picture: a lane for each list, the line beneath them, and the join
//! beneath the line. Every value is written into its band, and every instant at which something
//! changes onto the line.

mod lane;
mod panel;
mod svg;

use crate::house::House;
use lane::{Band, Lane};
use panel::{Panel, Part, WIDTH};
use svg::{Anchor, Area, Svg};

const MARGIN: f64 = 16.0;
const HEADING: f64 = 64.0;
const LANE: f64 = 22.0;
const GAP: f64 = 4.0;
const BETWEEN_PANELS: f64 = 28.0;
const LONGEST_NAME: usize = 28;

const INK: &str = "#222222";
const GUIDE: &str = "#dddddd";
const RIM: &str = "#66788a";
const DISCOUNT: &str = "#b00020";
const LISTS: [&str; 8] =
    ["#cfe2f3", "#d9ead3", "#fff2cc", "#d9d2e9", "#fce5cd", "#d0e8e4", "#f3d9e6", "#e4e4d0"];
const JOIN: &str = "#1f3a5f";
const JOIN_INK: &str = "#ffffff";
const JOIN_DISCOUNT: &str = "#ffb4a8";

/// A lane with its height and colours.
struct Row<'a> {
    lane: &'a Lane,
    height: f64,
    fill: &'static str,
    ink: &'static str,
    discount: &'static str,
}

/// What all panels have alike.
struct Layout<'a> {
    lists: Vec<Row<'a>>,
    joins: Vec<Row<'a>>,
    left: f64,
    /// The height of the line's labels, and whether they are read upwards.
    line: f64,
    upright: bool,
}

/// The picture of a house and of its printed join.
pub fn drawn(house: &House, joined: &str) -> String {
    let (lists, joins) = (lane::of_lists(house), lane::of_join(house, joined));
    let lanes: Vec<&Lane> = lists.iter().chain(&joins).collect();
    let panels = panel::panels(&lanes);
    let layout = Layout::new(&lists, &joins, &panels);
    let mut svg = Svg::default();
    svg.title(MARGIN, 28.0, &house.join());
    svg.text((MARGIN, 46.0), Anchor::Start, INK, &summary(house, &joins));
    let mut y = HEADING;
    for panel in &panels {
        layout.draw(&mut svg, panel, y);
        y += layout.height() + BETWEEN_PANELS;
    }
    let right = panels.iter().map(|panel| layout.last_label(panel)).fold(0.0, f64::max);
    svg.whole(&house.join(), layout.left + WIDTH + right + MARGIN, y - BETWEEN_PANELS + MARGIN)
}

fn summary(house: &House, joins: &[Lane]) -> String {
    let pieces = joins.first().map_or(0, |lane| lane.bands.len());
    format!(
        "Lists: {}. Ranges: {}. Pieces: {pieces}. The line has the first instant of each stretch, \
         and is not to scale.",
        house.lists.len(),
        house.ranges()
    )
}

impl<'a> Layout<'a> {
    fn new(lists: &'a [Lane], joins: &'a [Lane], panels: &[Panel]) -> Self {
        let row = |lane: &'a Lane, fill, ink, discount| Row {
            lane,
            height: lane_height(lane, panels),
            fill,
            ink,
            discount,
        };
        let fills = LISTS.iter().cycle();
        let names = lists.iter().chain(joins).map(|lane| svg::width(&short(&lane.name)));
        let upright = !panels.iter().all(labels_fit);
        let labels = panels.iter().flat_map(labels).map(|label| svg::width(&label.0));
        Self {
            left: MARGIN + names.fold(0.0, f64::max) + 8.0,
            line: if upright { labels.fold(0.0, f64::max) + 12.0 } else { 22.0 },
            upright,
            lists: lists
                .iter()
                .zip(fills)
                .map(|(lane, fill)| row(lane, fill, INK, DISCOUNT))
                .collect(),
            joins: joins.iter().map(|lane| row(lane, JOIN, JOIN_INK, JOIN_DISCOUNT)).collect(),
        }
    }

    fn height(&self) -> f64 {
        let rows = self.lists.iter().chain(&self.joins);
        self.line + rows.map(|row| row.height + GAP).sum::<f64>()
    }

    /// How much room the label at the panel's end takes beyond it.
    fn last_label(&self, panel: &Panel) -> f64 {
        match labels(panel).last() {
            Some(label) if !self.upright => svg::width(&label.0) + 8.0,
            _ => 20.0,
        }
    }

    fn draw(&self, svg: &mut Svg, panel: &Panel, top: f64) {
        for edge in &panel.edges {
            let x = self.left + edge.1;
            svg.line((x, top), (x, top + self.height()), GUIDE);
        }
        let mut y = top;
        for row in &self.lists {
            self.draw_row(svg, panel, row, y);
            y += row.height + GAP;
        }
        self.draw_line(svg, panel, y);
        y += self.line;
        for row in &self.joins {
            self.draw_row(svg, panel, row, y);
            y += row.height + GAP;
        }
    }

    fn draw_row(&self, svg: &mut Svg, panel: &Panel, row: &Row<'_>, y: f64) {
        let middle = y + row.height / 2.0;
        svg.line((self.left, middle), (self.left + panel.width(), middle), GUIDE);
        svg.noted(&row.lane.name, |svg| {
            svg.text((self.left - 8.0, middle), Anchor::End, INK, &short(&row.lane.name));
        });
        for part in panel.parts(row.lane) {
            let Band { start, end, .. } = part.band;
            let note = format!("{}: {start} to {end}, {}", row.lane.name, part.band.label());
            let area = Area { x: self.left + part.x, y, width: part.width, height: row.height };
            svg.noted(&note, |svg| row.draw_band(svg, &part, area));
        }
    }

    fn draw_line(&self, svg: &mut Svg, panel: &Panel, y: f64) {
        svg.line((self.left, y + 2.0), (self.left + panel.width(), y + 2.0), INK);
        for (label, x) in labels(panel) {
            let x = self.left + x;
            if self.upright {
                svg.upright((x + 7.0, y + 7.0), Anchor::End, INK, &label);
            } else {
                svg.text((x + 3.0, y + 12.0), Anchor::Start, INK, &label);
            }
        }
    }
}

impl Row<'_> {
    fn draw_band(&self, svg: &mut Svg, part: &Part<'_>, area: Area) {
        let (fill, ink) = match part.band.value {
            None => ("#ffffff", self.fill),
            Some(value) if value < 0 => (self.fill, self.discount),
            Some(_) => (self.fill, self.ink),
        };
        svg.area(area, fill, RIM);
        let middle = (area.x + area.width / 2.0, area.y + area.height / 2.0);
        if fits(part) {
            svg.text(middle, Anchor::Middle, ink, &part.band.label());
        } else {
            svg.upright(middle, Anchor::Middle, ink, &part.band.label());
        }
    }
}

/// The value can be written along the band.
fn fits(part: &Part<'_>) -> bool {
    svg::width(&part.band.label()) + 4.0 <= part.width
}

/// A lane is as high as its highest value that is read upwards.
fn lane_height(lane: &Lane, panels: &[Panel]) -> f64 {
    let parts = panels.iter().flat_map(|panel| panel.parts(lane));
    let upright = parts.filter(|part| !fits(part));
    upright.map(|part| svg::width(&part.band.label()) + 6.0).fold(LANE, f64::max)
}

/// What stands on a panel's line, and where: the first instant of each stretch, and the last one.
fn labels(panel: &Panel) -> Vec<(String, f64)> {
    let mut labels: Vec<_> = panel.edges.iter().map(|(edge, x)| (edge.to_string(), *x)).collect();
    if let (Some(label), Some((edge, _))) = (labels.last_mut(), panel.edges.last()) {
        label.0 = format!("to {}", edge - 1);
    }
    labels
}

/// The labels can be written along the line.
fn labels_fit(panel: &Panel) -> bool {
    let labels = labels(panel);
    labels.windows(2).all(|pair| svg::width(&pair[0].0) + 8.0 <= pair[1].1 - pair[0].1)
}

/// A name that is not too long for the left side.
fn short(name: &str) -> String {
    if name.chars().count() <= LONGEST_NAME {
        return name.to_owned();
    }
    name.chars().take(LONGEST_NAME - 1).chain(['…']).collect()
}
