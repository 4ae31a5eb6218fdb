//! The map of a frame as a drawing, with the tree beside it.

use crate::map::{Stretch, What};
use crate::text;
use crate::tree::Node;
use frame_rules::layout::{Kind, UNIT};
use std::fmt::Write;

/// A unit of the frame is a cell, and a row has so many.
const COLUMNS: usize = 64;
const CELL: usize = 8;
const ROW: usize = 10;
const ROW_BYTES: usize = COLUMNS * UNIT;

/// Rows that are labelled, at most.
const MOST_LABELS: usize = 64;

const LINE: usize = 16;
const MARGIN: usize = 16;
const MAP_X: usize = MARGIN + 56;
const TREE_X: usize = MAP_X + COLUMNS * CELL + 40;
const STEP: usize = 14;
const TREE_WIDTH: usize = 640;
const LEGEND_COLUMNS: usize = 4;
const LEGEND_STEP: usize = 290;

const STYLE: &str = "\
text { font: 11px monospace; fill: #222 } .at { fill: #777; text-anchor: end } .by { fill: #a3460b } .key { fill: #1a5e9a }
path { fill: none; stroke: #bbb } rect { stroke: #fff; stroke-width: 0.5 }
.header { fill: #444 } .given { fill: #8d8d8d } .not-given { fill: #dadada } .kind1 { fill: #2e8b57 } .kind2 { fill: #7b52ab }
.kind4 { fill: #f0a33e } .kind5 { fill: #e0762f } .kind6 { fill: #c94a2a } .kind7 { fill: #9b2335 } .kind8 { fill: #222 }
.extent { fill: #74a9cf } .freed { fill: #d9c9a3 } .dead { fill: #f2b8c6 } .free { fill: #f4f4f4 }
";

/// A text that is being written; a string takes all that is written to it.
struct Drawing(String);

impl Drawing {
    fn add(&mut self, part: std::fmt::Arguments) {
        self.0.write_fmt(part).expect("a string takes it");
    }
}

pub fn drawing(heading: &str, frame_bytes: usize, stretches: &[Stretch], nodes: &[Node]) -> String {
    let used: Vec<What> = What::all()
        .into_iter()
        .filter(|what| stretches.iter().any(|stretch| stretch.what == *what))
        .collect();
    let top = MARGIN + LINE * (2 + used.len().div_ceil(LEGEND_COLUMNS)) + LINE;
    let map_height = frame_bytes.div_ceil(ROW_BYTES) * ROW;
    let height = top + map_height.max(nodes.len() * LINE) + MARGIN;
    let width = TREE_X + TREE_WIDTH;
    let mut svg = Drawing(String::new());
    svg.add(format_args!(
        "<svg xmlns=\"http://www.w3.org/2000/svg\" width=\"{width}\" height=\"{height}\" viewBox=\"0 0 {width} {height}\">\n"
    ));
    svg.add(format_args!("<style>\n{STYLE}</style>\n"));
    svg.add(format_args!("<rect width=\"{width}\" height=\"{height}\" fill=\"#fff\"/>\n"));
    let heading_y = MARGIN + LINE;
    svg.add(format_args!("<text x=\"{MARGIN}\" y=\"{heading_y}\">{}</text>\n", escaped(heading)));
    legend(&mut svg, &used);
    map(&mut svg, top, frame_bytes, stretches);
    tree(&mut svg, top, nodes);
    svg.add(format_args!("</svg>\n"));
    svg.0
}

fn legend(svg: &mut Drawing, used: &[What]) {
    for (at, what) in used.iter().enumerate() {
        let x = MARGIN + at % LEGEND_COLUMNS * LEGEND_STEP;
        let y = MARGIN + LINE * (2 + at / LEGEND_COLUMNS);
        let (class, text_x, text_y) = (class(*what), x + CELL + 6, y + 9);
        svg.add(format_args!(
            "<rect class=\"{class}\" x=\"{x}\" y=\"{y}\" width=\"{CELL}\" height=\"{ROW}\"/>"
        ));
        svg.add(format_args!("<text x=\"{text_x}\" y=\"{text_y}\">{}</text>\n", what.name()));
    }
}

/// A stretch is drawn row by row, and says what it is.
fn map(svg: &mut Drawing, top: usize, frame_bytes: usize, stretches: &[Stretch]) {
    let every = frame_bytes.div_ceil(ROW_BYTES).div_ceil(MOST_LABELS).max(2);
    for row in (0..frame_bytes.div_ceil(ROW_BYTES)).step_by(every) {
        let (x, y) = (MAP_X - 6, top + row * ROW + 9);
        svg.add(format_args!(
            "<text class=\"at\" x=\"{x}\" y=\"{y}\">{}</text>\n",
            row * ROW_BYTES
        ));
    }
    for Stretch { what, bytes, slot } in stretches {
        let slot = slot.map(|slot| format!(", slot {slot}")).unwrap_or_default();
        let (name, last) = (what.name(), bytes.end - 1);
        svg.add(format_args!(
            "<g class=\"{}\"><title>{name}{slot}, bytes {} to {last}</title>",
            class(*what),
            bytes.start
        ));
        let mut at = bytes.start;
        while at < bytes.end {
            let end = bytes.end.min((at / ROW_BYTES + 1) * ROW_BYTES);
            let x = MAP_X + at % ROW_BYTES * CELL / UNIT;
            let y = top + at / ROW_BYTES * ROW;
            let width = (end - at) * CELL / UNIT;
            svg.add(format_args!("<rect x=\"{x}\" y=\"{y}\" width=\"{width}\" height=\"{ROW}\"/>"));
            at = end;
        }
        svg.add(format_args!("</g>\n"));
    }
}

/// A line for each slot, joined to the line of the slot above it.
fn tree(svg: &mut Drawing, top: usize, nodes: &[Node]) {
    // The line of the last slot seen at each depth.
    let mut lines: Vec<usize> = Vec::new();
    for (line, node) in nodes.iter().enumerate() {
        lines.truncate(node.depth);
        let (x, y) = (TREE_X + node.depth * STEP, top + line * LINE + 9);
        if let Some(above) = lines.last() {
            let (from_x, from_y, to_y) = (x - STEP + 4, top + above * LINE + 13, y - 4);
            svg.add(format_args!("<path d=\"M{from_x} {from_y}V{to_y}H{}\"/>", x - 2));
        }
        lines.push(line);
        svg.add(format_args!("<text x=\"{x}\" y=\"{y}\">"));
        if !node.by.is_empty() {
            svg.add(format_args!(
                "<tspan class=\"by\">{}</tspan> ",
                escaped(&text::shown(&node.by, b""))
            ));
        }
        svg.add(format_args!("{:?} {}", node.kind, node.slot));
        if node.kind == Kind::Leaf {
            svg.add(format_args!(
                " <tspan class=\"key\">{}</tspan>",
                escaped(&text::shown(&node.key, b""))
            ));
        }
        svg.add(format_args!("</text>\n"));
    }
}

fn class(what: What) -> String {
    match what {
        What::Header => "header".into(),
        What::Given => "given".into(),
        What::NotGiven => "not-given".into(),
        What::Body(kind) => format!("kind{}", kind.number()),
        What::Freed(_) => "freed".into(),
        What::Extent => "extent".into(),
        What::Dead => "dead".into(),
        What::Free => "free".into(),
    }
}

fn escaped(text: &str) -> String {
    text.replace('&', "&amp;").replace('<', "&lt;").replace('>', "&gt;")
}
