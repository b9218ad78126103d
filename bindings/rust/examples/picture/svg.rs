//! The picture as SVG, which its own animations (SMIL) move. Its units are the millimetres of the centres: x to the right, y down.

use crate::hall::Hall;
use crate::track::Track;
use dispatch::Place;
use std::collections::BTreeMap;
use std::ops::RangeInclusive;

/// How long a tick is shown, in seconds.
const TICK_SECONDS: f64 = 0.25;

/// The distance from a cell to the next one where the centres tell none.
const DISTANCE: f64 = 1_000.0;

/// The colours of tugs, by their numbers. White digits are readable on each.
const COLOURS: [&str; 8] = ["#1f5fa8", "#8a3fa0", "#0f766e", "#a04a00", "#3f4fb5", "#9d174d", "#3d6b21", "#475569"];

/// The picture of a hall and of what stands on its board: tugs by their tracks, closures with their cells and ticks.
pub fn picture(hall: &Hall, tracks: &[Track], closures: &BTreeMap<u8, (u16, RangeInclusive<u16>)>) -> String {
    let mut sheet = Sheet { hall, layout: Layout::of(&hall.centres), text: String::new() };
    sheet.begin();
    sheet.squares();
    for (closure, (cell, held)) in closures {
        sheet.closure(*closure, *cell, held);
    }
    sheet.numbers();
    for track in tracks {
        sheet.tug(track);
    }
    sheet.clock();
    sheet.put("</svg>");
    sheet.text
}

/// How long the whole shift is shown, in seconds: each of its ticks, 0 to H.
pub fn seconds(hall: &Hall) -> f64 {
    TICK_SECONDS * ticks(hall)
}

fn ticks(hall: &Hall) -> f64 {
    f64::from(hall.horizon) + 1.0
}

/// The size of the picture and of what is in it.
struct Layout {
    /// From a cell to the next one, as most cells have it.
    distance: f64,
    /// The side of each cell's square.
    sides: Vec<f64>,
    /// The height of the clock's digits.
    digits: f64,
    x: f64,
    y: f64,
    width: f64,
    height: f64,
}

impl Layout {
    fn of(centres: &[Place]) -> Layout {
        // Squares do not overlap if neither is wider than the larger of their distances in x and in y. Cells with one centre lie on each other.
        let apart = |a: &Place, b: &Place| f64::from((a.x - b.x).abs().max((a.y - b.y).abs()));
        let nearest = |a: &Place| centres.iter().map(|b| apart(a, b)).filter(|&apart| apart > 0.0).reduce(f64::min);
        let nearest: Vec<Option<f64>> = centres.iter().map(nearest).collect();
        let mut known: Vec<f64> = nearest.iter().copied().flatten().collect();
        known.sort_by(f64::total_cmp);
        let distance = known.get(known.len() / 2).copied().unwrap_or(DISTANCE);
        // A cell far from all others gets no larger square than most have.
        let sides = nearest.iter().map(|near| 0.9 * near.unwrap_or(distance).min(distance)).collect();

        let ends = |of: fn(&Place) -> f32| {
            let all = || centres.iter().map(|centre| f64::from(of(centre)));
            (all().fold(f64::MAX, f64::min), all().fold(0.0, f64::max))
        };
        let ((left, right), (top, bottom)) = (ends(|centre| centre.x), ends(|centre| centre.y));
        let border = 0.6 * distance;
        let digits = ((right - left).max(bottom - top) / 36.0).max(0.2 * distance);
        // The clock stands above the hall, and may be wider.
        let width = (right - left + 2.0 * border).max(11.0 * digits);
        let height = bottom - top + 2.0 * border + 1.7 * digits;
        Layout { distance, sides, digits, x: (left + right - width) / 2.0, y: top - border - 1.7 * digits, width, height }
    }
}

/// The text of the picture, as it grows.
struct Sheet<'a> {
    hall: &'a Hall,
    layout: Layout,
    text: String,
}

impl Sheet<'_> {
    fn put(&mut self, line: impl AsRef<str>) {
        self.text += line.as_ref();
        self.text += "\n";
    }

    /// The tag that the last line of the picture ends, the hatching, and a background, as the viewer's own may be dark.
    fn begin(&mut self) {
        let [x, y, width, height] = [self.layout.x, self.layout.y, self.layout.width, self.layout.height].map(length);
        self.put(format!(r#"<svg xmlns="http://www.w3.org/2000/svg" viewBox="{x} {y} {width} {height}" font-family="sans-serif">"#));
        self.put(format!("<title>A shift, ticks 0 to {}</title>", self.hall.horizon));
        self.put(format!("<desc>x to the right and y down, in millimetres. A tick is {TICK_SECONDS} seconds.</desc>"));
        let [period, stripe] = [0.14, 0.05].map(|part| length(part * self.layout.distance));
        self.put(format!(r#"<pattern id="hatch" patternUnits="userSpaceOnUse" width="{period}" height="{period}" patternTransform="rotate(45)">"#));
        self.put(format!(r##"<rect width="{period}" height="{period}" fill="#fdecea"/><rect width="{stripe}" height="{period}" fill="#d9534a"/>"##));
        self.put("</pattern>");
        self.put(format!(r##"<rect x="{x}" y="{y}" width="{width}" height="{height}" fill="#eef1f4"/>"##));
    }

    /// The square of each cell.
    fn squares(&mut self) {
        for cell in 0..self.hall.centres.len() {
            let square = self.square(cell);
            self.put(format!(r##"<rect id="cell-{cell}" {square} fill="#fff" stroke="#8b97a4"/>"##));
        }
    }

    fn square(&self, cell: usize) -> String {
        let (centre, side) = (self.hall.centres[cell], self.layout.sides[cell]);
        let [x, y] = [centre.x, centre.y].map(|middle| length(f64::from(middle) - side / 2.0));
        format!(r#"x="{x}" y="{y}" width="{0}" height="{0}" stroke-width="{1}""#, length(side), self.edge())
    }

    /// The width of all edges.
    fn edge(&self) -> String {
        length(0.02 * self.layout.distance)
    }

    /// A closure's number stands in the lower right corner.
    fn closure(&mut self, closure: u8, cell: u16, held: &RangeInclusive<u16>) {
        let at = usize::from(cell);
        let (centre, side, square) = (self.hall.centres[at], self.layout.sides[at], self.square(at));
        self.put(format!(r#"<g id="closure-{closure}" {}"#, self.shown(held)));
        self.put(format!("<title>closure {closure}: cell {cell}, ticks {} to {}</title>", held.start(), held.end()));
        self.put(format!(r##"<rect {square} fill="url(#hatch)" stroke="#d9534a"/>"##));
        let [x, y] = [centre.x, centre.y].map(|middle| length(f64::from(middle) + 0.44 * side));
        self.put(format!(r##"<text x="{x}" y="{y}" text-anchor="end" fill="#8f1d14" {}>{closure}</text>"##, on_hatching(side)));
        self.put("</g>");
    }

    /// The number of each cell, in the upper left corner, where tugs and closures leave it readable.
    fn numbers(&mut self) {
        for cell in 0..self.hall.centres.len() {
            let (centre, side) = (self.hall.centres[cell], self.layout.sides[cell]);
            let [x, y] = [f64::from(centre.x) - 0.45 * side, f64::from(centre.y) - 0.31 * side].map(length);
            self.put(format!(r##"<text x="{x}" y="{y}" fill="#37424e" {}>{cell}</text>"##, on_hatching(side)));
        }
    }

    /// A tug is a circle with its number.
    fn tug(&mut self, track: &Track) {
        let Track { tug, first, last, keys } = track;
        let colour = COLOURS[usize::from(*tug) % COLOURS.len()];
        self.put(format!(r#"<g id="tug-{tug}" transform="translate({})" {}"#, place(keys[0].place), self.shown(&(*first..=*last))));
        self.put(format!("<title>tug {tug}: ticks {first} to {last}</title>"));
        // A list goes through the whole shift. Before its first key and after its last the tug stays where it is, and is not shown.
        let before = (*first > 0).then_some((0.0, keys[0].place));
        let after = (ticks(self.hall), keys[keys.len() - 1].place);
        let all = || before.into_iter().chain(keys.iter().map(|key| (key.tick, key.place))).chain([after]);
        let values: Vec<String> = all().map(|(_, at)| place(at)).collect();
        let times: Vec<String> = all().map(|(tick, _)| self.time(tick)).collect();
        let (looped, values, times) = (self.looped(), values.join(";"), times.join(";"));
        self.put(format!(r#"<animateTransform attributeName="transform" type="translate" {looped} values="{values}" keyTimes="{times}"/>"#));
        let distance = self.layout.distance;
        let size = if *tug < 100 { 0.26 } else { 0.2 } * distance;
        self.put(format!(r##"<circle r="{}" fill="{colour}" stroke="#fff" stroke-width="{}"/>"##, length(0.27 * distance), self.edge()));
        let [size, below] = [size, 0.36 * size].map(length);
        self.put(format!(r##"<text y="{below}" font-size="{size}" font-weight="bold" fill="#fff" text-anchor="middle">{tug}</text>"##));
        self.put("</g>");
    }

    /// The clock is a column of lines behind a window as high as one of them.
    fn clock(&mut self) {
        let (digits, last) = (self.layout.digits, self.hall.horizon);
        let line = 1.4 * digits;
        let [x, y] = [self.layout.x + 0.5 * digits, self.layout.y + 0.2 * digits].map(length);
        self.put(format!(r#"<svg x="{x}" y="{y}" width="{}" height="{}">"#, length(10.5 * digits), length(line)));
        self.put(format!(r##"<g id="clock" font-size="{}" fill="#1b232c">"##, length(digits)));
        let values: Vec<String> = (0..=last).map(|tick| format!("0 {}", length(-line * f64::from(tick)))).collect();
        let (looped, values) = (self.looped(), values.join(";"));
        self.put(format!(r#"<animateTransform attributeName="transform" type="translate" calcMode="discrete" {looped} values="{values}"/>"#));
        for tick in 0..=last {
            self.put(format!(r#"<text y="{}">tick {tick} of {last}</text>"#, length(line * f64::from(tick) + digits)));
        }
        self.put("</g></svg>");
    }

    /// The end of a group's tag, and an animation that shows the group at these ticks alone. A tick is shown until the next one begins.
    fn shown(&self, held: &RangeInclusive<u16>) -> String {
        let (from, to) = (f64::from(*held.start()), f64::from(*held.end()) + 1.0);
        let changes = [(0.0, "hidden"), (from, "visible"), (to, "hidden")];
        // A list begins at 0, with what is so at tick 0, and needs no change at its end.
        let changes = if from == 0.0 { &changes[1..] } else { &changes };
        let changes = if to == ticks(self.hall) { &changes[..changes.len() - 1] } else { changes };
        let values: Vec<&str> = changes.iter().map(|change| change.1).collect();
        let times: Vec<String> = changes.iter().map(|change| self.time(change.0)).collect();
        format!(
            r#"visibility="{}"><animate attributeName="visibility" calcMode="discrete" {} values="{}" keyTimes="{}"/>"#,
            values[0],
            self.looped(),
            values.join(";"),
            times.join(";")
        )
    }

    /// All animations begin together and take the whole shift, so that they also begin again together.
    fn looped(&self) -> String {
        format!(r#"dur="{}s" repeatCount="indefinite""#, seconds(self.hall))
    }

    /// The part of the shift that is over at a tick. Seven digits tell the frames of the longest shift apart.
    fn time(&self, tick: f64) -> String {
        rounded(tick / ticks(self.hall), 7)
    }
}

/// How numbers are written on a cell: with a white edge, as it may be hatched.
fn on_hatching(side: f64) -> String {
    let [size, edge] = [0.2 * side, 0.05 * side].map(length);
    format!(r##"font-size="{size}" stroke="#fff" stroke-width="{edge}" paint-order="stroke""##)
}

fn place(place: Place) -> String {
    format!("{} {}", length(place.x.into()), length(place.y.into()))
}

/// Four digits are enough for sixteenths, so that places are written exactly.
fn length(number: f64) -> String {
    rounded(number, 4)
}

/// With so many digits behind the point, and no zeros at the end.
fn rounded(number: f64, digits: usize) -> String {
    let text = format!("{number:.digits$}");
    let text = text.trim_end_matches('0').trim_end_matches('.');
    String::from(if text == "-0" { "0" } else { text })
}
