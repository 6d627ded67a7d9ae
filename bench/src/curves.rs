//! How the times of some calls grow with the length, as a table and as a picture.
use std::fmt::Write;

/// The calls, and their colours in the picture.
pub const CALLS: [(&str, &str); 5] = [
    ("push", "#c0392b"),
    ("clone", "#2471a3"),
    ("iter", "#1e8449"),
    ("sort", "#7d3c98"),
    ("insert_remove", "#b9770e"),
];

pub const LENGTHS: [usize; 7] = [10, 100, 1000, 10_000, 100_000, 1_000_000, 10_000_000];

/// The nanoseconds of one round at each length: of this, of the original and of `Rc<Vec<T>>`.
pub type Curve = Vec<[f64; 3]>;

const DASHES: [&str; 3] = ["", "6 3", "1 3"];

/// Where a point lies: a power of ten of elements takes 100 units, one of nanoseconds 50.
fn at(place: usize, nanoseconds: f64) -> (f64, f64) {
    (60.0 + 100.0 * place as f64, 540.0 - 50.0 * nanoseconds.max(1.0).log10())
}

/// Both axes are logarithmic. This is drawn in full, the original in dashes, and `Rc<Vec<T>>` in dots.
pub fn picture(curves: &[Curve]) -> String {
    let mut picture = String::from(
        "<svg xmlns=\"http://www.w3.org/2000/svg\" viewBox=\"0 0 860 580\" font-family=\"sans-serif\" font-size=\"12\">\n\
         <rect width=\"860\" height=\"580\" fill=\"white\"/>\n",
    );
    let mut line = |text: String| writeln!(picture, "{text}").unwrap();
    for power in 0..10 {
        let y = at(0, 10f64.powi(power)).1;
        line(format!("<path d=\"M60 {y}H660\" stroke=\"#ddd\"/><text x=\"52\" y=\"{y}\" text-anchor=\"end\">1e{power} ns</text>"));
    }
    for (place, length) in LENGTHS.iter().enumerate() {
        let x = at(place, 1.0).0;
        line(format!("<path d=\"M{x} 40V540\" stroke=\"#ddd\"/><text x=\"{x}\" y=\"560\" text-anchor=\"middle\">{length}</text>"));
    }
    for (number, ((call, colour), curve)) in CALLS.iter().zip(curves).enumerate() {
        for (which, dashes) in DASHES.iter().enumerate() {
            let points = curve.iter().enumerate().map(|(place, times)| at(place, times[which]));
            let points: Vec<String> = points.map(|(x, y)| format!("{x},{y:.1}")).collect();
            let points = points.join(" ");
            line(format!("<polyline points=\"{points}\" fill=\"none\" stroke=\"{colour}\" stroke-dasharray=\"{dashes}\"/>"));
        }
        line(format!("<text x=\"680\" y=\"{}\" fill=\"{colour}\">{call}</text>", 60 + 20 * number));
    }
    for (number, (which, dashes)) in ["this", "the original", "Rc&lt;Vec&gt;"].iter().zip(DASHES).enumerate() {
        let y = 200 + 20 * number;
        line(format!("<path d=\"M680 {y}H720\" stroke=\"black\" stroke-dasharray=\"{dashes}\"/><text x=\"730\" y=\"{y}\">{which}</text>"));
    }
    picture + "</svg>\n"
}
