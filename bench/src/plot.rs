//! The ratios as horizontal bars on a logarithmic scale, as plain SVG.
use crate::Row;
use std::fmt::Write as _;

const LEFT: f64 = 360.0;
const DECADE: f64 = 90.0;
const LOW: f64 = -3.0;
const HIGH: f64 = 3.0;
const STEP: f64 = 22.0;

fn x(ratio: f64) -> f64 {
    LEFT + (ratio.log10().clamp(LOW, HIGH) - LOW) * DECADE
}

pub fn svg(rows: &[Row]) -> String {
    let rows: Vec<&Row> = rows.iter().filter(|r| r.ratio.is_finite()).collect();
    let bottom = 50.0 + STEP * rows.len() as f64;
    let width = x(10f64.powf(HIGH)) + 70.0;
    let mut out = format!(
        "<svg xmlns=\"http://www.w3.org/2000/svg\" width=\"{width}\" height=\"{}\" font-family=\"sans-serif\" font-size=\"12\">\n\
         <rect width=\"100%\" height=\"100%\" fill=\"white\"/>\n\
         <text x=\"10\" y=\"20\" font-size=\"14\">How many times as good as the other in the same run (1 is equal, right is better)</text>\n",
        bottom + 30.0
    );
    for k in LOW as i32..=HIGH as i32 {
        let at = x(10f64.powi(k));
        let ink = if k == 0 { "#000" } else { "#ddd" };
        let _ = writeln!(out, "<line x1=\"{at}\" y1=\"34\" x2=\"{at}\" y2=\"{bottom}\" stroke=\"{ink}\"/>");
        let _ = writeln!(out, "<text x=\"{at}\" y=\"{}\" text-anchor=\"middle\">{}</text>", bottom + 16.0, 10f64.powi(k));
    }
    for (k, r) in rows.iter().enumerate() {
        let y = 40.0 + STEP * k as f64;
        let (one, end) = (x(1.0), x(r.ratio));
        let ink = if r.ratio >= 1.0 { "#2a7" } else { "#c63" };
        let label = format!("{}: {} ({})", r.group, r.case, r.beside);
        let _ = writeln!(out, "<text x=\"{}\" y=\"{}\" text-anchor=\"end\">{label}</text>", LEFT - 8.0, y + 13.0);
        let _ = writeln!(out, "<rect x=\"{:.1}\" y=\"{y}\" width=\"{:.1}\" height=\"16\" fill=\"{ink}\"/>", one.min(end), (end - one).abs().max(1.0));
        let _ = writeln!(out, "<text x=\"{:.1}\" y=\"{}\">{:.2}</text>", one.max(end) + 4.0, y + 13.0, r.ratio);
    }
    out.push_str("</svg>\n");
    out
}
