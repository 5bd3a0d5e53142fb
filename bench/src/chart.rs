//! The chart: a bar for each case and build, ours by the Rust. A thin line goes on to ours by the better, where the
//! target is of that. Light and dark are chosen by whoever shows it.
use crate::results::Results;
use crate::targets::{judged, shown, Judged};
use std::fmt::Write;

const WIDTH: f64 = 980.0;
const MARGIN: f64 = 24.0;
const LEFT: f64 = 310.0;
const RIGHT: f64 = 60.0;
const TOP: f64 = 112.0;
const ROW: f64 = 25.0;
const BAR: f64 = 8.0;
const THIN: f64 = 2.0;
const HEADING: f64 = 30.0;

/// Ratios above this are cut.
const MOST: f64 = 1.5;

const STYLE: &str = "\
svg{font:12px system-ui,-apple-system,'Segoe UI',Helvetica,Arial,sans-serif}\
.page{fill:#ffffff}.text{fill:#24292f}.soft{fill:#57606a}.title{font-size:17px;font-weight:600}.group{font-weight:600}\
.grid{stroke:#d8dee4}.one{stroke:#57606a;stroke-width:1.5}.mark{stroke:#24292f;stroke-width:2}\
.plain{fill:#2f6fbd}.host{fill:#86b4e4}.plain.over{fill:#c4622d}.host.over{fill:#eaa982}\
@media(prefers-color-scheme:dark){.page{fill:#0d1117}.text{fill:#e6edf3}.soft{fill:#9198a1}.grid{stroke:#2b3138}\
.one{stroke:#9198a1}.mark{stroke:#f0f6fc}.plain{fill:#4d93e6}.host{fill:#2c5b92}.plain.over{fill:#e07f45}\
.host.over{fill:#8d4d2a}}";

fn x(ratio: f64) -> f64 {
    LEFT + ratio.min(MOST) / MOST * (WIDTH - LEFT - RIGHT)
}

fn escaped(text: &str) -> String {
    text.replace('&', "&amp;").replace('<', "&lt;").replace('>', "&gt;")
}

fn text(svg: &mut String, class: &str, anchor: &str, (x, y): (f64, f64), words: &str) {
    let words = escaped(words);
    writeln!(svg, r#"<text class="{class}" text-anchor="{anchor}" x="{x:.1}" y="{y:.1}">{words}</text>"#).unwrap();
}

fn line(svg: &mut String, class: &str, x: f64, from: f64, to: f64) {
    writeln!(svg, r#"<line class="{class}" x1="{x:.1}" x2="{x:.1}" y1="{from:.1}" y2="{to:.1}"/>"#).unwrap();
}

fn rect(svg: &mut String, class: &str, (x, y): (f64, f64), width: f64, height: f64) {
    writeln!(svg, r#"<rect class="{class}" x="{x:.1}" y="{y:.1}" width="{width:.1}" height="{height:.1}" rx="1.5"/>"#)
        .unwrap();
}

fn group(case: &str) -> &'static str {
    if case.contains("bits") {
        "Bit vectors"
    } else if case.contains("state") {
        "Aggregate states"
    } else {
        "Sparse vectors"
    }
}

/// A bar with the mark of what is to be reached, and behind it the number that decides.
fn bar(svg: &mut String, kind: &str, case: &Judged, y: f64) {
    let class = format!("{kind}{}", if case.is_met() == Some(false) { " over" } else { "" });
    let (by_rust, ratio) = (x(case.by_rust.ratio.median), case.ratio());
    rect(svg, &class, (LEFT, y), by_rust - LEFT, BAR);
    if x(ratio) > by_rust {
        rect(svg, &class, (by_rust, y + (BAR - THIN) / 2.0), x(ratio) - by_rust, THIN);
    }
    let target = case.by_rust.target.map(|target| target.at_most);
    if let Some(target) = target {
        line(svg, "mark", x(target), y - 2.0, y + BAR + 2.0);
    }
    let cut = if ratio > MOST { "→ " } else { "" };
    let end = target.filter(|&target| ratio < target && target < ratio + 0.09).unwrap_or(ratio);
    writeln!(
        svg,
        r#"<text class="soft" font-size="9.5" x="{:.1}" y="{:.1}">{cut}{}</text>"#,
        x(end) + 5.0,
        y + BAR - 0.5,
        shown(ratio)
    )
    .unwrap();
}

/// One case: its name, and a bar for each build.
fn row(svg: &mut String, plain: &Judged, native: Option<&Judged>, y: f64) {
    text(svg, "text", "end", (LEFT - 10.0, y + 13.0), &plain.by_rust.case);
    let first = if native.is_some() { y } else { y + BAR / 2.0 };
    bar(svg, "plain", plain, first);
    if let Some(native) = native {
        bar(svg, "host", native, y + BAR + 1.0);
    }
}

fn legend(svg: &mut String, has_native: bool) {
    let y = 72.0;
    let mut at = MARGIN;
    let mut key = |svg: &mut String, classes: &[&str], words: &str, width: f64| {
        for (k, class) in classes.iter().enumerate() {
            rect(svg, class, (at + 14.0 * k as f64, y), 11.0, BAR);
        }
        at += 14.0 * classes.len() as f64 + 3.0;
        text(svg, "text", "start", (at, y + BAR), words);
        at += width;
    };
    key(svg, &["plain"], "built for any machine", 146.0);
    if has_native {
        key(svg, &["host"], "built for this processor", 158.0);
    }
    let over: &[&str] = if has_native { &["plain over", "host over"] } else { &["plain over"] };
    key(svg, over, "above the target", 114.0);
    key(svg, &[], "┃ target", 60.0);
    key(svg, &[], "━ by the better of the Rust and Eigen", 0.0);
}

fn axis(svg: &mut String, bottom: f64) {
    for k in 0..=(MOST * 4.0) as u32 {
        let ratio = k as f64 / 4.0;
        line(svg, if ratio == 1.0 { "one" } else { "grid" }, x(ratio), TOP - 4.0, bottom);
        text(svg, "soft", "middle", (x(ratio), TOP - 9.0), &format!("{ratio:.2}"));
        text(svg, "soft", "middle", (x(ratio), bottom + 15.0), &format!("{ratio:.2}"));
    }
    text(svg, "text", "middle", (x(1.0), bottom + 31.0), "as fast as the Rust");
}

pub fn chart(plain: &Results, native: Option<&Results>) -> String {
    let mut bars = String::new();
    let (mut y, mut last) = (TOP, "");
    for case in judged(plain) {
        let name = &case.by_rust.case;
        if group(name) != last {
            last = group(name);
            text(&mut bars, "text group", "end", (LEFT - 10.0, y + 16.0), last);
            y += HEADING;
        }
        let same = native.and_then(|native| judged(native).find(|other| other.by_rust.case == *name));
        row(&mut bars, &case, same.as_ref(), y);
        y += ROW;
    }
    let height = y + 46.0;
    let mut svg = String::new();
    writeln!(svg, r#"<svg xmlns="http://www.w3.org/2000/svg" viewBox="0 0 {WIDTH} {height}" role="img">"#).unwrap();
    let title = "Time of a call: ours by the Rust";
    writeln!(svg, "<title>{title}</title>\n<style>{STYLE}</style>").unwrap();
    writeln!(svg, r#"<rect class="page" width="{WIDTH}" height="{height}"/>"#).unwrap();
    text(&mut svg, "text title", "start", (MARGIN, 30.0), title);
    let machine = plain.machine.first().map_or("", String::as_str);
    let under = format!("Shorter is faster. Our checks are in it. {machine}.");
    text(&mut svg, "soft", "start", (MARGIN, 50.0), &under);
    legend(&mut svg, native.is_some());
    axis(&mut svg, y);
    svg + &bars + "</svg>\n"
}
