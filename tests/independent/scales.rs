// The scales, written from documents 01 and 02 alone, by search over lists of classes: prints the lines that the program `examples` has to print.
// A check on the library's definitions and code by another hand and another method.

/// A scale that rounds down: the foot of each class and the figure that it is written as, by rising foot.
type Scale = Vec<(u32, String)>;

fn land() -> Scale {
    let mut s: Scale = vec![(0, "00".into())];
    for code in 1..=50 {
        s.push((code * 100, format!("{code:02}")));
    }
    for code in 56..=80 {
        s.push((6_000 + (code - 56) * 1_000, code.to_string()));
    }
    for code in 81..=88 {
        s.push((35_000 + (code - 81) * 5_000, code.to_string()));
    }
    s.push((70_001, "89".into()));
    s
}

fn listed(first: u32, width: usize, feet: &[u32]) -> Scale {
    feet.iter().enumerate().map(|(i, &foot)| (foot, format!("{:0width$}", first + i as u32))).collect()
}

fn sea() -> Scale {
    listed(90, 2, &[0, 50, 200, 500, 1_000, 2_000, 4_000, 10_000, 20_000, 50_000])
}

fn base() -> Scale {
    listed(0, 1, &[0, 50, 100, 200, 300, 600, 1_000, 1_500, 2_000, 2_500])
}

fn visibility() -> Scale {
    let mut s: Scale = vec![];
    let mut metres = 0;
    while metres <= 9_000 {
        s.push((metres, format!("{metres:04}")));
        metres += if metres < 800 { 50 } else if metres < 5_000 { 100 } else { 1_000 };
    }
    s.push((10_000, "9999".into()));
    s
}

fn runway() -> Scale {
    let mut s: Scale = vec![(0, "M0050".into())];
    let mut metres = 50;
    while metres <= 2_000 {
        s.push((metres, format!("{metres:04}")));
        metres += if metres < 400 { 25 } else if metres < 800 { 50 } else { 100 };
    }
    s.push((2_001, "P2000".into()));
    s
}

fn cloud() -> Scale {
    let mut s: Scale = (0..=100).map(|code| (code * 30, format!("{code:03}"))).collect();
    s.extend((11..=99).map(|tens| (tens * 300, format!("{}", tens * 10))));
    s.push((30_000, "999".into()));
    s
}

/// Table 1079, millimetres; 91 is reserved, and 99 says that the runway is closed.
fn depth() -> Scale {
    let mut s: Scale = (0..=90).map(|mm| (mm, format!("{mm:02}"))).collect();
    s.extend((92..=98).zip((100..=400).step_by(50)).map(|(code, mm)| (mm, code.to_string())));
    s
}

/// Table 1677 by steps; 51 to 55 are unused, and 89 is read 21,001.
fn layer_steps() -> Scale {
    let mut s: Scale = (0..=50).map(|code| (code * 30, format!("{code:02}"))).collect();
    s.extend((56..=80).zip((1_800..).step_by(300)).map(|(code, m)| (m, code.to_string())));
    s.extend((81..=88).zip((10_500..).step_by(1_500)).map(|(code, m)| (m, code.to_string())));
    s.push((21_001, "89".into()));
    s
}

/// Table 1677 by bands, with the feet of document 01's h scale.
fn layer_bands() -> Scale {
    base().into_iter().map(|(m, h)| (m, format!("9{h}"))).collect()
}

fn figure(s: &Scale, metres: u32) -> String {
    if metres > 99_999 {
        return "out of range".into();
    }
    s.iter().rev().find(|(foot, _)| *foot <= metres).unwrap().1.clone()
}

fn reading(s: &Scale, text: &str) -> String {
    s.iter().find(|(_, f)| f == text).map_or("unused".into(), |(foot, _)| foot.to_string())
}

fn tenths(t: i64) -> String {
    format!("{}{}.{}", if t < 0 { "-" } else { "" }, t.abs() / 10, t.abs() % 10)
}

fn line(left: String, right: String) {
    println!("{left} -> {right}");
}

fn values(s: &Scale, list: &[u32]) {
    for &v in list {
        line(v.to_string(), figure(s, v));
    }
}

fn figures(s: &Scale, width: usize, list: &[u32]) {
    for &f in list {
        let text = format!("{f:0width$}");
        let shown = reading(s, &text);
        line(text, shown);
    }
}

/// What the observer may have seen where a number is read: from the foot to the next one.
fn readings(s: &Scale, list: &[u32]) {
    for &m in list {
        let seen = match s.iter().position(|(foot, _)| *foot == m) {
            None => "nothing".into(),
            Some(i) => s.get(i + 1).map_or(format!("{m} or more"), |(next, _)| format!("{m} to {}", next - 1)),
        };
        line(m.to_string(), seen);
    }
}

/// Half-degrees go up: the whole degree whose tenths are nearest, the greater of two. M follows the value.
fn temperature(t: i64) {
    let answer = if !(-995..=994).contains(&t) {
        "out of range".into()
    } else {
        let whole = (-99..=99).min_by_key(|w| ((w * 10 - t).abs(), -w)).unwrap();
        format!("{}{:02}", if t < 0 { "M" } else { "" }, whole.abs())
    };
    line(tenths(t), answer);
}

fn degrees(minus: bool, whole: i64) {
    let text = format!("{}{:02}", if minus { "M" } else { "" }, whole);
    let reading = match (minus, whole) {
        (true, 0) => -3,
        (true, whole) => -whole * 10,
        (false, whole) => whole * 10,
    };
    line(text, tenths(reading));
}

fn signed(sign: i64, n: i64) {
    let answer = match (sign, n) {
        (0, n) => tenths(n),
        (1, n) if n > 0 => tenths(-n),
        _ => "unused".into(),
    };
    line(format!("{sign}{n:03}"), answer);
}

fn pressure() {
    for t in [0, 9, 10, 10129, 10130, 10139, 10140, 99989, 99990, 99999, 100000] {
        line(tenths(t), if t > 99_999 { "out of range".into() } else { format!("{:04}", t / 10) });
    }
    for f in [0, 1, 999, 1012, 1013, 1014, 9998, 9999] {
        line(format!("{f:04}"), tenths(f * 10));
    }
}

fn rain_value(t: i64) {
    let answer = match t {
        1..=9 => (990 + t).to_string(),
        10..=99_999 => format!("{:03}", (1..=989).min_by_key(|mm| ((mm * 10 - t).abs(), -mm)).unwrap()),
        _ => "out of range".into(),
    };
    line(tenths(t), answer);
}

fn rain() {
    line("trace".into(), "990".into());
    for t in [0, 1, 9, 10, 14, 15, 24, 25, 9874, 9875, 9884, 9885, 9890, 99999, 100000] {
        rain_value(t);
    }
    for f in [0, 1, 2, 987, 988, 989, 990, 991, 998, 999] {
        let answer = match f {
            1..=989 => tenths(f * 10),
            990 => "trace".into(),
            991..=999 => tenths(f - 990),
            _ => "unused".into(),
        };
        line(format!("{f:03}"), answer);
    }
}

/// The nearest ten on the circle, halves up; north is 36.
fn direction_value(d: i64) {
    let off = |tens: &i64| {
        let less = (d - tens * 10).rem_euclid(360);
        if less > 180 { less - 360 } else { less }
    };
    let answer = if d > 359 {
        "out of range".into()
    } else {
        format!("{:02}", (1..=36).find(|tens| (-5..=4).contains(&off(tens))).unwrap())
    };
    line(d.to_string(), answer);
}

fn direction() {
    for d in [0, 4, 5, 14, 15, 94, 95, 180, 344, 345, 354, 355, 359, 360] {
        direction_value(d);
    }
    for f in [0, 1, 2, 9, 18, 34, 35, 36, 37] {
        let answer = match f {
            1..=35 => (f * 10).to_string(),
            36 => "0".into(),
            _ => "unused".into(),
        };
        line(format!("{f:02}"), answer);
    }
}

fn heading(name: &str) {
    println!("\n{name}");
}

fn marked() {
    heading("marked rows");
    values(&land(), &[5999, 6000, 70000, 70001]);
    values(&base(), &[599, 600]);
    values(&visibility(), &[370, 799, 5700, 9999, 10000]);
    values(&cloud(), &[3299, 3300, 29999]);
    values(&runway(), &[399, 2001]);
    for t in [25, -15, -4] {
        temperature(t);
    }
    for d in [4, 5, 355] {
        direction_value(d);
    }
    for t in [9, 10, 9885] {
        rain_value(t);
    }
    signed(1, 0);
    figures(&land(), 2, &[55]);
}

fn temperatures() {
    for t in [-996, -995, -994, -15, -14, -6, -5, -4, -1, 0, 4, 5, 25, 994, 995] {
        temperature(t);
    }
    for (minus, whole) in [(true, 99), (true, 1), (true, 0), (false, 0), (false, 3), (false, 99)] {
        degrees(minus, whole);
    }
}

fn seen() {
    readings(&land(), &[0, 5_000, 6_000, 70_000, 70_001]);
    readings(&sea(), &[0, 4_000, 50_000]);
    readings(&base(), &[300, 2_000, 2_500]);
    readings(&cloud(), &[2_970, 3_000, 3_300, 30_000]);
    readings(&visibility(), &[750, 4_000, 4_050, 9_000, 10_000]);
    readings(&runway(), &[0, 50, 375, 2_000, 2_001]);
    readings(&depth(), &[0, 89, 90, 91, 100, 350, 400]);
    readings(&layer_steps(), &[0, 1, 1_470, 1_500, 1_800, 9_000, 10_500, 21_000, 21_001]);
    readings(&layer_bands(), &[0, 50, 2_000, 2_500, 2_501]);
    for t in [10_130, 10_135, 99_990] {
        line(tenths(t), if t % 10 == 0 { format!("{} to {}", tenths(t), tenths(t + 9)) } else { "nothing".into() });
    }
}

fn main() {
    heading("4377 land, m");
    values(&land(), &[0, 99, 100, 4999, 5000, 5999, 6000, 30000, 34999, 35000, 70000, 70001, 99999, 100000]);
    figures(&land(), 2, &[0, 1, 49, 50, 51, 55, 56, 80, 81, 88, 89, 90]);
    heading("4377 sea, m");
    values(&sea(), &[0, 49, 50, 199, 200, 499, 500, 999, 1000, 3999, 4000, 49999, 50000, 100000]);
    figures(&sea(), 2, &[89, 90, 91, 92, 93, 94, 95, 96, 97, 98, 99, 0]);
    heading("1600 h, m");
    values(&base(), &[0, 49, 50, 99, 100, 299, 300, 599, 600, 2499, 2500, 99999, 100000]);
    figures(&base(), 1, &[0, 1, 2, 3, 4, 5, 6, 7, 8, 9]);
    heading("1690, m");
    values(&cloud(), &[0, 29, 30, 2999, 3000, 3299, 3300, 3599, 3600, 29699, 29700, 29999, 30000, 100000]);
    figures(&cloud(), 3, &[0, 1, 99, 100, 101, 110, 111, 120, 980, 990, 998, 999]);
    heading("VVVV, m");
    values(&visibility(), &[0, 49, 50, 370, 799, 800, 4999, 5000, 5700, 8999, 9000, 9999, 10000, 100000]);
    figures(&visibility(), 4, &[0, 25, 50, 750, 800, 850, 4900, 5000, 5500, 9000, 9998, 9999]);
    heading("RVR, m");
    values(&runway(), &[0, 49, 50, 74, 75, 399, 400, 449, 450, 799, 800, 2000, 2001, 100000]);
    figures(&runway(), 4, &[0, 25, 50, 60, 375, 400, 425, 450, 800, 850, 2000, 2100]);
    for text in ["M0050", "M0100", "P2000", "P1500"] {
        line(text.into(), reading(&runway(), text));
    }
    heading("1079, mm");
    values(&depth(), &[0, 1, 89, 90, 91, 99, 100, 149, 150, 399, 400, 99999, 100000]);
    figures(&depth(), 2, &[0, 1, 89, 90, 91, 92, 93, 97, 98, 99]);
    heading("1677 by steps");
    values(&layer_steps(), &[0, 29, 30, 1499, 1500, 1799, 1800, 2099, 8999, 9000, 10499, 10500, 20999, 21000, 21001, 99999, 100000]);
    figures(&layer_steps(), 2, &[0, 1, 50, 51, 55, 56, 80, 81, 88, 89, 90, 99]);
    heading("1677 by bands");
    values(&layer_bands(), &[0, 49, 50, 99, 599, 600, 2499, 2500, 99999, 100000]);
    figures(&layer_bands(), 2, &[0, 9, 89, 90, 91, 95, 98, 99]);
    heading("aerodrome temperature, degrees");
    temperatures();
    heading("sTTT, degrees");
    for (sign, n) in [(0, 0), (0, 53), (1, 0), (1, 1), (1, 999), (2, 53)] {
        signed(sign, n);
    }
    heading("Q, hPa");
    pressure();
    heading("RRR, mm");
    rain();
    heading("direction, degrees");
    direction();
    heading("what may have been seen");
    seen();
    marked();
}
