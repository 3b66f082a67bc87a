//! A generator of test texts: valid reports, damaged ones and random ones, a third of each, the
//! five kinds in turn. Arguments: a seed and a count; with a third one, 2005, TAFs have the form
//! of the 2005 edition, and every second report is a TAF. It prints one text a line in
//! hexadecimal; the same seed gives the same texts.

use std::io::Write;

// ---------------------------------------------------------------------------------------------
// Random numbers
// ---------------------------------------------------------------------------------------------

/// The splitmix64 generator, and whether TAFs are those of 2005.
struct Random(u64, bool);

impl Random {
    fn next(&mut self) -> u64 {
        self.0 = self.0.wrapping_add(0x9E37_79B9_7F4A_7C15);
        let mut z = self.0;
        z = (z ^ (z >> 30)).wrapping_mul(0xBF58_476D_1CE4_E5B9);
        z = (z ^ (z >> 27)).wrapping_mul(0x94D0_49BB_1331_11EB);
        z ^ (z >> 31)
    }

    /// A number below a limit that is not zero.
    fn below(&mut self, limit: usize) -> usize {
        (self.next() % limit as u64) as usize
    }

    fn one_in(&mut self, number: usize) -> bool {
        self.below(number) == 0
    }

    fn pick<T: Copy>(&mut self, choices: &[T]) -> T {
        choices[self.below(choices.len())]
    }

    /// A number from least through most, often one of the two or a neighbour.
    fn within(&mut self, least: usize, most: usize) -> usize {
        match self.below(8) {
            0 | 1 => least,
            2 => most,
            3 => (least + 1).min(most),
            4 => most.saturating_sub(1).max(least),
            _ => least + self.below(most - least + 1),
        }
    }

    /// Such a number with leading zeros.
    fn figures(&mut self, least: usize, most: usize, width: usize) -> String {
        format!("{:0width$}", self.within(least, most), width = width)
    }

    /// One figure, or a slash one time in five.
    fn figure_or_slash(&mut self) -> char {
        if self.one_in(5) {
            '/'
        } else {
            self.pick(&['0', '1', '2', '3', '4', '5', '6', '7', '8', '9'])
        }
    }
}

/// How full a valid report is.
#[derive(Clone, Copy, PartialEq)]
enum Extent {
    Shortest,
    Usual,
    Longest,
}

impl Extent {
    fn count(self, random: &mut Random, most: usize) -> usize {
        match self {
            Extent::Shortest => 0,
            Extent::Usual => random.below(most + 1),
            Extent::Longest => most,
        }
    }

    /// Whether an optional part stands.
    fn holds(self, random: &mut Random) -> bool {
        self.count(random, 1) == 1
    }
}

/// The kinds of report in turn.
const NAMES: [&str; 5] = ["AAXX", "BBXX", "METAR", "SPECI", "TAF"];

/// The groups of a valid report of a kind.
fn valid_groups(random: &mut Random, kind: usize) -> Vec<String> {
    let extent = match random.below(16) {
        0 | 1 => Extent::Shortest,
        2 => Extent::Longest,
        _ => Extent::Usual,
    };
    let mut groups = match NAMES[kind] {
        "AAXX" => land_groups(random, extent),
        "BBXX" => ship_groups(random, extent),
        "TAF" => forecast_groups(random, extent),
        name => observation_groups(random, extent, name),
    };
    // Not in each of the longest reports: they have so many winds that P would be no rarity.
    let aerodrome = kind >= 2;
    if aerodrome && extent == Extent::Longest && random.one_in(16) {
        raise_winds(&mut groups);
    }
    groups
}

// ---------------------------------------------------------------------------------------------
// Valid SYNOP and SHIP
// ---------------------------------------------------------------------------------------------

fn date_group(random: &mut Random) -> String {
    let day = random.figures(1, 31, 2);
    let hour = random.figures(0, 23, 2);
    format!("{}{}{}", day, hour, random.pick(&[0, 1, 3, 4]))
}

fn land_groups(random: &mut Random, extent: Extent) -> Vec<String> {
    let date = date_group(random);
    let mut groups = vec!["AAXX".to_string(), date, random.figures(0, 99_999, 5)];
    if extent == Extent::Shortest || (extent == Extent::Usual && random.one_in(12)) {
        groups.push("NIL".to_string());
    } else {
        push_section(random, extent, &mut groups);
    }
    groups
}

fn ship_groups(random: &mut Random, extent: Extent) -> Vec<String> {
    let length = match extent {
        Extent::Shortest => 3,
        Extent::Usual => random.within(3, 9),
        Extent::Longest => 9,
    };
    let alphabet: Vec<char> = ('A'..='Z').chain('0'..='9').collect();
    let call_sign: String = (0..length).map(|_| random.pick(&alphabet)).collect();
    let date = date_group(random);
    let latitude = format!("99{}", random.figures(0, 900, 3));
    let quadrant = random.pick(&[1, 3, 5, 7]);
    let longitude = format!("{}{}", quadrant, random.figures(0, 1800, 4));
    let mut groups = vec!["BBXX".to_string(), call_sign, date, latitude, longitude];
    push_section(random, extent, &mut groups);
    groups
}

fn push_section(random: &mut Random, extent: Extent, groups: &mut Vec<String>) {
    let (rain, weather) = match extent {
        Extent::Shortest => (random.within(2, 4), random.pick(&[2, 3, 5, 6])),
        Extent::Usual => (random.within(0, 4), random.within(1, 7)),
        Extent::Longest => (random.within(0, 1), random.pick(&[1, 4, 7])),
    };
    let base = random.figure_or_slash();
    groups.push(format!(
        "{}{}{}{}",
        rain,
        weather,
        base,
        visibility_code(random)
    ));
    push_synoptic_wind(random, extent, groups);
    for figure in 1..=9 {
        let stands = match figure {
            6 => rain <= 1,
            7 => matches!(weather, 1 | 4 | 7),
            _ => extent.holds(random),
        };
        if stands {
            groups.push(numbered_group(random, figure));
        }
    }
    if extent == Extent::Longest || (extent == Extent::Usual && random.one_in(3)) {
        push_third(random, extent, groups);
    }
}

/// Section 3: 333, the maximum, the minimum and layers with heights that do not fall.
fn push_third(random: &mut Random, extent: Extent, groups: &mut Vec<String>) {
    groups.push("333".to_string());
    for first in [1, 2] {
        if extent.holds(random) {
            let slashes = extent == Extent::Usual && random.one_in(8);
            let rest = if slashes { "////".to_string() } else { signed(random) };
            groups.push(format!("{}{}", first, rest));
        }
    }
    let layers = match extent {
        Extent::Longest => 4,
        _ => random.below(5),
    };
    let mut heights: Vec<String> = (0..layers).map(|_| visibility_code(random)).collect();
    heights.sort();
    for height in heights {
        let amount = random.figure_or_slash();
        groups.push(format!("8{}{}{}", amount, random.figures(0, 9, 1), height));
        if extent == Extent::Usual && random.one_in(12) {
            groups.push("8////".to_string());
        }
    }
}

/// VV: 00-50, 56-89, 90-99 or slashes.
fn visibility_code(random: &mut Random) -> String {
    match random.below(4) {
        0 => random.figures(0, 50, 2),
        1 => random.figures(56, 89, 2),
        2 => random.figures(90, 99, 2),
        _ => "//".to_string(),
    }
}

fn push_synoptic_wind(random: &mut Random, extent: Extent, groups: &mut Vec<String>) {
    let cover = random.figure_or_slash();
    let direction = match random.below(4) {
        0 => "99".to_string(),
        _ => random.figures(1, 36, 2),
    };
    let choice = if extent == Extent::Longest {
        0
    } else {
        random.below(5)
    };
    match choice {
        0 => {
            groups.push(format!("{}{}99", cover, direction));
            groups.push(format!("00{}", random.figures(99, 999, 3)));
        }
        1 => groups.push(format!("{}////", cover)),
        2 => groups.push(format!("{}0000", cover)),
        _ => groups.push(format!(
            "{}{}{}",
            cover,
            direction,
            random.figures(1, 98, 2)
        )),
    }
}

/// A right group of section 1 by its first figure, sometimes all slashes where that may be.
fn numbered_group(random: &mut Random, figure: usize) -> String {
    if figure != 9 && random.one_in(8) {
        return format!("{}////", figure);
    }
    let rest = match figure {
        1 => signed(random),
        2 if random.one_in(3) => format!("9{}", random.figures(0, 100, 3)),
        2 => signed(random),
        3 => random.figures(0, 9999, 4),
        4 => {
            let first = random.pick(&[0, 9, 1, 2, 5, 7, 8]);
            format!("{}{}", first, random.figures(0, 999, 3))
        }
        5 => tendency(random),
        6 => {
            let amount = random.pick(&[1, 2, 500, 988, 989, 990, 991, 999]);
            let period = random.figure_or_slash();
            format!("{:03}{}", amount, period)
        }
        7 => {
            let present = random.figures(0, 99, 2);
            let present = random.pick(&[present.as_str(), "//"]).to_string();
            let past = [random.figure_or_slash(), random.figure_or_slash()];
            format!("{}{}{}", present, past[0], past[1])
        }
        8 => (0..4).map(|_| random.figure_or_slash()).collect(),
        _ => {
            let hour = random.figures(0, 23, 2);
            format!("{}{}", hour, random.figures(0, 59, 2))
        }
    };
    format!("{}{}", figure, rest)
}

fn signed(random: &mut Random) -> String {
    match random.below(2) {
        0 => format!("0{}", random.figures(0, 999, 3)),
        _ => format!("1{}", random.figures(1, 999, 3)),
    }
}

fn tendency(random: &mut Random) -> String {
    match random.within(0, 8) {
        4 => "4000".to_string(),
        characteristic => format!("{}{}", characteristic, random.figures(0, 999, 3)),
    }
}

// ---------------------------------------------------------------------------------------------
// Valid elements of METAR, SPECI and TAF
// ---------------------------------------------------------------------------------------------

/// CCCC, sometimes four letters that have another shape too.
fn location(random: &mut Random) -> String {
    if random.one_in(4) {
        let traps = [
            "AUTO", "SHRA", "RERA", "TSRA", "VCFG", "PROB", "AAXX", "CNLX",
        ];
        return random.pick(&traps).to_string();
    }
    let letters: Vec<char> = ('A'..='Z').collect();
    (0..4).map(|_| random.pick(&letters)).collect()
}

fn time_figures(random: &mut Random) -> String {
    let day = random.figures(1, 31, 2);
    let hour = random.figures(0, 23, 2);
    format!("{}{}{}", day, hour, random.figures(0, 59, 2))
}

/// The report's own period.
fn own_period(random: &mut Random) -> String {
    if random.1 {
        let from = (random.figures(1, 31, 2), random.figures(0, 23, 2));
        let (least, most) = random.pick(&[(1, 24), (1, 24), (51, 74)]);
        return format!("{}{}{}", from.0, from.1, random.figures(least, most, 2));
    }
    period_group(random)
}

/// A change group's period.
fn change_period(random: &mut Random) -> String {
    if random.1 {
        let from = random.figures(0, 23, 2);
        return format!("{}{}", from, random.figures(1, 24, 2));
    }
    period_group(random)
}

fn period_group(random: &mut Random) -> String {
    let from = (random.figures(1, 31, 2), random.figures(0, 23, 2));
    let to = (random.figures(1, 31, 2), random.figures(0, 24, 2));
    format!("{}{}/{}{}", from.0, from.1, to.0, to.1)
}

fn direction_figures(random: &mut Random) -> String {
    format!("{:03}", random.within(1, 36) * 10)
}

const UNITS: [&str; 3] = ["KT", "MPS", "KMH"];

/// Whether a group of METAR, SPECI or TAF is a wind; CCCC may end in KT too, but is shorter.
fn is_wind(group: &str) -> bool {
    group.len() >= 7 && UNITS.iter().any(|unit| group.ends_with(unit))
}

fn wind_group(random: &mut Random, extent: Extent, forecast: bool) -> String {
    let unit = match extent {
        Extent::Longest => random.pick(&["MPS", "KMH"]),
        _ => random.pick(&UNITS),
    };
    let choice = random.below(8);
    if extent != Extent::Longest && choice == 0 {
        return format!("00000{}", unit);
    }
    if extent != Extent::Longest && choice == 1 && !forecast {
        return format!("/////{}", unit);
    }
    let direction = match choice {
        2 => "VRB".to_string(),
        _ => direction_figures(random),
    };
    // P is rare, as such winds are.
    let speeds = match extent == Extent::Usual && random.one_in(20) {
        true => speeds_with_p(random, unit),
        false => speeds_in_figures(random, extent),
    };
    format!("{}{}{}", direction, speeds, unit)
}

/// A mean, and perhaps a gust above it.
fn speeds_in_figures(random: &mut Random, extent: Extent) -> String {
    let speed = match extent {
        Extent::Longest => random.within(100, 198),
        _ => random.pick(&[1, 2, 9, 10, 49, 50, 98, 99, 100, 101, 150, 198]),
    };
    let gust = match extent.holds(random) {
        true => format!("G{:02}", random.within(speed + 1, 199)),
        false => String::new(),
    };
    format!("{:02}{}", speed, gust)
}

/// P for the mean, for mean and gust, or for a gust over any mean but calm.
fn speeds_with_p(random: &mut Random, unit: &str) -> String {
    let above = match unit {
        "KT" => "P99",
        "MPS" => "P49",
        _ => "P199",
    };
    match random.below(4) {
        0 => above.to_string(),
        1 => format!("{}G{}", above, above),
        _ => format!("{}G{}", random.figures(1, 199, 2), above),
    }
}

/// Makes each wind of a longest report the longest that there is.
fn raise_winds(groups: &mut [String]) {
    for group in groups.iter_mut().filter(|group| is_wind(group)) {
        let direction = &group[..3];
        *group = format!("{}P199GP199KMH", direction);
    }
}

fn visibility_group(random: &mut Random, forecast: bool) -> String {
    let metres = match random.below(6) {
        0 => 9999,
        1 => random.within(0, 16) * 50,
        2 => random.within(9, 50) * 100,
        3 => random.within(6, 9) * 1000,
        4 if !forecast => return "////".to_string(),
        _ => random.pick(&[0, 50, 750, 800, 900, 4900, 5000, 6000, 9000]),
    };
    format!("{:04}", metres)
}

fn runway_group(random: &mut Random) -> String {
    let runway = random.figures(1, 36, 2);
    let side = random.pick(&["", "L", "C", "R"]);
    let range = match random.below(6) {
        0 => "M0050".to_string(),
        1 => "P2000".to_string(),
        2 => "////".to_string(),
        3 => format!("{:04}", random.within(2, 16) * 25),
        4 => format!("{:04}", random.within(9, 16) * 50),
        _ => format!("{:04}", random.within(9, 20) * 100),
    };
    let tendency = random.pick(&["", "U", "D", "N"]);
    format!("R{}{}/{}{}", runway, side, range, tendency)
}

/// One to three different codes of a list, joined.
fn different_codes(random: &mut Random, extent: Extent, list: &[&str]) -> String {
    let count = match extent {
        Extent::Longest => 3,
        _ => 1 + random.below(3),
    };
    let mut codes: Vec<&str> = Vec::new();
    while codes.len() < count.min(list.len()) {
        let code = random.pick(list);
        if !codes.contains(&code) {
            codes.push(code);
        }
    }
    codes.concat()
}

/// A right weather group; a bare one has no sign and no VC, as RE groups.
fn weather_codes(random: &mut Random, extent: Extent, bare: bool, automatic: bool) -> String {
    let sign = match (bare, extent) {
        (true, _) => "",
        (false, Extent::Longest) => random.pick(&["+", "-"]),
        _ => random.pick(&["", "", "+", "-"]),
    };
    let showers = ["RA", "SN", "PL", "GS", "GR"];
    let plain = ["DZ", "RA", "SN", "SG", "IC", "PL", "GR", "GS", "UP"];
    let plain = if automatic { &plain } else { &plain[..8] };
    let choice = match extent {
        Extent::Longest => random.pick(&[1, 2]),
        _ => random.below(11),
    };
    match choice {
        0 => format!("{}{}", sign, different_codes(random, extent, plain)),
        1 => format!("{}SH{}", sign, different_codes(random, extent, &showers)),
        2 => format!("{}TS{}", sign, different_codes(random, extent, &showers)),
        3 => format!(
            "{}FZ{}",
            sign,
            different_codes(random, extent, &["DZ", "RA"])
        ),
        4 => random.pick(&["MIFG", "BCFG", "PRFG", "FZFG"]).to_string(),
        5 => {
            let blown = random.pick(&["DU", "SA", "SN"]);
            format!("{}{}", random.pick(&["DR", "BL"]), blown)
        }
        6 if !bare => vicinity_codes(random),
        7 => format!("{}{}", sign, random.pick(&["DS", "SS"])),
        8 => {
            let sign = if sign == "-" { "" } else { sign };
            format!("{}{}", sign, random.pick(&["FC", "PO"]))
        }
        9 => "TS".to_string(),
        _ => random
            .pick(&["BR", "FG", "FU", "VA", "DU", "SA", "HZ", "SQ", "PO", "FC"])
            .to_string(),
    }
}

fn vicinity_codes(random: &mut Random) -> String {
    let codes = [
        "DS", "SS", "FG", "FC", "SH", "TS", "PO", "BLDU", "BLSA", "BLSN", "VA",
    ];
    format!("VC{}", random.pick(&codes))
}

/// The codes of table 1690 by their order.
fn height_code(order: usize) -> usize {
    match order {
        0..=100 => order,
        101..=189 => 110 + (order - 101) * 10,
        _ => 999,
    }
}

/// No cloud group, one that stands alone, or layers at equal or rising heights.
fn push_clouds(random: &mut Random, extent: Extent, forecast: bool, groups: &mut Vec<String>) {
    let height = format!("{:03}", height_code(random.within(0, 190)));
    if extent == Extent::Usual && random.one_in(4) {
        let height = if !forecast && random.one_in(3) {
            "///"
        } else {
            &height
        };
        let vertical = format!("VV{}", height);
        groups.push(random.pick(&["SKC", "NSC", "NCD", &vertical]).to_string());
        return;
    }
    let count = extent.count(random, 4);
    let mut orders: Vec<usize> = (0..count).map(|_| random.within(0, 190)).collect();
    orders.sort_unstable();
    for order in orders {
        let amount = random.pick(&["FEW", "SCT", "BKN", "OVC"]);
        let close = match extent {
            Extent::Longest => "TCU",
            _ => random.pick(&["", "", "CB", "TCU"]),
        };
        let height = format!("{:03}", height_code(order));
        let missing = !forecast && random.one_in(6);
        let height = if missing { "///" } else { &height };
        groups.push(format!("{}{}{}", amount, height, close));
    }
}

// ---------------------------------------------------------------------------------------------
// Valid METAR and SPECI
// ---------------------------------------------------------------------------------------------

fn observation_groups(random: &mut Random, extent: Extent, name: &str) -> Vec<String> {
    let mut groups = vec![name.to_string()];
    if extent.holds(random) {
        groups.push("COR".to_string());
    }
    groups.push(location(random));
    groups.push(format!("{}Z", time_figures(random)));
    if extent == Extent::Shortest && random.one_in(2) {
        groups.push("NIL".to_string());
        return groups;
    }
    let automatic = extent.holds(random);
    if automatic {
        groups.push("AUTO".to_string());
    }
    groups.push(wind_group(random, extent, false));
    if extent.holds(random) {
        let from = random.within(1, 36);
        let to = (from + random.below(35)) % 36 + 1;
        groups.push(format!("{:03}V{:03}", from * 10, to * 10));
    }
    push_observed_sky(random, extent, automatic, &mut groups);
    groups.push(format!("{}/{}", temperature(random), temperature(random)));
    groups.push(match random.below(6) {
        0 => "Q////".to_string(),
        _ => format!("Q{}", random.figures(0, 9999, 4)),
    });
    for _ in 0..extent.count(random, 3) {
        let codes = weather_codes(random, extent, true, automatic);
        groups.push(format!("RE{}", codes));
    }
    // Runway states are rare, as deposits are.
    if extent == Extent::Longest || (extent == Extent::Usual && random.one_in(4)) {
        push_runway_state(random, extent, &mut groups);
    }
    if random.below(5) < 2 {
        push_trend(random, extent, &mut groups);
    }
    groups
}

/// Visibility, runway ranges, weather and clouds, or CAVOK.
fn push_observed_sky(
    random: &mut Random,
    extent: Extent,
    automatic: bool,
    groups: &mut Vec<String>,
) {
    let cavok = extent == Extent::Usual && random.one_in(4);
    groups.push(match cavok {
        true => "CAVOK".to_string(),
        false => visibility_group(random, false),
    });
    for _ in 0..extent.count(random, 4) {
        groups.push(runway_group(random));
    }
    if cavok {
        return;
    }
    for _ in 0..extent.count(random, 3) {
        groups.push(match random.below(8) {
            0 if extent == Extent::Usual => "//".to_string(),
            _ => weather_codes(random, extent, false, automatic),
        });
    }
    push_clouds(random, extent, false, groups);
}

fn temperature(random: &mut Random) -> String {
    match random.below(5) {
        0 => "//".to_string(),
        1 | 2 => format!("M{}", random.figures(0, 99, 2)),
        _ => random.figures(0, 99, 2),
    }
}

/// SNOCLO, or one to four groups.
fn push_runway_state(random: &mut Random, extent: Extent, groups: &mut Vec<String>) {
    if extent != Extent::Longest && random.one_in(4) {
        groups.push("SNOCLO".to_string());
        return;
    }
    for _ in 0..=extent.count(random, 3) {
        groups.push(state_of_runway(random));
    }
}

fn state_of_runway(random: &mut Random) -> String {
    let runway = match random.below(6) {
        0 => "88".to_string(),
        1 => "99".to_string(),
        2 | 3 => random.figures(51, 86, 2),
        _ => random.figures(1, 36, 2),
    };
    if random.one_in(5) {
        return format!("{}CLRD//", runway);
    }
    let deposit = random.figure_or_slash();
    let extent = random.pick(&['1', '2', '5', '9', '/']);
    let depth = match random.below(5) {
        0 => "//".to_string(),
        1 => "99".to_string(),
        2 | 3 => random.figures(92, 98, 2),
        _ => random.figures(0, 90, 2),
    };
    let braking = match random.below(5) {
        0 => "//".to_string(),
        1 => "99".to_string(),
        _ => random.figures(0, 95, 2),
    };
    format!("{}{}{}{}{}", runway, deposit, extent, depth, braking)
}

/// NOSIG, or one to three changes.
fn push_trend(random: &mut Random, extent: Extent, groups: &mut Vec<String>) {
    if extent != Extent::Longest && random.one_in(4) {
        groups.push("NOSIG".to_string());
        return;
    }
    for _ in 0..=extent.count(random, 2) {
        push_trend_change(random, extent, groups);
    }
}

/// BECMG or TEMPO, its times and its body.
fn push_trend_change(random: &mut Random, extent: Extent, groups: &mut Vec<String>) {
    groups.push(random.pick(&TREND_WORDS).to_string());
    let choice = match extent {
        Extent::Shortest => 0,
        Extent::Usual => random.below(5),
        Extent::Longest => 4,
    };
    match choice {
        0 => {}
        1 => groups.push(trend_time(random, "AT")),
        2 => groups.push(trend_time(random, "FM")),
        3 => groups.push(trend_time(random, "TL")),
        _ => {
            groups.push(trend_time(random, "FM"));
            groups.push(trend_time(random, "TL"));
        }
    }
    push_change_body(random, extent, groups);
}

const TREND_WORDS: [&str; 2] = ["BECMG", "TEMPO"];
const TREND_TIMES: [&str; 3] = ["FM", "TL", "AT"];

/// GGgg after the letters, of TL sometimes 2400.
fn trend_time(random: &mut Random, letters: &str) -> String {
    if letters == "TL" && random.one_in(4) {
        return "TL2400".to_string();
    }
    let hour = random.figures(0, 23, 2);
    format!("{}{}{}", letters, hour, random.figures(0, 59, 2))
}

// ---------------------------------------------------------------------------------------------
// Valid TAF
// ---------------------------------------------------------------------------------------------

fn forecast_groups(random: &mut Random, extent: Extent) -> Vec<String> {
    let mut groups = vec!["TAF".to_string()];
    if extent.holds(random) {
        groups.push(random.pick(&["AMD", "COR"]).to_string());
    }
    groups.push(location(random));
    groups.push(format!("{}Z", time_figures(random)));
    if extent == Extent::Shortest && random.one_in(2) {
        groups.push("NIL".to_string());
        return groups;
    }
    groups.push(own_period(random));
    if extent == Extent::Shortest && random.one_in(2) {
        groups.push("CNL".to_string());
        return groups;
    }
    push_body(random, extent, [true, true], false, &mut groups);
    let count = match (extent, random.below(8)) {
        (Extent::Usual, 0) => random.within(12, 16),
        (Extent::Usual, _) => random.below(4),
        _ => extent.count(random, 16),
    };
    for _ in 0..count {
        push_change(random, extent, &mut groups);
    }
    groups
}

/// A body: wind, visibility or CAVOK, weather and clouds; wanted says of the first two whether
/// they must stand.
fn push_body(
    random: &mut Random,
    extent: Extent,
    wanted: [bool; 2],
    change: bool,
    groups: &mut Vec<String>,
) {
    if wanted[0] || extent.holds(random) {
        groups.push(wind_group(random, extent, true));
    }
    let visible = wanted[1] || extent.holds(random);
    if visible && extent == Extent::Usual && random.one_in(3) {
        groups.push("CAVOK".to_string());
        return;
    }
    if visible {
        groups.push(visibility_group(random, true));
    }
    if change && extent == Extent::Usual && random.one_in(4) {
        groups.push("NSW".to_string());
    } else {
        for _ in 0..extent.count(random, 3) {
            groups.push(weather_codes(random, extent, false, false));
        }
    }
    push_clouds(random, extent, true, groups);
}

fn push_change(random: &mut Random, extent: Extent, groups: &mut Vec<String>) {
    let probable = random.pick(&["PROB30", "PROB40"]);
    let choice = match extent {
        Extent::Longest => 3,
        _ => random.below(5),
    };
    match choice {
        0 => groups.push("BECMG".to_string()),
        1 => groups.push("TEMPO".to_string()),
        2 => groups.push(probable.to_string()),
        3 => groups.extend([probable.to_string(), "TEMPO".to_string()].iter().cloned()),
        _ => {
            let time = time_figures(random);
            let figures = if random.1 { &time[2..] } else { &time };
            groups.push(format!("FM{}", figures));
            push_body(random, extent, [true, true], true, groups);
            return;
        }
    }
    groups.push(change_period(random));
    push_change_body(random, extent, groups);
}

/// The body of a change other than FM, of a trend's too: at least one element.
fn push_change_body(random: &mut Random, extent: Extent, groups: &mut Vec<String>) {
    let before = groups.len();
    push_body(random, extent, [false, false], true, groups);
    if groups.len() == before {
        groups.push(visibility_group(random, true));
    }
}

// ---------------------------------------------------------------------------------------------
// Laying groups out as a text
// ---------------------------------------------------------------------------------------------

/// Words at which a reading may stop, seven of SYNOP and SHIP and two of METAR and SPECI, and
/// others that look like such.
const STOP_WORDS: [&str; 14] = [
    "333", "444", "555", "222//", "22200", "222AB", "22212", "WS", "RMK", "NOSIG", "BECMG",
    "TEMPO", "111", "2222",
];

/// A valid text: usually canonical, else with other blanks, without "=" or with an unread rest,
/// unless that would make it too long.
fn lay_out(random: &mut Random, groups: &[String]) -> Vec<u8> {
    let mut canonical = groups.join(" ").into_bytes();
    canonical.push(b'=');
    if random.one_in(2) {
        return canonical;
    }
    let spread = spread_out(random, groups);
    if spread.len() > 2048 {
        canonical
    } else {
        spread
    }
}

/// The groups with other blanks, ends and rests.
fn spread_out(random: &mut Random, groups: &[String]) -> Vec<u8> {
    let mut text = Vec::new();
    if random.one_in(6) {
        text.extend(parting(random));
    }
    for (index, group) in groups.iter().enumerate() {
        if index > 0 {
            text.extend(parting(random));
        }
        text.extend(group.as_bytes());
    }
    match random.below(6) {
        0 => {}
        1 => text.extend(parting(random)),
        2 => {
            text.extend(parting(random));
            text.push(b'=');
        }
        3 => push_rest(random, groups, &mut text),
        _ => text.push(b'='),
    }
    if text.ends_with(b"=") && random.one_in(3) {
        text.extend(parting(random));
    }
    text
}

fn parting(random: &mut Random) -> Vec<u8> {
    let partings: [&[u8]; 8] = [b" ", b" ", b" ", b"  ", b"\r\n", b"\n", b" \r\n ", b"   "];
    random.pick(&partings).to_vec()
}

/// A stop word and an unread rest, where the report may have one.
fn push_rest(random: &mut Random, groups: &[String], text: &mut Vec<u8>) {
    if groups[0] == "TAF" || groups.last().is_some_and(|last| last == "NIL") {
        return;
    }
    let words = match groups[0].as_str() {
        "AAXX" | "BBXX" => &STOP_WORDS[..7],
        _ => &STOP_WORDS[7..9],
    };
    text.push(b' ');
    text.extend(random.pick(words).as_bytes());
    if random.one_in(4) {
        return;
    }
    text.push(b' ');
    for _ in 0..random.below(30) {
        text.push(allowed_byte(random));
    }
}

// ---------------------------------------------------------------------------------------------
// Damaged texts
// ---------------------------------------------------------------------------------------------

const ALLOWED: &[u8] = b"ABCDEFGHIJKLMNOPQRSTUVWXYZ0123456789/+-= \r\n";

fn allowed_byte(random: &mut Random) -> u8 {
    random.pick(ALLOWED)
}

/// A valid report with one thing wrong, sometimes two.
fn damaged(random: &mut Random, kind: usize) -> Vec<u8> {
    let mut groups = valid_groups(random, kind);
    let grouped = random.below(5);
    let observation = matches!(NAMES[kind], "METAR" | "SPECI");
    if grouped > 0 && observation && random.one_in(3) {
        damage_trend(random, kind, &mut groups);
    } else if grouped > 0 && observation && random.one_in(4) {
        damage_runway_state(random, kind, &mut groups);
    } else if grouped > 0 {
        damage_groups(random, kind, &mut groups);
    }
    let mut text = lay_out(random, &groups);
    if grouped == 0 || random.one_in(6) {
        damage_bytes(random, &mut text);
    }
    text
}

/// One group changed, dropped, doubled, swapped, moved or put in.
fn damage_groups(random: &mut Random, kind: usize, groups: &mut Vec<String>) {
    let first = usize::from(!random.one_in(12)).min(groups.len() - 1);
    let at = match wind_place(random, groups) {
        // A wind has more ways to be wrong than other groups.
        Some(place) if random.one_in(8) => place,
        _ => first + random.below(groups.len() - first),
    };
    let other = first + random.below(groups.len() - first);
    match random.below(24) {
        0 | 1 => groups[at] = shaped_group(random, kind),
        2 => groups[at] = foreign_group(random, kind),
        3 | 4 => groups[at] = altered(random, &groups[at]),
        5 => drop(groups.remove(at)),
        6 => groups.insert(at, groups[at].clone()),
        7 => groups.swap(at, other),
        8 => {
            let moved = groups.remove(at);
            groups.insert(other, moved);
        }
        9 => groups.insert(at, shaped_group(random, kind)),
        10 => groups.insert(at, foreign_group(random, kind)),
        11..=13 => disagree(random, at, groups),
        14..=20 => groups[at] = near_miss(random, at, groups),
        21 => {
            for _ in 0..random.within(1, 4) {
                groups.insert(at, groups[at].clone());
            }
        }
        22 => groups.push(random.pick(&STOP_WORDS).to_string()),
        _ => {
            groups.truncate(at + 1);
            if random.one_in(2) {
                groups.push(random.pick(&STOP_WORDS).to_string());
                groups.push(foreign_group(random, kind));
            }
        }
    }
}

/// The place of one of the winds, where there are any.
fn wind_place(random: &mut Random, groups: &[String]) -> Option<usize> {
    let places: Vec<usize> = (0..groups.len())
        .filter(|&at| is_wind(&groups[at]))
        .collect();
    (!places.is_empty()).then(|| random.pick(&places))
}

/// One thing wrong about the trend, which a report without one gets first.
fn damage_trend(random: &mut Random, kind: usize, groups: &mut Vec<String>) {
    let begins_trend = |group: &String| group == "NOSIG" || TREND_WORDS.contains(&group.as_str());
    let trend = groups.iter().position(begins_trend);
    let trend = trend.unwrap_or_else(|| {
        let end = groups.len();
        push_trend(random, Extent::Usual, groups);
        end
    });
    // Places before the trend's first word, and after it.
    let before = 1 + random.below(trend);
    let inside = trend + 1 + random.below(groups.len() - trend);
    match random.below(14) {
        // A fourth change, or one after NOSIG.
        0 => {
            for _ in 0..random.within(1, 3) {
                push_trend_change(random, Extent::Usual, groups);
            }
        }
        // Times in any order at once after the word.
        1 => {
            for _ in 0..random.within(1, 3) {
                groups.insert(trend + 1, any_time(random));
            }
        }
        // A body that ends early, perhaps before its first element.
        2 => groups.truncate(inside),
        3 => groups.insert(trend, "NOSIG".to_string()),
        4 => groups.insert(before, any_time(random)),
        5 => {
            let word = random.pick(&["NSW", "NOSIG", "BECMG", "TEMPO"]);
            groups.insert(before, word.to_string());
        }
        _ => {
            let group = wrong_in_trend(random, kind, &groups[..trend]);
            groups.insert(inside, group);
        }
    }
}

/// One thing wrong about the runway state, which a report without one gets first, before the
/// trend.
fn damage_runway_state(random: &mut Random, kind: usize, groups: &mut Vec<String>) {
    let begins_trend = |group: &String| group == "NOSIG" || TREND_WORDS.contains(&group.as_str());
    let end = groups.iter().position(begins_trend);
    let mut trend = groups.split_off(end.unwrap_or(groups.len()));
    let stands = |group: &String| group == "SNOCLO" || is_state_of_runway(group);
    let first = groups.iter().position(stands).unwrap_or(groups.len());
    if first == groups.len() {
        push_runway_state(random, Extent::Usual, groups);
    }
    let inside = first + random.below(groups.len() - first + 1);
    match random.below(10) {
        0 | 1 => groups.insert(inside, "SNOCLO".to_string()),
        // Too many of them, perhaps after SNOCLO, perhaps with a wrong figure.
        2 | 3 => {
            for _ in 0..random.within(1, 4) {
                groups.push(any_state_of_runway(random));
            }
        }
        // Before the place, and in the trend or after it.
        4 => groups.insert(1 + random.below(first), any_state_of_runway(random)),
        5 => {
            let at = random.below(trend.len() + 1);
            trend.insert(at, any_state_of_runway(random));
        }
        6 => groups.insert(inside, foreign_group(random, kind)),
        _ => groups.insert(inside, random.pick(&STATE_MISSES).to_string()),
    }
    groups.append(&mut trend);
}

/// A group of runway state or SNOCLO, sometimes with figures that are not right.
fn any_state_of_runway(random: &mut Random) -> String {
    match random.below(4) {
        0 => "SNOCLO".to_string(),
        1 => random.pick(&STATE_MISSES).to_string(),
        _ => state_of_runway(random),
    }
}

/// Whether a group is one of runway state.
fn is_state_of_runway(group: &str) -> bool {
    let figure = |byte: u8| byte.is_ascii_digit() || byte == b'/';
    group.len() == 8 && (group.ends_with("CLRD//") || group.bytes().all(figure))
}

/// FM, TL or AT, sometimes with figures that are not right.
fn any_time(random: &mut Random) -> String {
    if random.one_in(3) {
        return random.pick(&TIME_MISSES).to_string();
    }
    let letters = random.pick(&TREND_TIMES);
    trend_time(random, letters)
}

/// A group that is wrong at most places of a trend; the observation's groups among them.
fn wrong_in_trend(random: &mut Random, kind: usize, observation: &[String]) -> String {
    match random.below(8) {
        0 => any_time(random),
        1 => random.pick(&["NOSIG", "BECMG", "TEMPO"]).to_string(),
        2 => random.pick(&["WS", "RMK"]).to_string(),
        3 => observation[random.below(observation.len())].clone(),
        4 => foreign_group(random, kind),
        5 => shaped_group(random, kind),
        _ => random.pick(&TREND_MISSES).to_string(),
    }
}

/// Groups that a trend's body may not have, most of which an observation may.
const TREND_MISSES: [&str; 12] = [
    "/////KT", "////", "//", "FEW///", "OVC///CB", "VV///", "UP", "-UP", "RAUP", "TSUP", "/////",
    "Q////",
];

/// A group of the same shape whose figures are just not in their table or range, or that the
/// rules about slashes forbid.
fn near_miss(random: &mut Random, at: usize, groups: &[String]) -> String {
    let start = match groups[0].as_str() {
        "AAXX" => 3,
        "BBXX" => 5,
        _ => {
            let old = random.1 && random.one_in(2);
            let misses = if old {
                old_misses(&groups[at])
            } else {
                aerodrome_misses(&groups[at])
            };
            return random.pick(misses).to_string();
        }
    };
    let misses: &[&str] = if at >= start + 2 {
        section_misses(groups[at].as_bytes()[0])
    } else if at == start + 1 {
        &COVER_AND_WIND_MISSES
    } else if at == start {
        &INDICATOR_MISSES
    } else {
        &HEADER_MISSES
    };
    random.pick(misses).to_string()
}

const HEADER_MISSES: [&str; 18] = [
    "00124",
    "32124",
    "24244",
    "24122",
    "24125",
    "241//",
    "2412/",
    "99901",
    "99///",
    "9900/",
    "98001",
    "21234",
    "11801",
    "0////",
    "1////",
    "10//0",
    "AB",
    "ABCDEFGHIJ",
];
const INDICATOR_MISSES: [&str; 9] = [
    "51///", "40///", "48///", "43/51", "43/55", "43/5/", "/3///", "4////", "439//",
];
const COVER_AND_WIND_MISSES: [&str; 10] = [
    "93701", "89812", "80/12", "8//12", "804//", "8041/", "80005", "82000", "80099", "89900",
];

/// Near misses of the groups after Nddff by their first figure.
fn section_misses(figure: u8) -> &'static [&'static str] {
    match figure {
        b'0' => &["00098", "00000", "00///", "0009/", "01099", "0////"],
        b'1' => &["11000", "10///", "1/123", "1005/", "12000", "19050"],
        b'2' => &["21000", "22000", "29101", "29///", "2/055", "2905/"],
        b'3' => &["30///", "3123/", "3/123", "3///0"],
        b'4' => &[
            "43123", "44000", "46000", "40///", "48///", "4/123", "4812/",
        ],
        b'5' => &[
            "54001", "54999", "59000", "5/123", "53///", "5301/", "50000",
        ],
        b'6' => &[
            "60001", "6///1", "60///", "6000/", "6////", "6//11", "69890",
        ],
        b'7' => &["7/123", "71/23", "7////", "7//1/"],
        b'8' => &["8////", "8///1", "8123", "812345"],
        _ => &["92400", "90060", "9////", "9//00", "900//", "9000/"],
    }
}

/// Near misses of a period of 2005 and of FMGGgg by its look, and the present forms.
fn old_misses(group: &str) -> &'static [&'static str] {
    let figures = group.bytes().all(|byte| byte.is_ascii_digit());
    match group.len() {
        6 if figures => &[
            "001206", "321206", "012406", "011200", "011225", "011250", "011275", "0112//",
            "//////", "01/206", "0112/0206", "1206", "01120", "0112060",
        ],
        4 if figures => &[
            "2412", "1200", "1225", "1250", "1251", "0000", "////", "12//", "1/14", "9999",
            "0112/0114", "121", "12145", "011206",
        ],
        6 if group.starts_with("FM") => &["FM2400", "FM1260", "FM12//", "FM011230", "FM1230Z", "TL1230"],
        _ => aerodrome_misses(group),
    }
}

/// Near misses of a group of METAR, SPECI or TAF by its look.
fn aerodrome_misses(group: &str) -> &'static [&'static str] {
    let starts = |words: &[&str]| words.iter().any(|word| group.starts_with(word));
    let middle = group.as_bytes().get(group.len() / 2);
    if is_wind(group) {
        &WIND_MISSES
    } else if group.len() == 7 && group.ends_with('Z') {
        &[
            "001200Z", "321200Z", "012400Z", "011260Z", "01126/Z", "//////Z",
        ]
    } else if group.len() == 9 && middle == Some(&b'/') {
        &PERIOD_MISSES
    } else if group.len() == 7 && middle == Some(&b'V') {
        &[
            "000V020", "365V010", "370V010", "///V010", "01/V020", "010V000", "360V360",
        ]
    } else if starts(&["FEW", "SCT", "BKN", "OVC", "VV"]) {
        &CLOUD_MISSES
    } else if group.len() > 4 && group.starts_with("RE") {
        &RECENT_MISSES
    } else if starts(&["R0", "R1", "R2", "R3"]) {
        &RUNWAY_MISSES
    } else if group == "SNOCLO" || is_state_of_runway(group) {
        &STATE_MISSES
    } else if group.len() == 5 && group.starts_with('Q') {
        &["Q///1", "Q10//", "Q101/", "Q/013"]
    } else if starts(&["PROB"]) {
        &["PROB50", "PROB20", "PROB//", "PROB00", "PROB3/", "PROB"]
    } else if group.len() == 6 && starts(&TREND_TIMES) {
        &TIME_MISSES
    } else if starts(&["FM"]) {
        &["FM001200", "FM322300", "FM012400", "FM011260", "FM0112//"]
    } else if group.len() >= 5 && group.contains('/') {
        &[
            "M00/M00", "M00/00", "01/M00", "M///01", "M/////", "1//01", "/1/01", "M1//02", "///M//",
        ]
    } else if group.len() == 4 && group.bytes().all(|byte| byte.is_ascii_digit()) {
        &VISIBILITY_MISSES
    } else {
        &WEATHER_MISSES
    }
}

const WIND_MISSES: [&str; 47] = [
    "36510KT",
    "37010KT",
    "00510KT",
    "270050KT",
    "270099KT",
    "270200KT",
    "270200KMH",
    "27010G999KMH",
    "27010G009KT",
    "27010G200KT",
    "VRB200KT",
    "/////G20KT",
    "////10KT",
    "270//KT",
    "//////KT",
    "/////KT",
    "VRB//KT",
    "2/010KT",
    "000000KT",
    "27005G05KT",
    "00000G05MPS",
    "VRB00KMH",
    "00010KT",
    "270P98KT",
    "270P50MPS",
    "270P198KMH",
    "270P99MPS",
    "270P99KMH",
    "270P199KT",
    "VRBP100KT",
    "270P099KT",
    "270P049MPS",
    "270P9KT",
    "270P1999KMH",
    "270P//KT",
    "270P9/KT",
    "270PKT",
    "270PP99KT",
    "27P99KT",
    "P99KT",
    "///P99KT",
    "/////GP99KT",
    "370P99KT",
    "000P98KT",
    "27010GP98KT",
    "270P99GP49KT",
    "270P99G//KT",
];
const PERIOD_MISSES: [&str; 9] = [
    "0012/0112",
    "3212/0112",
    "0124/0112",
    "0112/0012",
    "0112/3212",
    "0112/0125",
    "0112/01//",
    "/////////",
    "01/2/0112",
];
const CLOUD_MISSES: [&str; 16] = [
    "FEW101", "SCT109", "BKN111", "OVC991", "OVC995", "OVC998", "VV101", "FEW//0", "FEW///",
    "SCT///CB", "VV///", "VV//1", "FEW000", "SKC", "NSC", "NCD",
];
const RUNWAY_MISSES: [&str; 19] = [
    "R00/0500",
    "R37/0500",
    "R24/0025",
    "R24/0000",
    "R24/0410",
    "R24/0425",
    "R24/0825",
    "R24/0850",
    "R24/2100",
    "R24/M0100",
    "R24/M0025",
    "R24/P1500",
    "R24/P2001",
    "R24/P////",
    "R24/M////",
    "R//L/0500",
    "R24/05//",
    "R24/0500V0600",
    "R24L/2000N",
];
const STATE_MISSES: [&str; 30] = [
    "00451293",
    "37451293",
    "50451293",
    "87451293",
    "89451293",
    "98451293",
    "//451293",
    "2/451293",
    "24401293",
    "24431293",
    "24481293",
    "24459193",
    "24451/93",
    "2445/193",
    "24451296",
    "24451298",
    "2445129/",
    "////////",
    "0112/011",
    "00CLRD//",
    "87CLRD//",
    "//CLRD//",
    "24CLRD95",
    "24CLRD",
    "24CLRD///",
    "2445129",
    "244512933",
    "R24/451293",
    "R/SNOCLO",
    "SNOCLOX",
];
const TIME_MISSES: [&str; 14] = [
    "FM2400", "FM2360", "FM1260", "FM////", "FM12//", "FM12", "FM12000", "AT2400", "AT0060",
    "AT////", "TL2401", "TL2460", "TL2500", "TL/200",
];
const VISIBILITY_MISSES: [&str; 14] = [
    "0025", "0825", "0850", "0950", "4950", "5100", "5500", "9500", "9998", "99//", "////", "10/5",
    "999/", "CAVOK",
];
const RECENT_MISSES: [&str; 17] = [
    "RE+RA", "RE-DS", "REVCSH", "REVCFG", "REVC", "RE-TS", "REVCTS", "RETSTS", "RESH", "REUP",
    "RERAUP", "RERARA", "REFZFGRA", "RE//", "REMIRA", "RE+", "RENSW",
];
const WEATHER_MISSES: [&str; 50] = [
    "+BLSN", "-DRSN", "+DRSN", "+DRSA", "-FC", "-PO", "+FG", "-FZFG", "+SQ", "+VA", "RARA",
    "RASNRA", "RASNPLGS", "SHDZ", "SHUP", "TSUP", "SHRARA", "TSGRGSGR", "FZSN", "FZDZSN", "FZFGDZ",
    "FZUP", "MIRA", "MI", "SH", "-TS", "+TS", "TSTS", "TSFG", "VCRA", "VCSHRA", "VCFZFG", "+VCFG",
    "-VCTS", "VCDRSN", "VCBL", "VC", "BLRA", "BLSNRA", "DRSADU", "DUSA", "FGBR", "RAFG", "SHRAFG",
    "TSSHRA", "UP", "-UP", "RAUP", "//", "NSW",
];

/// Winds of which each part is right, and which do not agree.
const WIND_DISAGREEMENTS: [&str; 17] = [
    "00005KT",
    "27000KT",
    "VRB00MPS",
    "27010G10KT",
    "00000G05KT",
    "100150G120KMH",
    "000150KT",
    "27060G50MPS",
    "270P99G50KT",
    "VRBP99G150KT",
    "270P49G60MPS",
    "270P199G199KMH",
    "00000GP99KT",
    "27000GP49MPS",
    "VRB00GP99KT",
    "000P99KT",
    "000P199GP199KMH",
];

/// A right group put where it does not agree with the others, as far as its look tells.
fn disagree(random: &mut Random, at: usize, groups: &mut Vec<String>) {
    let group = groups[at].clone();
    let skies = ["SKC", "NSC", "NCD", "VV000", "FEW000", "OVC999"];
    let weathers = ["NSW", "UP", "RAUP", "RA", "FG", "-DZ", "TS"];
    if groups[0] == "AAXX" || groups[0] == "BBXX" {
        let late = [
            "00123", "00099", "6////", "60011", "7////", "71122", "80099", "82000", "/0007",
        ];
        let indicators = ["01///", "12///", "43///", "37///", "14698", "26999"];
        match (group.len(), random.below(3)) {
            (5, 0) => groups[at] = random.pick(&indicators).to_string(),
            (5, 1) => groups[at] = random.pick(&late).to_string(),
            _ => groups.insert(at, random.pick(&late).to_string()),
        }
    } else if is_wind(&group) {
        groups[at] = random.pick(&WIND_DISAGREEMENTS).to_string();
    } else if group.len() == 7 && group.as_bytes()[3] == b'V' {
        groups[at] = random.pick(&["360V360", "010V010", "000V000"]).to_string();
    } else if group.len() == 4 && group.as_bytes()[0].is_ascii_digit() {
        groups[at] = "CAVOK".to_string();
    } else if ["FEW", "SCT", "BKN", "OVC", "VV", "SKC", "NSC", "NCD"]
        .iter()
        .any(|word| group.starts_with(word))
    {
        groups.insert(at + random.below(2), random.pick(&skies).to_string());
    } else {
        groups.insert(at + random.below(2), random.pick(&weathers).to_string());
    }
}

/// A group of another valid report, usually of the same kind.
fn foreign_group(random: &mut Random, kind: usize) -> String {
    let kind = match random.below(4) {
        0 => random.below(5),
        _ => kind,
    };
    let groups = valid_groups(random, kind);
    groups[random.below(groups.len())].clone()
}

/// A group with one byte changed within its alphabet, dropped, doubled or swapped.
fn altered(random: &mut Random, group: &str) -> String {
    let mut bytes = group.as_bytes().to_vec();
    let at = random.below(bytes.len());
    match random.below(8) {
        0 => drop(bytes.remove(at)),
        1 => bytes.insert(at, bytes[at]),
        2 => bytes.swap(0, at),
        3 => bytes[at] = b'/',
        4 => bytes[at] = random.pick(b"ABCDEFGKLMNPQRSTUVZ+-"),
        _ => {
            for byte in bytes.iter_mut().skip(at) {
                if byte.is_ascii_digit() {
                    *byte = random.pick(b"0123456789");
                    break;
                }
            }
        }
    }
    bytes.iter().map(|&byte| char::from(byte)).collect()
}

/// One byte changed, dropped, doubled or swapped; blanks, "=" and what follows it, stop words.
fn damage_bytes(random: &mut Random, text: &mut Vec<u8>) {
    let at = random.below(text.len());
    let next = (at + 1) % text.len();
    match random.below(14) {
        0 => text[at] = allowed_byte(random),
        1 => text[at] = random.below(256) as u8,
        2 => text[at] = b'/',
        3 => text[at] = random.pick(b"0123456789"),
        4 => drop(text.remove(at)),
        5 => text.insert(at, text[at]),
        6 => text.swap(at, next),
        7 => insert(text, at, b" "),
        8 => insert(text, at, b"\r\n"),
        9 => insert(text, at, b"="),
        10 => text.extend(
            random
                .pick(&["=", "= ", "= X", "==", "= 333", "=\r\nRMK", "X"])
                .bytes(),
        ),
        11 => text.truncate(at),
        12 => {
            let word = format!(" {} ", random.pick(&STOP_WORDS));
            insert(text, at, word.as_bytes());
            text.push(allowed_byte(random));
        }
        _ => pad(random, text),
    }
}

fn insert(text: &mut Vec<u8>, at: usize, bytes: &[u8]) {
    let tail = text.split_off(at);
    text.extend(bytes);
    text.extend(tail);
}

/// Blanks at a blank or at the end, up to a length about the longest.
fn pad(random: &mut Random, text: &mut Vec<u8>) {
    let length = random.pick(&[2046, 2047, 2048, 2048, 2049, 2050, 4096]);
    let at = match text.iter().position(|&byte| byte == b' ') {
        Some(at) if random.one_in(2) => at,
        _ => text.len(),
    };
    let blanks = vec![b' '; usize::max(length, text.len()) - text.len()];
    insert(text, at, &blanks);
}

// ---------------------------------------------------------------------------------------------
// Random texts
// ---------------------------------------------------------------------------------------------

/// The shapes of SYNOP and SHIP: # is a figure or slash.
const SYNOPTIC_SHAPES: [&str; 22] = [
    "#####", "0####", "00###", "1####", "2####", "20###", "21###", "29###", "3####", "4####",
    "5####", "6####", "7####", "8####", "9####", "99###", "222##", "1////", "6////", "7////",
    "9////", "#////",
];

/// The shapes of METAR, SPECI and TAF: # is a figure or slash, @ a letter.
const AERODROME_SHAPES: [&str; 43] = [
    "######Z",
    "######",
    "####/####",
    "###V###",
    "####",
    "##/##",
    "M##/##",
    "M##/M##",
    "##/M##",
    "Q####",
    "PROB##",
    "FM######",
    "FM####",
    "TL####",
    "AT####",
    "#####KT",
    "######KT",
    "#####G##KT",
    "#####G###MPS",
    "VRB##KMH",
    "VRB##G##KT",
    "###P##KT",
    "###P###KMH",
    "VRBP##MPS",
    "VRBP99G##KT",
    "VRB##GP99KT",
    "##0P199GP###KMH",
    "R##/####",
    "R##@/####",
    "R##L/P####U",
    "R##/M####D",
    "FEW###",
    "SCT###CB",
    "BKN###TCU",
    "OVC###",
    "VV###",
    "########",
    "2445##9#",
    "##CLRD//",
    "@@@@",
    "@@@",
    "##",
    "#####",
];

/// The words of all reports.
const WORDS: [&str; 44] = [
    "AAXX",
    "BBXX",
    "METAR",
    "SPECI",
    "TAF",
    "COR",
    "AMD",
    "NIL",
    "CNL",
    "AUTO",
    "CAVOK",
    "SKC",
    "NSC",
    "NCD",
    "NSW",
    "//",
    "////",
    "/////",
    "/////KT",
    "Q////",
    "FEW///",
    "VV///",
    "RE//",
    "RE",
    "BECMG",
    "TEMPO",
    "PROB30",
    "PROB40",
    "PROB",
    "NOSIG",
    "SNOCLO",
    "WS",
    "RMK",
    "333",
    "444",
    "555",
    "9999",
    "0000",
    "00000KT",
    "P99KT",
    "NDV",
    "//////",
    "FEW010///",
    "/",
];

/// Table 4678, and some that are not in it.
const CODES: [&str; 34] = [
    "VC", "MI", "BC", "PR", "DR", "BL", "SH", "TS", "FZ", "DZ", "RA", "SN", "SG", "IC", "PL", "GR",
    "GS", "UP", "BR", "FG", "FU", "VA", "DU", "SA", "HZ", "PO", "SQ", "FC", "SS", "DS", "RE", "XX",
    "//", "R",
];

/// A group of a shape, usually one that the kind knows, or words or codes in any order.
fn shaped_group(random: &mut Random, kind: usize) -> String {
    let synoptic = (kind < 2) != random.one_in(8);
    if synoptic {
        let shape = random.pick(&SYNOPTIC_SHAPES);
        return fill(random, shape);
    }
    match random.below(8) {
        0 | 1 => random.pick(&WORDS).to_string(),
        2 | 3 => {
            let sign = random.pick(&["", "", "", "+", "-", "RE", "VC", "RE+", "+-"]);
            let count = random.pick(&[1, 1, 2, 2, 2, 3, 4, 5]);
            let codes: Vec<&str> = (0..count).map(|_| random.pick(&CODES)).collect();
            format!("{}{}", sign, codes.concat())
        }
        _ => {
            let shape = random.pick(&AERODROME_SHAPES);
            fill(random, shape)
        }
    }
}

/// A shape with figures, slashes and letters in their places.
fn fill(random: &mut Random, shape: &str) -> String {
    let letters: Vec<char> = ('A'..='Z').collect();
    let filled = shape.chars().map(|wanted| match wanted {
        '#' => random.figure_or_slash(),
        '@' => random.pick(&letters),
        fixed => fixed,
    });
    filled.collect()
}

/// Random bytes, allowed bytes, or a name (and the first groups of a valid report) before
/// random groups.
fn random_text(random: &mut Random, kind: usize) -> Vec<u8> {
    let length = match random.below(40) {
        0 => 0,
        1 => random.pick(&[2047, 2048, 2049]),
        _ => random.below(120),
    };
    match random.below(12) {
        0 => return (0..length).map(|_| random.below(256) as u8).collect(),
        1 => {
            let mut text = format!("{} ", NAMES[kind]).into_bytes();
            text.extend((0..length).map(|_| allowed_byte(random)));
            return text;
        }
        2 => return (0..length).map(|_| allowed_byte(random)).collect(),
        _ => {}
    }
    let mut groups = valid_groups(random, kind);
    let kept = 1 + random.below(groups.len());
    groups.truncate(kept);
    for _ in 0..random.below(8) {
        groups.push(match random.below(3) {
            0 => foreign_group(random, kind),
            _ => shaped_group(random, kind),
        });
    }
    lay_out(random, &groups)
}

fn main() -> std::io::Result<()> {
    let mut arguments = std::env::args().skip(1);
    let mut number = |default: u64| match arguments.next() {
        Some(argument) => argument.parse().unwrap_or(default),
        None => default,
    };
    let (seed, count) = (number(1), number(1000) as usize);
    let old = arguments.next().is_some_and(|argument| argument == "2005");
    let mut random = Random(seed, old);
    let mut output = std::io::BufWriter::new(std::io::stdout().lock());
    for index in 0..count {
        let kind = match index / 3 {
            report if old && report % 2 == 0 => NAMES.len() - 1,
            report => report % NAMES.len(),
        };
        let text = match index % 3 {
            0 => {
                let groups = valid_groups(&mut random, kind);
                lay_out(&mut random, &groups)
            }
            1 => damaged(&mut random, kind),
            _ => random_text(&mut random, kind),
        };
        let line: String = text.iter().map(|byte| format!("{:02x}", byte)).collect();
        writeln!(output, "{}", line)?;
    }
    output.flush()
}
