//! An independent reader and writer of weather report texts.
//!
//! Built from the papers alone. "The paper" is document 01, "ruling n" is point n of the
//! rulings on it; "request 1" is No. 1 of document 02, "ruling 1.n" point 1.n of the rulings
//! on that. The order of the file is the order of a reading: the record, the cutting of
//! the text, the walk over the places, the groups one by one, the three families of reports,
//! then the writer and the program.

use std::io::{Read, Write};

/// A refusal: its number in the paper's table and its place in the text.
pub type Refusal = (u8, usize);

/// The longest text: "A text has 1 to 2,048 bytes."
pub const LONGEST_TEXT: usize = 2048;

// ---------------------------------------------------------------------------------------------
// The record
// ---------------------------------------------------------------------------------------------

/// A report that was read.
#[derive(Debug, Clone, PartialEq)]
pub struct Report {
    pub content: Content,
    /// Where the unread rest begins: at the stop word, or the text's length where there is none.
    pub rest: usize,
}

#[derive(Debug, Clone, PartialEq)]
pub enum Content {
    Synoptic(Synoptic),
    Observation(Observation),
    Forecast(Forecast),
}

/// SYNOP or SHIP.
#[derive(Debug, Clone, PartialEq)]
pub struct Synoptic {
    pub origin: Origin,
    pub day: u32,
    pub hour: u32,
    /// iw: 0, 1 metres a second, 3, 4 knots.
    pub wind_indicator: u32,
    /// None in a land report that ended with NIL.
    pub section: Option<Section>,
    /// Blank where 333 is absent or has nothing to say.
    pub third: Third,
}

#[derive(Debug, Clone, PartialEq)]
pub enum Origin {
    Land {
        station: u32,
    },
    /// Latitude and longitude in tenths of a degree, north and east positive.
    Sea {
        call_sign: String,
        latitude: i32,
        longitude: i32,
    },
}

/// Section 1 of SYNOP and SHIP.
#[derive(Debug, Clone, Default, PartialEq)]
pub struct Section {
    /// iR, 0 to 4.
    pub rain_indicator: u32,
    /// ix, 1 to 7.
    pub weather_indicator: u32,
    /// h in metres.
    pub cloud_base: Option<u32>,
    /// VV: its scale of table 4377 and metres.
    pub visibility: Option<(Scale, u32)>,
    /// N.
    pub cloud_cover: Option<u32>,
    pub wind: Option<(Direction, u32)>,
    /// Tenths of a degree.
    pub temperature: Option<i32>,
    pub humidity: Option<Humidity>,
    /// Tenths of a hectopascal.
    pub station_pressure: Option<u32>,
    pub level: Option<Level>,
    /// The characteristic a, and the signed change in tenths of a hectopascal.
    pub tendency: Option<(u32, i32)>,
    pub rain: Option<Rain>,
    /// t of the rain.
    pub rain_period: Option<u32>,
    /// ww.
    pub present_weather: Option<u32>,
    /// W and W.
    pub past_weather: [Option<u32>; 2],
    /// N, C, C and C of the 8 group.
    pub clouds: [Option<u32>; 4],
    /// Hour and minute of the 9 group.
    pub observed: Option<(u32, u32)>,
}

/// Section 3 of SYNOP and SHIP (request 10).
#[derive(Debug, Clone, Default, PartialEq)]
pub struct Third {
    /// Tenths of a degree.
    pub maximum: Option<i32>,
    pub minimum: Option<i32>,
    pub layers: Vec<CloudLayer>,
}

/// 8NChh.
#[derive(Debug, Clone, Copy, PartialEq)]
pub struct CloudLayer {
    pub amount: Option<u32>,
    pub kind: Option<u32>,
    /// hh: its scale of table 1677 and metres.
    pub height: Option<(HeightScale, u32)>,
}

/// "The record names which of the two scales a layer uses".
#[derive(Debug, Clone, Copy, PartialEq)]
pub enum HeightScale {
    /// 00 to 89.
    Steps,
    /// 90 to 99.
    Bands,
}

/// The two scales of table 4377.
#[derive(Debug, Clone, Copy, PartialEq)]
pub enum Scale {
    Land,
    Sea,
}

/// "A record's direction is calm, variable, missing or 0-359"; missing is a None around it.
#[derive(Debug, Clone, Copy, PartialEq)]
pub enum Direction {
    Calm,
    Variable,
    Degrees(u32),
}

/// The 2 group: a dew point in tenths of a degree, or "29UUU instead".
#[derive(Debug, Clone, Copy, PartialEq)]
pub enum Humidity {
    DewPoint(i32),
    Relative(u32),
}

/// The 4 group: sea level pressure in tenths of a hectopascal, or a surface and its hhh.
#[derive(Debug, Clone, Copy, PartialEq)]
pub enum Level {
    SeaPressure(u32),
    Height { surface: u32, height: u32 },
}

/// "rain is trace or 0.1 to 9,999.9 mm", in tenths of a millimetre.
#[derive(Debug, Clone, Copy, PartialEq)]
pub enum Rain {
    Trace,
    Tenths(u32),
}

/// METAR or SPECI.
#[derive(Debug, Clone, Default, PartialEq)]
pub struct Observation {
    pub special: bool,
    pub corrected: bool,
    /// CCCC.
    pub location: String,
    pub time: Time,
    pub nil: bool,
    pub automatic: bool,
    pub elements: Elements,
    /// dddVddd.
    pub varying: Option<(u32, u32)>,
    pub runways: Vec<Runway>,
    /// Tenths of a degree.
    pub temperature: Option<i32>,
    pub dew_point: Option<i32>,
    /// Tenths of a hectopascal.
    pub pressure: Option<u32>,
    pub recent: Vec<Weather>,
    pub runway_state: RunwayState,
    pub trend: Trend,
}

/// The edition of the TAF code form: "chosen by the caller (the present one if none is named)".
#[derive(Debug, Clone, Copy, Default, PartialEq)]
pub enum Edition {
    #[default]
    Present,
    Of2005,
}

/// TAF.
#[derive(Debug, Clone, Default, PartialEq)]
pub struct Forecast {
    /// AMD or COR.
    pub correction: Option<&'static str>,
    /// CCCC.
    pub location: String,
    pub time: Time,
    pub nil: bool,
    pub period: Period,
    pub cancelled: bool,
    pub elements: Elements,
    pub changes: Vec<Change>,
}

/// Day, hour and minute.
#[derive(Debug, Clone, Copy, Default, PartialEq)]
pub struct Time {
    pub day: u32,
    pub hour: u32,
    pub minute: u32,
}

/// YYGG/YYGG; of 2005 Y1Y1G1G1G2G2 or GGGeGe, with one day or none. "In a record G2 is kept as
/// written, so 62 is 62" (ruling 9.5).
#[derive(Debug, Clone, Copy, Default, PartialEq)]
pub struct Period {
    pub from_day: Option<u32>,
    pub from_hour: u32,
    pub to_day: Option<u32>,
    pub to_hour: u32,
}

/// What an observation, a body of a forecast and one of a trend have in common.
#[derive(Debug, Clone, Default, PartialEq)]
pub struct Elements {
    pub wind: Option<Wind>,
    pub visibility: Option<Visibility>,
    pub weather: Vec<Weather>,
    pub clouds: Vec<Cloud>,
}

/// A wind; flow is None in the form of slashes and a unit.
#[derive(Debug, Clone, Copy, PartialEq)]
pub struct Wind {
    pub flow: Option<(Direction, Speed)>,
    pub gust: Option<Speed>,
    pub unit: Unit,
}

/// "either a number or "above" a number" (request 8); that of a SYNOP or SHIP is always a number.
#[derive(Debug, Clone, Copy, PartialEq)]
pub enum Speed {
    Number(u32),
    Above(u32),
}

/// A unit of speed.
#[derive(Debug, Clone, Copy, PartialEq)]
pub struct Unit {
    /// KT, MPS or KMH.
    pub letters: &'static str,
    /// The highest number that is written; a speed above it is P and this figure (request 8).
    pub highest: u32,
}

#[derive(Debug, Clone, Copy, PartialEq)]
pub enum Visibility {
    Missing,
    Metres(u32),
    Cavok,
}

#[derive(Debug, Clone, PartialEq)]
pub struct Runway {
    pub number: u32,
    /// L, C or R.
    pub side: Option<u8>,
    /// Metres; None where it was slashes.
    pub range: Option<u32>,
    /// U, D or N.
    pub tendency: Option<u8>,
}

/// "SNOCLO alone" or "Up to four groups", or nothing (request 13).
#[derive(Debug, Clone, Default, PartialEq)]
pub struct RunwayState {
    /// SNOCLO.
    pub closed_by_snow: bool,
    pub groups: Vec<StateOfRunway>,
}

/// A group of runway state.
#[derive(Debug, Clone, Copy, PartialEq)]
pub struct StateOfRunway {
    /// RR: 01-36, 51-86 the right-hand one, 88 all, 99 repeated from the last.
    pub runway: u32,
    /// None where it is CLRD//.
    pub contamination: Option<Contamination>,
}

/// "Any of the four after RR may be missing".
#[derive(Debug, Clone, Copy, PartialEq)]
pub struct Contamination {
    /// A figure of table 0919.
    pub deposit: Option<u32>,
    /// A figure of table 0519.
    pub extent: Option<u32>,
    pub depth: Option<Depth>,
    /// A figure of table 0366.
    pub braking: Option<u32>,
}

/// Table 1079.
#[derive(Debug, Clone, Copy, PartialEq)]
pub enum Depth {
    Millimetres(u32),
    /// 99.
    Closed,
}

/// A weather group: //, NSW or codes of table 4678.
#[derive(Debug, Clone, PartialEq)]
pub enum Weather {
    Missing,
    NoneSignificant,
    Codes {
        /// + or -.
        sign: Option<u8>,
        vicinity: bool,
        descriptor: Option<&'static str>,
        phenomena: Vec<&'static str>,
    },
}

/// A cloud group; heights in metres.
#[derive(Debug, Clone, PartialEq)]
pub enum Cloud {
    /// SKC, NSC or NCD.
    Clear(&'static str),
    Vertical(Option<u32>),
    Layer {
        amount: &'static str,
        height: Option<u32>,
        /// CB, TCU or nothing.
        close: &'static str,
    },
}

/// A change group and the body it opens.
#[derive(Debug, Clone, PartialEq)]
pub struct Change {
    pub opening: Opening,
    pub elements: Elements,
}

#[derive(Debug, Clone, Copy, PartialEq)]
pub enum Opening {
    Becoming(Period),
    Temporary(Period),
    Probable {
        percent: u32,
        temporary: bool,
        period: Period,
    },
    /// FMYYGGgg, or FMGGgg without a day.
    From(Option<u32>, Clock),
}

/// The trend of an observation: "NOSIG alone, or up to three of BECMG and TEMPO", or nothing.
#[derive(Debug, Clone, Default, PartialEq)]
pub struct Trend {
    /// NOSIG.
    pub none_significant: bool,
    pub changes: Vec<Expected>,
}

/// A change of a trend: its word, its times and the body it opens.
#[derive(Debug, Clone, Default, PartialEq)]
pub struct Expected {
    /// BECMG or TEMPO.
    pub word: &'static str,
    /// FM, TL and AT.
    pub from: Option<Clock>,
    pub until: Option<Clock>,
    pub at: Option<Clock>,
    pub elements: Elements,
}

/// GGgg: hour and minute.
#[derive(Debug, Clone, Copy, PartialEq)]
pub struct Clock {
    pub hour: u32,
    pub minute: u32,
}

// ---------------------------------------------------------------------------------------------
// How a text is cut: refusals 1, 2 and 3
// ---------------------------------------------------------------------------------------------

/// A group and its place.
struct Group<'a> {
    bytes: &'a [u8],
    at: usize,
}

/// A text cut into the groups before the first "=".
struct Cut<'a> {
    groups: Vec<Group<'a>>,
    /// The first byte after "=" that is no parting byte (ruling 3).
    after_end: Option<usize>,
    /// The text's length, "the place of an absence at the end" (ruling 7).
    length: usize,
}

impl Cut<'_> {
    /// The reading's end without a stop word: what follows "=" is 4. The answer is where the
    /// unread rest begins, the text's length.
    fn end(&self) -> Result<usize, Refusal> {
        match self.after_end {
            Some(at) => Err((4, at)),
            None => Ok(self.length),
        }
    }

    /// The refusal of a reading that ends too early: what follows "=" goes before the absence
    /// (ruling 2).
    fn absence(&self) -> Refusal {
        match self.end() {
            Err(refusal) => refusal,
            Ok(length) => (8, length),
        }
    }
}

/// "Groups are parted by one or more of space, CR, LF."
fn is_parting(byte: u8) -> bool {
    matches!(byte, b' ' | b'\r' | b'\n')
}

/// Refusal 2: "a byte that is not A-Z, 0-9, / + - = space CR LF".
fn is_allowed(byte: u8) -> bool {
    byte.is_ascii_uppercase()
        || byte.is_ascii_digit()
        || matches!(byte, b'/' | b'+' | b'-' | b'=')
        || is_parting(byte)
}

/// Refusals 1 and 2, "judged over the whole text in that order".
fn judge_bytes(text: &[u8]) -> Result<(), Refusal> {
    if text.is_empty() || text.len() > LONGEST_TEXT {
        return Err((1, 0));
    }
    match text.iter().position(|&byte| !is_allowed(byte)) {
        Some(at) => Err((2, at)),
        None => Ok(()),
    }
}

fn cut(text: &[u8]) -> Cut<'_> {
    let end = text.iter().position(|&byte| byte == b'=');
    let report = &text[..end.unwrap_or(text.len())];
    let mut groups = Vec::new();
    let mut at = 0;
    for bytes in report.split(|&byte| is_parting(byte)) {
        if !bytes.is_empty() {
            groups.push(Group { bytes, at });
        }
        at += bytes.len() + 1;
    }
    let after_end = end.and_then(|end| {
        let found = text[end + 1..].iter().position(|&byte| !is_parting(byte));
        found.map(|distance| end + 1 + distance)
    });
    Cut {
        groups,
        after_end,
        length: text.len(),
    }
}

/// Reads a text into its record, or refuses it; a TAF in the present edition.
pub fn read(text: &[u8]) -> Result<Report, Refusal> {
    read_in(Edition::Present, text)
}

/// Reads a text, a TAF in an edition; "a caller who names 2005 for" other kinds "reads and writes
/// them as ever" (ruling 9.1).
pub fn read_in(edition: Edition, text: &[u8]) -> Result<Report, Refusal> {
    judge_bytes(text)?;
    let cut = cut(text);
    // Refusal 3: "its place, 0 if no group stands before an "=" or the end".
    let name = cut.groups.first().ok_or((3, 0))?;
    match name.bytes {
        b"AAXX" => read_land(&cut),
        b"BBXX" => read_ship(&cut),
        b"METAR" => read_observation(&cut, false),
        b"SPECI" => read_observation(&cut, true),
        b"TAF" => read_forecast(&cut, edition),
        _ => Err((3, name.at)),
    }
}

// ---------------------------------------------------------------------------------------------
// Shapes: "the fixed characters, with any figures or slashes where figures go"
// ---------------------------------------------------------------------------------------------

fn is_figure(byte: u8) -> bool {
    byte.is_ascii_digit() || byte == b'/'
}

fn all_figures(bytes: &[u8]) -> bool {
    bytes.iter().all(|&byte| is_figure(byte))
}

fn all_slashes(bytes: &[u8]) -> bool {
    bytes.iter().all(|&byte| byte == b'/')
}

/// Whether a group fits a pattern: # is a figure or slash, @ a letter, the rest is fixed.
fn fits(pattern: &str, group: &[u8]) -> bool {
    pattern.len() == group.len()
        && pattern
            .bytes()
            .zip(group)
            .all(|(wanted, &byte)| match wanted {
                b'#' => is_figure(byte),
                b'@' => byte.is_ascii_uppercase(),
                fixed => fixed == byte,
            })
}

fn is_five_figures(group: &[u8]) -> bool {
    fits("#####", group)
}

/// The call sign: letters and figures, no slash (ruling 14).
fn is_call_sign(group: &[u8]) -> bool {
    (3..=9).contains(&group.len())
        && group
            .iter()
            .all(|byte| byte.is_ascii_uppercase() || byte.is_ascii_digit())
}

/// The 99 is fixed (ruling 13).
fn is_latitude(group: &[u8]) -> bool {
    fits("99###", group)
}

fn take_letter<'a>(bytes: &'a [u8], letters: &[u8]) -> (Option<u8>, &'a [u8]) {
    match bytes.split_first() {
        Some((first, rest)) if letters.contains(first) => (Some(*first), rest),
        _ => (None, bytes),
    }
}

const fn unit(letters: &'static str, highest: u32) -> Unit {
    Unit { letters, highest }
}

/// "P99KT, P49MPS and P199KMH".
const KNOTS: Unit = unit("KT", 99);
const METRES_A_SECOND: Unit = unit("MPS", 49);
const KILOMETRES_AN_HOUR: Unit = unit("KMH", 199);
const UNITS: [Unit; 3] = [KNOTS, METRES_A_SECOND, KILOMETRES_AN_HOUR];

struct WindParts<'a> {
    direction: &'a [u8],
    speed: &'a [u8],
    gust: Option<&'a [u8]>,
    unit: Unit,
}

/// Two or three figures of speed are the shape, of the gust too (ruling 32), and so they are
/// after P (ruling 8.2).
fn is_speed(bytes: &[u8]) -> bool {
    let (_, figures) = take_letter(bytes, b"P");
    (figures.len() == 2 || figures.len() == 3) && all_figures(figures)
}

fn split_wind(group: &[u8]) -> Option<WindParts<'_>> {
    let mut units = UNITS.iter().copied();
    let unit = units.find(|unit| group.ends_with(unit.letters.as_bytes()))?;
    let front = &group[..group.len() - unit.letters.len()];
    let (mean, gust) = match front.iter().position(|&byte| byte == b'G') {
        Some(at) => (&front[..at], Some(&front[at + 1..])),
        None => (front, None),
    };
    let (direction, speed) = mean.split_at_checked(3)?;
    let right = (direction == b"VRB" || all_figures(direction))
        && is_speed(speed)
        && gust.is_none_or(is_speed);
    right.then_some(WindParts {
        direction,
        speed,
        gust,
        unit,
    })
}

struct RunwayParts<'a> {
    number: &'a [u8],
    side: Option<u8>,
    bound: Option<u8>,
    range: &'a [u8],
    tendency: Option<u8>,
}

/// "R, runway 01-36 with or without L, C or R, a stroke, the range or ////, and U, D, N or
/// nothing"; M and P are fixed characters that figures follow (ruling 35).
fn split_runway(group: &[u8]) -> Option<RunwayParts<'_>> {
    let rest = group.strip_prefix(b"R")?;
    let (number, rest) = rest.split_at_checked(2)?;
    let (side, rest) = take_letter(rest, b"LCR");
    let rest = rest.strip_prefix(b"/")?;
    let (bound, rest) = take_letter(rest, b"MP");
    let (range, rest) = rest.split_at_checked(4)?;
    let (tendency, rest) = take_letter(rest, b"UDN");
    let right = rest.is_empty() && all_figures(number) && all_figures(range);
    right.then_some(RunwayParts {
        number,
        side,
        bound,
        range,
        tendency,
    })
}

/// One temperature: whether M stands before it, and its two figures.
type TemperatureParts<'a> = (bool, &'a [u8]);

fn split_temperatures(group: &[u8]) -> Option<(TemperatureParts<'_>, TemperatureParts<'_>)> {
    let (first_minus, rest) = take_letter(group, b"M");
    let (first, rest) = rest.split_at_checked(2)?;
    let rest = rest.strip_prefix(b"/")?;
    let (second_minus, second) = take_letter(rest, b"M");
    let right = second.len() == 2 && all_figures(first) && all_figures(second);
    right.then_some((
        (first_minus.is_some(), first),
        (second_minus.is_some(), second),
    ))
}

/// Table 4678: VC, the descriptors, the precipitations, and the other phenomena.
const VICINITY: [&str; 1] = ["VC"];
const DESCRIPTORS: [&str; 8] = ["MI", "BC", "PR", "DR", "BL", "SH", "TS", "FZ"];
const PRECIPITATIONS: [&str; 9] = ["DZ", "RA", "SN", "SG", "IC", "PL", "GR", "GS", "UP"];
const OTHER_PHENOMENA: [&str; 12] = [
    "BR", "FG", "FU", "VA", "DU", "SA", "HZ", "PO", "SQ", "FC", "SS", "DS",
];

fn table_code(bytes: &[u8]) -> Option<&'static str> {
    let columns: [&[&'static str]; 4] =
        [&VICINITY, &DESCRIPTORS, &PRECIPITATIONS, &OTHER_PHENOMENA];
    columns.iter().find_map(|column| word_of(column, bytes))
}

/// "an optional sign, then any number of two-letter codes of table 4678, VC being one of them,
/// in any order" (ruling 24); a sign elsewhere or alone is no shape (ruling 25).
fn split_weather(group: &[u8]) -> Option<(Option<u8>, Vec<&'static str>)> {
    let (sign, rest) = take_letter(group, b"+-");
    if rest.is_empty() {
        return None;
    }
    let codes: Option<Vec<_>> = rest.chunks(2).map(table_code).collect();
    codes.map(|codes| (sign, codes))
}

/// RE and the shape of weather; RE// is no shape (ruling 29).
fn split_recent(group: &[u8]) -> Option<(Option<u8>, Vec<&'static str>)> {
    group.strip_prefix(b"RE").and_then(split_weather)
}

const CLEAR_WORDS: [&str; 3] = ["SKC", "NSC", "NCD"];
const AMOUNTS: [&str; 4] = ["FEW", "SCT", "BKN", "OVC"];
const CLOSES: [&str; 3] = ["", "CB", "TCU"];

fn word_of(words: &[&'static str], bytes: &[u8]) -> Option<&'static str> {
    words.iter().copied().find(|word| word.as_bytes() == bytes)
}

enum CloudParts<'a> {
    Clear(&'static str),
    Vertical(&'a [u8]),
    Layer(&'static str, &'a [u8], &'static str),
}

/// "A layer is FEW, SCT, BKN or OVC with hhh and may close with CB or TCU", also after slashes
/// (ruling 37); or SKC, NSC, NCD or VVhhh.
fn split_cloud(group: &[u8]) -> Option<CloudParts<'_>> {
    if let Some(word) = word_of(&CLEAR_WORDS, group) {
        return Some(CloudParts::Clear(word));
    }
    if fits("VV###", group) {
        return Some(CloudParts::Vertical(&group[2..]));
    }
    let (amount, rest) = group.split_at_checked(3)?;
    let (height, close) = rest.split_at_checked(3)?;
    let (amount, close) = (word_of(&AMOUNTS, amount)?, word_of(&CLOSES, close)?);
    all_figures(height).then_some(CloudParts::Layer(amount, height, close))
}

/// "Eight figures or slashes; two figures or slashes and CLRD//, whose strokes are fixed" (ruling
/// 13.1).
fn is_state_of_runway(group: &[u8]) -> bool {
    fits("########", group) || is_cleared(group)
}

fn is_cleared(group: &[u8]) -> bool {
    fits("##CLRD//", group)
}

const TREND_WORDS: [&str; 2] = ["BECMG", "TEMPO"];

fn is_trend_word(group: &[u8]) -> bool {
    word_of(&TREND_WORDS, group).is_some()
}

/// PROB is fixed and figures follow (ruling 42). "The other edition's forms" of FM have no shape
/// (ruling 9.2).
fn is_change(edition: Edition, group: &[u8]) -> bool {
    let from = match edition {
        Edition::Present => "FM######",
        Edition::Of2005 => "FM####",
    };
    is_trend_word(group) || fits("PROB##", group) || fits(from, group)
}

/// YYGG/YYGG; "the period as Y1Y1G1G1G2G2"; "change periods as GGGeGe".
#[derive(Clone, Copy, PartialEq)]
enum PeriodForm {
    TwoDays,
    OneDay,
    NoDay,
}

/// The form of the report's own period, and that of a change group's.
fn period_forms(edition: Edition) -> [PeriodForm; 2] {
    match edition {
        Edition::Present => [PeriodForm::TwoDays, PeriodForm::TwoDays],
        Edition::Of2005 => [PeriodForm::OneDay, PeriodForm::NoDay],
    }
}

// ---------------------------------------------------------------------------------------------
// The places: refusals 4, 6, 8 and 9
// ---------------------------------------------------------------------------------------------

/// What may stand at a place.
#[derive(Clone, Copy, PartialEq)]
enum Slot {
    HighSpeed,
    /// A group of section 1, by its first figure.
    Numbered(u8),
    ObservationName,
    ForecastName,
    Corrected,
    AmendedOrCorrected,
    Location,
    IssueTime,
    Nil,
    Automatic,
    Wind,
    Varying,
    Visibility,
    RunwayRange,
    Weather,
    Cloud,
    Temperatures,
    Pressure,
    Recent,
    Snoclo,
    StateOfRunway,
    Nosig,
    TrendWord,
    /// Any of the three times.
    TrendTime,
    At,
    From,
    Until,
    Period(PeriodForm),
    Cancelled,
    Change(Edition),
    Temporary,
}

/// The times of a trend, "FM, TL or AT and GGgg"; AT first, as it closes the other two.
const TREND_TIMES: [Slot; 3] = [Slot::At, Slot::From, Slot::Until];

fn has_shape(slot: Slot, group: &[u8]) -> bool {
    match slot {
        Slot::HighSpeed => fits("00###", group),
        Slot::Numbered(figure) => is_five_figures(group) && group[0] == figure,
        // The name a second time has a shape, SPECI in a METAR too (ruling 9).
        Slot::ObservationName => group == b"METAR" || group == b"SPECI",
        Slot::ForecastName => group == b"TAF",
        Slot::Corrected => group == b"COR",
        Slot::AmendedOrCorrected => group == b"AMD" || group == b"COR",
        // Any four letters (ruling 11).
        Slot::Location => fits("@@@@", group),
        Slot::IssueTime => fits("######Z", group),
        Slot::Nil => group == b"NIL",
        Slot::Automatic => group == b"AUTO",
        Slot::Wind => split_wind(group).is_some(),
        Slot::Varying => fits("###V###", group),
        Slot::Visibility => group == b"CAVOK" || fits("####", group),
        Slot::RunwayRange => split_runway(group).is_some(),
        // NSW too, in the observation itself (ruling 1.1).
        Slot::Weather => matches!(group, b"//" | b"NSW") || split_weather(group).is_some(),
        Slot::Cloud => split_cloud(group).is_some(),
        Slot::Temperatures => split_temperatures(group).is_some(),
        Slot::Pressure => fits("Q####", group),
        Slot::Recent => split_recent(group).is_some(),
        Slot::Snoclo => group == b"SNOCLO",
        Slot::StateOfRunway => is_state_of_runway(group),
        Slot::Nosig => group == b"NOSIG",
        Slot::TrendWord => is_trend_word(group),
        Slot::TrendTime => TREND_TIMES.iter().any(|&time| has_shape(time, group)),
        Slot::At => fits("AT####", group),
        Slot::From => fits("FM####", group),
        Slot::Until => fits("TL####", group),
        Slot::Period(PeriodForm::TwoDays) => fits("####/####", group),
        Slot::Period(PeriodForm::OneDay) => fits("######", group),
        Slot::Period(PeriodForm::NoDay) => fits("####", group),
        Slot::Cancelled => group == b"CNL",
        Slot::Change(edition) => is_change(edition, group),
        Slot::Temporary => group == b"TEMPO",
    }
}

#[derive(Clone, Copy)]
struct Place {
    slot: Slot,
    required: bool,
    limit: usize,
    taken: usize,
}

fn one(slot: Slot, required: bool) -> Place {
    Place {
        slot,
        required,
        limit: 1,
        taken: 0,
    }
}

fn up_to(limit: usize, slot: Slot) -> Place {
    Place {
        slot,
        required: false,
        limit,
        taken: 0,
    }
}

/// The walk over the places of a report: "taken at the first place still open whose shape it
/// has".
struct Walk {
    places: Vec<Place>,
    /// The first place still open; the places before it are closed.
    open: usize,
    /// NIL or CNL has stood.
    ended: bool,
    /// A change body that has no element yet: "A change body needs one element".
    element_due: bool,
}

impl Walk {
    fn over(places: Vec<Place>, open: usize) -> Walk {
        Walk {
            places,
            open,
            ended: false,
            element_due: false,
        }
    }

    /// Takes a group at its place, or says 4, 6, 8 or 9, in the table's order.
    fn take(&mut self, group: &[u8]) -> Result<Slot, u8> {
        if self.ended {
            return Err(4);
        }
        let fitting = |place: &Place| has_shape(place.slot, group);
        let Some(distance) = self.places[self.open..].iter().position(fitting) else {
            let known = self.places.iter().any(fitting);
            return Err(if known { 6 } else { 4 });
        };
        let index = self.open + distance;
        let slot = self.places[index].slot;
        if self.required_before(index) || (ends_body(slot) && self.element_due) {
            return Err(8);
        }
        let place = &mut self.places[index];
        if place.taken == place.limit {
            return Err(9);
        }
        place.taken += 1;
        // A place that repeats stays open, also when full (ruling 10).
        self.open = if place.limit > 1 { index } else { index + 1 };
        self.follow(slot, index, group);
        Ok(slot)
    }

    /// What a taken group does to the places after it.
    fn follow(&mut self, slot: Slot, index: usize, group: &[u8]) {
        match slot {
            Slot::Nil | Slot::Cancelled => self.ended = true,
            Slot::Wind | Slot::Visibility | Slot::Weather | Slot::Cloud => {
                self.element_due = false;
            }
            Slot::Change(edition) => self.open_change(index, edition, group),
            // After a group SNOCLO has a place, at which it is 7 (ruling 13.5); a second one
            // has none (ruling 13.4).
            Slot::StateOfRunway if self.places[index].taken == 1 => {
                self.places.insert(index + 1, one(Slot::Snoclo, false));
            }
            Slot::TrendWord => self.open_trend(index),
            // "AT alone": the places of FM and TL are closed with its own.
            Slot::At => self.open = index + TREND_TIMES.len(),
            _ => {}
        }
    }

    /// "A change group opens a body and a body runs to the next change group."
    fn open_change(&mut self, index: usize, edition: Edition, word: &[u8]) {
        let from = word.starts_with(b"FM");
        if word.starts_with(b"PROB") {
            self.places.push(one(Slot::Temporary, false));
        }
        if !from {
            // In 2005 four figures are the period first (ruling 9.3).
            self.places.push(one(Slot::Period(period_forms(edition)[1]), true));
        }
        self.open_body(index, from);
        self.places.push(self.places[index]);
    }

    /// "each with up to two times (..; AT alone, FM written before TL ..)" at once after the
    /// word (ruling 1.9). After the body NOSIG has a place, at which it is 7 (ruling 1.4).
    fn open_trend(&mut self, index: usize) {
        self.places.extend(TREND_TIMES.map(|time| one(time, false)));
        self.open_body(index, false);
        self.places.push(one(Slot::Nosig, false));
        self.places.push(self.places[index]);
    }

    /// The places of a body after what opens it, which the change at the index has pushed. The
    /// limit of changes is of the report, so that the next one's place keeps its count; each
    /// body has its own 3 and 4 (rulings 48 and 1.16).
    fn open_body(&mut self, index: usize, from: bool) {
        // "under FM wind and visibility"
        self.places.push(one(Slot::Wind, from));
        self.places.push(one(Slot::Visibility, from));
        self.places.push(up_to(3, Slot::Weather));
        self.places.push(up_to(4, Slot::Cloud));
        self.open = index + 1;
        self.element_due = true;
    }

    fn required_before(&self, index: usize) -> bool {
        let passed = &self.places[self.open..index];
        passed.iter().any(|place| place.required)
    }

    /// Whether the reading may not end here.
    fn absent(&self) -> bool {
        !self.ended && (self.required_before(self.places.len()) || self.element_due)
    }
}

/// Where a change body without an element is refused: at the next change word (ruling 45), in
/// a trend at NOSIG too (ruling 1.5).
fn ends_body(slot: Slot) -> bool {
    matches!(slot, Slot::Change(_) | Slot::TrendWord | Slot::Nosig)
}

/// "METAR or SPECI, [COR], CCCC, YYGGggZ, then NIL (end) or [AUTO], wind, [dddVddd], visibility,
/// up to 4 runway ranges, 3 weather groups, 4 cloud groups, T/Td, Q, up to 3 RE groups"; then
/// the runway state, "after RE and before the trend", and the trend. A time outside a trend is 6 from the name on (ruling 1.8): its place comes before
/// all others.
fn observation_places() -> Vec<Place> {
    vec![
        one(Slot::TrendTime, false),
        one(Slot::ObservationName, true),
        one(Slot::Corrected, false),
        one(Slot::Location, true),
        one(Slot::IssueTime, true),
        one(Slot::Nil, false),
        one(Slot::Automatic, false),
        one(Slot::Wind, true),
        one(Slot::Varying, false),
        one(Slot::Visibility, true),
        up_to(4, Slot::RunwayRange),
        up_to(3, Slot::Weather),
        up_to(4, Slot::Cloud),
        one(Slot::Temperatures, true),
        one(Slot::Pressure, true),
        up_to(3, Slot::Recent),
        one(Slot::Snoclo, false),
        up_to(4, Slot::StateOfRunway),
        one(Slot::Nosig, false),
        up_to(3, Slot::TrendWord),
    ]
}

/// "TAF, [AMD or COR], CCCC, YYGGggZ, NIL (end) or YYGG/YYGG, CNL (end) or wind, visibility or
/// CAVOK, up to 3 weather, 4 cloud and 16 change groups".
fn forecast_places(edition: Edition) -> Vec<Place> {
    vec![
        one(Slot::ForecastName, true),
        one(Slot::AmendedOrCorrected, false),
        one(Slot::Location, true),
        one(Slot::IssueTime, true),
        one(Slot::Nil, false),
        one(Slot::Period(period_forms(edition)[0]), true),
        one(Slot::Cancelled, false),
        one(Slot::Wind, true),
        one(Slot::Visibility, true),
        up_to(3, Slot::Weather),
        up_to(4, Slot::Cloud),
        up_to(16, Slot::Change(edition)),
    ]
}

/// Section 1 after Nddff: 00fff at once, then the groups "by rising first figure". The groups
/// through Nddff lend no shape (ruling 15).
fn section_places(section: &Section) -> Vec<Place> {
    // "ff 99 without it is 8", at the group that comes instead (ruling 17).
    let high_speed = matches!(section.wind, Some((_, 99)));
    let mut places = vec![one(Slot::HighSpeed, high_speed)];
    for figure in b'1'..=b'9' {
        let required = match figure {
            b'6' => wants_rain(section),
            b'7' => wants_weather(section),
            _ => false,
        };
        places.push(one(Slot::Numbered(figure), required));
    }
    places
}

/// "iR 0 or 1 requires the 6 group".
fn wants_rain(section: &Section) -> bool {
    section.rain_indicator <= 1
}

/// "ix 1, 4 or 7 the 7 group".
fn wants_weather(section: &Section) -> bool {
    matches!(section.weather_indicator, 1 | 4 | 7)
}

/// Walks the groups from an index on, "left to right and the first at fault answers". The
/// answer is where the unread rest begins.
fn walk_groups(
    cut: &Cut,
    from: usize,
    walk: &mut Walk,
    stops: fn(&[u8]) -> bool,
    take: &mut dyn FnMut(Slot, &[u8]) -> Result<(), u8>,
) -> Result<usize, Refusal> {
    for group in cut.groups.get(from..).unwrap_or_default() {
        // After NIL or CNL a stop word is 4 too.
        if !walk.ended && stops(group.bytes) {
            let absent = walk.absent();
            return if absent {
                Err((8, group.at))
            } else {
                Ok(group.at)
            };
        }
        let placed = walk.take(group.bytes);
        let read = placed.and_then(|slot| take(slot, group.bytes));
        read.map_err(|number| (number, group.at))?;
    }
    if walk.absent() {
        return Err(cut.absence());
    }
    cut.end()
}

/// "222 with two more characters, 333, 444 or 555" (ruling 6).
fn stops_synoptic(group: &[u8]) -> bool {
    matches!(group, b"333" | b"444" | b"555") || (group.len() == 5 && group.starts_with(b"222"))
}

/// "WS and RMK still do" (request 1), from the second group on (ruling 5).
fn stops_observation(group: &[u8]) -> bool {
    matches!(group, b"WS" | b"RMK")
}

/// A TAF has no stop words.
fn never_stops(_group: &[u8]) -> bool {
    false
}

// ---------------------------------------------------------------------------------------------
// Figures: refusal 5
// ---------------------------------------------------------------------------------------------

/// A part that may be missing: "Missing is slashes, as many as letters"; a mixture is 5.
fn optional(bytes: &[u8]) -> Result<Option<u32>, u8> {
    if all_slashes(bytes) {
        return Ok(None);
    }
    required(bytes).map(Some)
}

/// A part that is never missing.
fn required(bytes: &[u8]) -> Result<u32, u8> {
    let mut value = 0;
    for byte in bytes {
        if !byte.is_ascii_digit() {
            return Err(5);
        }
        value = value * 10 + u32::from(byte - b'0');
    }
    Ok(value)
}

fn within(bytes: &[u8], least: u32, most: u32) -> Result<u32, u8> {
    let value = required(bytes)?;
    if (least..=most).contains(&value) {
        Ok(value)
    } else {
        Err(5)
    }
}

// ---------------------------------------------------------------------------------------------
// The scales: each a list of codes and the feet of their classes, rising
// ---------------------------------------------------------------------------------------------

type Classes = Vec<(u32, u32)>;

/// 4377 land: 51 to 55 none; 89 is read 70,001.
fn land_classes() -> Classes {
    let mut classes: Classes = (0..=50).map(|code| (code, code * 100)).collect();
    classes.extend((56..=80).map(|code| (code, (code - 50) * 1000)));
    classes.extend((81..=88).map(|code| (code, 30_000 + (code - 80) * 5000)));
    classes.push((89, 70_001));
    classes
}

/// 4377 sea.
fn sea_classes() -> Classes {
    let feet = [0, 50, 200, 500, 1000, 2000, 4000, 10_000, 20_000, 50_000];
    (90..).zip(feet).collect()
}

fn classes_of(scale: Scale) -> Classes {
    match scale {
        Scale::Land => land_classes(),
        Scale::Sea => sea_classes(),
    }
}

/// 1600.
fn base_classes() -> Classes {
    let feet = [0, 50, 100, 200, 300, 600, 1000, 1500, 2000, 2500];
    (0..).zip(feet).collect()
}

/// 1677: 51 to 55 unused, 89 is read 21,001; 90 to 99 "with the feet of document 01's h scale".
fn layer_classes(scale: HeightScale) -> Classes {
    match scale {
        HeightScale::Steps => {
            let mut classes: Classes = (0..=50).map(|code| (code, code * 30)).collect();
            classes.extend((56..=80).map(|code| (code, 1800 + (code - 56) * 300)));
            classes.extend((81..=88).map(|code| (code, 10_500 + (code - 81) * 1500)));
            classes.push((89, 21_001));
            classes
        }
        HeightScale::Bands => {
            let classes = base_classes().into_iter();
            classes.map(|(code, foot)| (90 + code, foot)).collect()
        }
    }
}

/// VVVV.
fn visibility_classes() -> Classes {
    let mut classes: Classes = (0..=800).step_by(50).map(|foot| (foot, foot)).collect();
    classes.extend((900..=5000).step_by(100).map(|foot| (foot, foot)));
    classes.extend((6000..=9000).step_by(1000).map(|foot| (foot, foot)));
    classes.push((9999, 10_000));
    classes
}

/// RVR without M0050 and P2000.
fn runway_classes() -> Classes {
    let mut classes: Classes = (50..=400).step_by(25).map(|foot| (foot, foot)).collect();
    classes.extend((450..=800).step_by(50).map(|foot| (foot, foot)));
    classes.extend((900..=2000).step_by(100).map(|foot| (foot, foot)));
    classes
}

/// 1690: 110 is 3,300 m, not eleven steps of 30 m.
fn height_classes() -> Classes {
    let mut classes: Classes = (0..=100).map(|code| (code, code * 30)).collect();
    classes.extend((110..=990).step_by(10).map(|code| (code, code * 30)));
    classes.push((999, 30_000));
    classes
}

/// 1079, in millimetres: "92 to 98 as 100 to 400 by 50, 98 open"; 91 is reserved, and 99 is no
/// depth (ruling 13.9).
fn depth_classes() -> Classes {
    let mut classes: Classes = (0..=90).map(|code| (code, code)).collect();
    classes.extend((92..=98).map(|code| (code, 100 + (code - 92) * 50)));
    classes
}

/// "read as the foot"; a code that is not in the table is 5.
fn foot_of(classes: &Classes, code: u32) -> Result<u32, u8> {
    let found = classes.iter().find(|class| class.0 == code);
    found.map(|class| class.1).ok_or(5)
}

/// "A value's class has the greatest foot not above it".
fn code_of(classes: &Classes, value: u32) -> u32 {
    let feet = classes.iter().take_while(|class| class.1 <= value);
    feet.last().map_or(classes[0].0, |class| class.0)
}

// ---------------------------------------------------------------------------------------------
// SYNOP and SHIP
// ---------------------------------------------------------------------------------------------

/// Reads the group at an index "by position alone (another shape: 4)".
fn at_position<T>(
    cut: &Cut,
    index: usize,
    shape: fn(&[u8]) -> bool,
    reading: fn(&[u8]) -> Result<T, u8>,
) -> Result<T, Refusal> {
    let group = cut.groups.get(index).ok_or(cut.absence())?;
    if !shape(group.bytes) {
        return Err((4, group.at));
    }
    reading(group.bytes).map_err(|number| (number, group.at))
}

/// AAXX YYGGiw IIiii, then NIL or section 1.
fn read_land(cut: &Cut) -> Result<Report, Refusal> {
    let (day, hour, wind_indicator) = at_position(cut, 1, is_five_figures, read_date)?;
    let station = at_position(cut, 2, is_five_figures, required)?;
    let nil = cut.groups.get(3).is_some_and(|group| group.bytes == b"NIL");
    let (section, third, rest) = if nil {
        // "a group .. after NIL or CNL, a stop word too" is 4.
        if let Some(group) = cut.groups.get(4) {
            return Err((4, group.at));
        }
        (None, Third::default(), cut.end()?)
    } else {
        let (section, third, rest) = read_section(cut, 3)?;
        (Some(section), third, rest)
    };
    let content = Content::Synoptic(Synoptic {
        origin: Origin::Land { station },
        day,
        hour,
        wind_indicator,
        section,
        third,
    });
    Ok(Report { content, rest })
}

/// BBXX, a call sign, YYGGiw, 99LaLaLa, QcLoLoLoLo, then section 1; NIL is of a land report
/// only (ruling 8).
fn read_ship(cut: &Cut) -> Result<Report, Refusal> {
    let call_sign = at_position(cut, 1, is_call_sign, read_letters)?;
    let (day, hour, wind_indicator) = at_position(cut, 2, is_five_figures, read_date)?;
    let latitude = at_position(cut, 3, is_latitude, read_latitude)?;
    let (south, west, longitude) = at_position(cut, 4, is_five_figures, read_longitude)?;
    let (section, third, rest) = read_section(cut, 5)?;
    let origin = Origin::Sea {
        call_sign,
        latitude: if south { -latitude } else { latitude },
        // "180.0 W is read as 180.0 E"
        longitude: if west && longitude != 1800 {
            -longitude
        } else {
            longitude
        },
    };
    let content = Content::Synoptic(Synoptic {
        origin,
        day,
        hour,
        wind_indicator,
        section: Some(section),
        third,
    });
    Ok(Report { content, rest })
}

fn read_letters(group: &[u8]) -> Result<String, u8> {
    Ok(group.iter().map(|&byte| char::from(byte)).collect())
}

/// YYGGiw: "YY 01-31, GG 00-23, iw 0, 1 (m/s), 3, 4 (knots)".
fn read_date(group: &[u8]) -> Result<(u32, u32, u32), u8> {
    let day = within(&group[..2], 1, 31)?;
    let hour = within(&group[2..4], 0, 23)?;
    let wind_indicator = within(&group[4..], 0, 4)?;
    if wind_indicator == 2 {
        return Err(5);
    }
    Ok((day, hour, wind_indicator))
}

/// 99LaLaLa: "Latitude 000-900 .. in tenths".
fn read_latitude(group: &[u8]) -> Result<i32, u8> {
    within(&group[2..], 0, 900).map(|tenths| tenths as i32)
}

/// QcLoLoLoLo: whether it is south, whether it is west, and the tenths.
fn read_longitude(group: &[u8]) -> Result<(bool, bool, i32), u8> {
    let (south, west) = match group[0] {
        b'1' => (false, false),
        b'3' => (true, false),
        b'5' => (true, true),
        b'7' => (false, true),
        _ => return Err(5),
    };
    let tenths = within(&group[1..], 0, 1800)?;
    Ok((south, west, tenths as i32))
}

/// Section 1, from the index of iRixhVV on, and section 3: "Group 333 no longer stops reading".
fn read_section(cut: &Cut, index: usize) -> Result<(Section, Third, usize), Refusal> {
    let mut section = at_position(cut, index, is_five_figures, read_indicators)?;
    let (cover, wind) = at_position(cut, index + 1, is_five_figures, read_cover_and_wind)?;
    section.cloud_cover = cover;
    section.wind = wind;
    let mut walk = Walk::over(section_places(&section), 0);
    let mut take = |slot, group: &[u8]| take_in_section(&mut section, slot, group);
    let rest = walk_groups(cut, index + 2, &mut walk, stops_synoptic, &mut take)?;
    let word = cut.groups.iter().position(|group| group.at == rest);
    match word {
        Some(word) if cut.groups[word].bytes == b"333" => {
            let (third, rest) = read_third(cut, word + 1)?;
            Ok((section, third, rest))
        }
        _ => Ok((section, Third::default(), rest)),
    }
}

/// Section 3, from the index after 333 on: "222 before or inside it, 444, 555, a second 333 and any
/// group inside 333 with none of these three shapes" stop the reading; it is no 4 (ruling 10.4).
fn read_third(cut: &Cut, from: usize) -> Result<(Third, usize), Refusal> {
    let mut third = Third::default();
    let mut reached = 0;
    for group in &cut.groups[from..] {
        let order = b"128".iter().position(|first| group.bytes[0] == *first);
        let (Some(order), true) = (order, is_five_figures(group.bytes)) else {
            return Ok((third, group.at));
        };
        if stops_synoptic(group.bytes) {
            return Ok((third, group.at));
        }
        // "the three keep to refusal 6": only 8NChh may stand again.
        if order + 1 < reached || (order + 1 == reached && order < 2) {
            return Err((6, group.at));
        }
        reached = order + 1;
        take_in_third(&mut third, group.bytes).map_err(|number| (number, group.at))?;
    }
    Ok((third, cut.end()?))
}

/// A group of slashes reads as absent, yet it has stood (ruling 10.2); "8//// is no layer".
fn take_in_third(third: &mut Third, group: &[u8]) -> Result<(), u8> {
    if all_slashes(&group[1..]) {
        return Ok(());
    }
    match group[0] {
        b'1' => third.maximum = Some(read_signed(group)?),
        b'2' => third.minimum = Some(read_signed(group)?),
        _ => {
            // "a fifth layer is 9", before 5 (ruling 10.1).
            if third.layers.len() == 4 {
                return Err(9);
            }
            let layer = read_cloud_layer(group)?;
            agree_on_heights(third, &layer)?;
            third.layers.push(layer);
        }
    }
    Ok(())
}

/// 8NChh: "N, C and hh may each be missing".
fn read_cloud_layer(group: &[u8]) -> Result<CloudLayer, u8> {
    let amount = optional(&group[1..2])?;
    let kind = optional(&group[2..3])?;
    let height = match optional(&group[3..])? {
        Some(code) => {
            let scale = if code < 90 { HeightScale::Steps } else { HeightScale::Bands };
            Some((scale, foot_of(&layer_classes(scale), code)?))
        }
        None => None,
    };
    Ok(CloudLayer { amount, kind, height })
}

/// "heights within one scale that fall are 7", held against all earlier ones (ruling 10.7).
fn agree_on_heights(third: &Third, layer: &CloudLayer) -> Result<(), u8> {
    let Some((scale, metres)) = layer.height else {
        return Ok(());
    };
    let mut earlier = third.layers.iter().filter_map(|layer| layer.height);
    if earlier.any(|(other, foot)| other == scale && foot > metres) {
        return Err(7);
    }
    Ok(())
}

/// iRixhVV: "iR 0-4, ix 1-7"; either scale of 4377 in either report (ruling 21).
fn read_indicators(group: &[u8]) -> Result<Section, u8> {
    let rain_indicator = within(&group[..1], 0, 4)?;
    let weather_indicator = within(&group[1..2], 1, 7)?;
    let cloud_base = match optional(&group[2..3])? {
        Some(code) => Some(foot_of(&base_classes(), code)?),
        None => None,
    };
    let visibility = match optional(&group[3..])? {
        Some(code) if code >= 90 => Some((Scale::Sea, foot_of(&sea_classes(), code)?)),
        Some(code) => Some((Scale::Land, foot_of(&land_classes(), code)?)),
        None => None,
    };
    Ok(Section {
        rain_indicator,
        weather_indicator,
        cloud_base,
        visibility,
        ..Section::default()
    })
}

type CoverAndWind = (Option<u32>, Option<(Direction, u32)>);

/// Nddff: "dd 00 with ff 00 is calm, 01-36 tens of degrees, 99 variable"; "dd and ff are missing
/// together". dd 00 with ff 99 is 7 at once (ruling 19).
fn read_cover_and_wind(group: &[u8]) -> Result<CoverAndWind, u8> {
    let cover = optional(&group[..1])?;
    let (tens, speed) = match (optional(&group[1..3])?, optional(&group[3..])?) {
        (None, None) => return Ok((cover, None)),
        (Some(tens), Some(speed)) => (tens, speed),
        _ => return Err(5),
    };
    let direction = match tens {
        0 => Direction::Calm,
        1..=36 => Direction::Degrees(tens * 10 % 360),
        99 => Direction::Variable,
        _ => return Err(5),
    };
    agree_on_calm(direction, speed == 0)?;
    Ok((cover, Some((direction, speed))))
}

/// "A zero speed with dd not 00, or the reverse, is 7"; of the aerodrome's wind likewise.
fn agree_on_calm(direction: Direction, zero_speed: bool) -> Result<(), u8> {
    if (direction == Direction::Calm) == zero_speed {
        Ok(())
    } else {
        Err(7)
    }
}

fn take_in_section(section: &mut Section, slot: Slot, group: &[u8]) -> Result<(), u8> {
    let Slot::Numbered(figure) = slot else {
        return take_high_speed(section, group);
    };
    match figure {
        b'6' => return take_rain(section, group),
        b'7' => return take_weather(section, group),
        b'9' => return take_observed(section, group),
        // "a group all of slashes after its first figure reads as absent", yet it has stood
        // (ruling 1).
        _ if all_slashes(&group[1..]) => return Ok(()),
        _ => {}
    }
    match figure {
        b'1' => section.temperature = Some(read_signed(group)?),
        b'2' => section.humidity = Some(read_humidity(group)?),
        b'3' => section.station_pressure = Some(read_pressure(group)?),
        b'4' => section.level = Some(read_level(group)?),
        b'5' => section.tendency = Some(read_tendency(group)?),
        _ => {
            for (part, byte) in section.clouds.iter_mut().zip(&group[1..]) {
                *part = optional(&[*byte])?;
            }
        }
    }
    Ok(())
}

/// 00fff: "fff 099-999"; "after any other ff is 7", a missing one too (ruling 18). The speed is
/// still the ff of Nddff here, as the group stands once.
fn take_high_speed(section: &mut Section, group: &[u8]) -> Result<(), u8> {
    let speed = within(&group[2..], 99, 999)?;
    match &mut section.wind {
        Some((_, ff)) if *ff == 99 => *ff = speed,
        _ => return Err(7),
    }
    Ok(())
}

/// sTTT: "s 0 or 1; s 1 with 000 is 5".
fn read_signed(group: &[u8]) -> Result<i32, u8> {
    let sign = within(&group[1..2], 0, 1)?;
    let tenths = required(&group[2..])? as i32;
    match (sign, tenths) {
        (1, 0) => Err(5),
        (1, _) => Ok(-tenths),
        _ => Ok(tenths),
    }
}

/// 2sTTT, or "29UUU instead is humidity 000-100"; 29/// is 5 (ruling 16).
fn read_humidity(group: &[u8]) -> Result<Humidity, u8> {
    if group[1] == b'9' {
        return within(&group[2..], 0, 100).map(Humidity::Relative);
    }
    read_signed(group).map(Humidity::DewPoint)
}

/// PPPP: "0000-0999 means 1000.0-1099.9, the rest as read from 100.0".
fn read_pressure(group: &[u8]) -> Result<u32, u8> {
    let tenths = required(&group[1..])?;
    Ok(if tenths < 1000 {
        tenths + 10_000
    } else {
        tenths
    })
}

/// 4PPPP "with first figure 0 or 9; 4ahhh with a 1, 2, 5, 7, 8"; "Other first figures: 5".
fn read_level(group: &[u8]) -> Result<Level, u8> {
    match group[1] {
        b'0' | b'9' => read_pressure(group).map(Level::SeaPressure),
        b'1' | b'2' | b'5' | b'7' | b'8' => Ok(Level::Height {
            surface: required(&group[1..2])?,
            height: required(&group[2..])?,
        }),
        _ => Err(5),
    }
}

/// 5appp: "a 0-3 rise or no change, 4 requires 000 (else 5), 5-8 fall or no change".
fn read_tendency(group: &[u8]) -> Result<(u32, i32), u8> {
    let characteristic = within(&group[1..2], 0, 8)?;
    let tenths = required(&group[2..])? as i32;
    match characteristic {
        4 if tenths != 0 => Err(5),
        5..=8 => Ok((characteristic, -tenths)),
        _ => Ok((characteristic, tenths)),
    }
}

/// 6RRRt: "RRR and t are missing together only, but t alone may be missing"; 5 before 7
/// (ruling 20), and forbidden even as slashes.
fn take_rain(section: &mut Section, group: &[u8]) -> Result<(), u8> {
    let amount = optional(&group[1..4])?;
    let period = optional(&group[4..])?;
    let rain = match amount {
        None if period.is_some() => return Err(5),
        None => None,
        Some(0) => return Err(5),
        Some(990) => Some(Rain::Trace),
        Some(tenths @ 991..) => Some(Rain::Tenths(tenths - 990)),
        Some(millimetres) => Some(Rain::Tenths(millimetres * 10)),
    };
    if !wants_rain(section) {
        return Err(7);
    }
    section.rain = rain;
    section.rain_period = period;
    Ok(())
}

/// 7wwWW: "figures, each part may be missing"; forbidden even as slashes.
fn take_weather(section: &mut Section, group: &[u8]) -> Result<(), u8> {
    let present = optional(&group[1..3])?;
    let past = [optional(&group[3..4])?, optional(&group[4..])?];
    if !wants_weather(section) {
        return Err(7);
    }
    section.present_weather = present;
    section.past_weather = past;
    Ok(())
}

/// "9GGgg 00-23, 00-59; 9//// is 5."
fn take_observed(section: &mut Section, group: &[u8]) -> Result<(), u8> {
    let hour = within(&group[1..3], 0, 23)?;
    let minute = within(&group[3..], 0, 59)?;
    section.observed = Some((hour, minute));
    Ok(())
}

// ---------------------------------------------------------------------------------------------
// The elements of METAR, SPECI and TAF: refusals 5 and 7
// ---------------------------------------------------------------------------------------------

/// Where an element stands.
struct Setting {
    /// In a TAF the missing forms are 5, and in a trend (ruling 1.11).
    forecast: bool,
    /// "NSW, the sole weather, only in change bodies".
    change_body: bool,
    /// "UP without AUTO is 7", in a trend "under AUTO too".
    automatic: bool,
}

/// A body that a change group opens. Those of a trend "obey the TAF's TEMPO body's rules".
const CHANGE_BODY: Setting = Setting {
    forecast: true,
    change_body: true,
    automatic: false,
};

/// Reads an element into its body; other slots are the caller's.
fn take_element(
    elements: &mut Elements,
    setting: &Setting,
    slot: Slot,
    group: &[u8],
) -> Result<(), u8> {
    match slot {
        Slot::Wind => elements.wind = Some(read_wind(setting, group)?),
        Slot::Visibility => elements.visibility = Some(read_visibility(setting, group)?),
        Slot::Weather => {
            let weather = read_weather(setting, group)?;
            agree_on_weather(elements, setting, &weather)?;
            elements.weather.push(weather);
        }
        Slot::Cloud => {
            let cloud = read_cloud(setting, group)?;
            agree_on_clouds(elements, &cloud)?;
            elements.clouds.push(cloud);
        }
        _ => {}
    }
    Ok(())
}

/// Wind: "ddd 010-360 by tens or VRB, two speed figures below 100 and three for 100-199, G and
/// gust, KT, MPS or KMH; 00000 calm". Whatever is 5 goes before what is 7 (ruling 8.7).
fn read_wind(setting: &Setting, group: &[u8]) -> Result<Wind, u8> {
    let parts = split_wind(group).ok_or(4)?;
    let unit = parts.unit;
    // "///// and unit" alone is a missing form (ruling 33).
    if all_slashes(parts.direction) && parts.speed == b"//" && parts.gust.is_none() {
        let wind = Wind {
            flow: None,
            gust: None,
            unit,
        };
        return if setting.forecast { Err(5) } else { Ok(wind) };
    }
    let direction = match parts.direction {
        b"VRB" => Direction::Variable,
        b"000" => Direction::Calm,
        figures => Direction::Degrees(read_direction(figures)?),
    };
    let speed = read_speed(unit, parts.speed)?;
    let gust = parts.gust.map(|gust| read_speed(unit, gust)).transpose()?;
    agree_on_calm(direction, speed == Speed::Number(0))?;
    if let Some(gust) = gust {
        agree_on_gust(speed, gust)?;
    }
    Ok(Wind {
        flow: Some((direction, speed)),
        gust,
        unit,
    })
}

/// "A gust not above the mean or with calm" is 7. "A gust P may stand over any mean but calm",
/// also over a number above P's figure (ruling 8.6); "a gust number beside a mean P is 7",
/// however high it is (ruling 8.5).
fn agree_on_gust(mean: Speed, gust: Speed) -> Result<(), u8> {
    let right = match (mean, gust) {
        // Calm, as the mean agrees with its direction.
        (Speed::Number(0), _) => false,
        (_, Speed::Above(_)) => true,
        (Speed::Above(_), Speed::Number(_)) => false,
        (Speed::Number(mean), Speed::Number(gust)) => gust > mean,
    };
    if right {
        Ok(())
    } else {
        Err(7)
    }
}

/// "010-360 by tens"; 360 is read as 0.
fn read_direction(bytes: &[u8]) -> Result<u32, u8> {
    let degrees = within(bytes, 10, 360)?;
    if degrees % 10 != 0 {
        return Err(5);
    }
    Ok(degrees % 360)
}

/// A number, or P and the unit's own figure: "P with another figure is 5".
fn read_speed(unit: Unit, bytes: &[u8]) -> Result<Speed, u8> {
    let (above, figures) = take_letter(bytes, b"P");
    let number = read_speed_figures(figures)?;
    match above {
        None => Ok(Speed::Number(number)),
        Some(_) if number == unit.highest => Ok(Speed::Above(number)),
        Some(_) => Err(5),
    }
}

/// "two speed figures below 100 and three for 100-199", "still" so in each unit (ruling 8.3);
/// the wrong width is 5 (ruling 32), after P too (ruling 8.2).
fn read_speed_figures(bytes: &[u8]) -> Result<u32, u8> {
    match bytes.len() {
        2 => within(bytes, 0, 99),
        _ => within(bytes, 100, 199),
    }
}

/// VVVV or CAVOK.
fn read_visibility(setting: &Setting, group: &[u8]) -> Result<Visibility, u8> {
    if group == b"CAVOK" {
        return Ok(Visibility::Cavok);
    }
    match optional(group)? {
        Some(code) => foot_of(&visibility_classes(), code).map(Visibility::Metres),
        None if setting.forecast => Err(5),
        None => Ok(Visibility::Missing),
    }
}

fn read_weather(setting: &Setting, group: &[u8]) -> Result<Weather, u8> {
    match group {
        b"NSW" => Ok(Weather::NoneSignificant),
        b"//" if setting.forecast => Err(5),
        b"//" => Ok(Weather::Missing),
        _ => {
            let (sign, codes) = split_weather(group).ok_or(4)?;
            read_codes(sign, &codes)
        }
    }
}

/// "sign or VC, at most one descriptor, one phenomenon or one to three different
/// precipitations"; "A sign and table codes wrongly joined are 5."
fn read_codes(sign: Option<u8>, codes: &[&'static str]) -> Result<Weather, u8> {
    let (vicinity, rest) = match codes.split_first() {
        Some((&"VC", rest)) => (true, rest),
        _ => (false, codes),
    };
    let (descriptor, phenomena) = match rest.split_first() {
        Some((first, others)) if DESCRIPTORS.contains(first) => (Some(*first), others),
        _ => (None, rest),
    };
    let joined = if vicinity {
        sign.is_none() && suits_vicinity(rest)
    } else {
        suits_descriptor(descriptor, phenomena) && suits_sign(sign, descriptor, phenomena)
    };
    if !joined {
        return Err(5);
    }
    Ok(Weather::Codes {
        sign,
        vicinity,
        descriptor,
        phenomena: phenomena.to_vec(),
    })
}

/// "VC stands before only DS SS FG FC SH TS PO BLDU BLSA BLSN VA."
fn suits_vicinity(codes: &[&str]) -> bool {
    match codes {
        [single] => ["DS", "SS", "FG", "FC", "SH", "TS", "PO", "VA"].contains(single),
        ["BL", blown] => ["DU", "SA", "SN"].contains(blown),
        _ => false,
    }
}

/// One to three different precipitations.
fn are_precipitations(phenomena: &[&str]) -> bool {
    let different = (1..phenomena.len()).all(|n| !phenomena[..n].contains(&phenomena[n]));
    (1..=3).contains(&phenomena.len())
        && different
        && phenomena.iter().all(|code| PRECIPITATIONS.contains(code))
}

/// "Every precipitation in a group must suit its descriptor." The lists of SH and TS are the
/// paper's (ruling 27); "TS alone is accepted" (request 3), no other descriptor (ruling 3.2).
fn suits_descriptor(descriptor: Option<&str>, phenomena: &[&str]) -> bool {
    let all_of = |list: &[&str]| {
        are_precipitations(phenomena) && phenomena.iter().all(|code| list.contains(code))
    };
    match descriptor {
        None => {
            are_precipitations(phenomena)
                || matches!(phenomena, [single] if OTHER_PHENOMENA.contains(single))
        }
        Some("MI" | "BC" | "PR") => phenomena == ["FG"],
        Some("DR" | "BL") => matches!(phenomena, ["DU" | "SA" | "SN"]),
        Some("TS") if phenomena.is_empty() => true,
        Some("SH" | "TS") => all_of(&["RA", "SN", "PL", "GS", "GR"]),
        _ => phenomena == ["FG"] || all_of(&["DZ", "RA"]),
    }
}

/// "A sign only with precipitation not under DR or BL, with DS or SS, and + also with FC and
/// PO."
fn suits_sign(sign: Option<u8>, descriptor: Option<&str>, phenomena: &[&str]) -> bool {
    let Some(sign) = sign else {
        return true;
    };
    match phenomena {
        ["DS" | "SS"] => true,
        ["FC" | "PO"] => sign == b'+',
        _ => are_precipitations(phenomena) && !matches!(descriptor, Some("DR" | "BL")),
    }
}

/// "UP without AUTO is 7", of every weather group (ruling 28).
fn agree_on_unknown(automatic: bool, weather: &Weather) -> Result<(), u8> {
    match weather {
        Weather::Codes { phenomena, .. } if phenomena.contains(&"UP") && !automatic => Err(7),
        _ => Ok(()),
    }
}

/// "weather or clouds beside it are 7", // too (ruling 31); NSW is the sole weather, in change
/// bodies only (ruling 46).
fn agree_on_weather(elements: &Elements, setting: &Setting, weather: &Weather) -> Result<(), u8> {
    agree_on_unknown(setting.automatic, weather)?;
    let beside_cavok = elements.visibility == Some(Visibility::Cavok);
    let after_none = elements.weather.contains(&Weather::NoneSignificant);
    let misplaced_none = *weather == Weather::NoneSignificant
        && (!setting.change_body || !elements.weather.is_empty());
    if beside_cavok || after_none || misplaced_none {
        return Err(7);
    }
    Ok(())
}

/// hhh of table 1690; slashes are 5 in a forecast.
fn read_height(setting: &Setting, bytes: &[u8]) -> Result<Option<u32>, u8> {
    match optional(bytes)? {
        Some(code) => foot_of(&height_classes(), code).map(Some),
        None if setting.forecast => Err(5),
        None => Ok(None),
    }
}

fn read_cloud(setting: &Setting, group: &[u8]) -> Result<Cloud, u8> {
    match split_cloud(group).ok_or(4)? {
        CloudParts::Clear(word) => Ok(Cloud::Clear(word)),
        CloudParts::Vertical(figures) => read_height(setting, figures).map(Cloud::Vertical),
        CloudParts::Layer(amount, figures, close) => Ok(Cloud::Layer {
            amount,
            height: read_height(setting, figures)?,
            close,
        }),
    }
}

/// "heights equal or rising, missing ones passed over (else 7)"; "SKC, NSC, NCD or VVhhh stands
/// alone (else 7)" (ruling 39).
fn agree_on_clouds(elements: &Elements, cloud: &Cloud) -> Result<(), u8> {
    if elements.visibility == Some(Visibility::Cavok) {
        return Err(7);
    }
    let is_layer = |cloud: &Cloud| matches!(cloud, Cloud::Layer { .. });
    let alone = elements.clouds.is_empty();
    if !alone && !(is_layer(cloud) && elements.clouds.iter().all(is_layer)) {
        return Err(7);
    }
    let height_of = |cloud: &Cloud| match cloud {
        Cloud::Layer { height, .. } => *height,
        _ => None,
    };
    let last = elements.clouds.iter().rev().find_map(height_of);
    match (last, height_of(cloud)) {
        (Some(below), Some(height)) if height < below => Err(7),
        _ => Ok(()),
    }
}

/// YYGGgg: "Days 01-31, minutes 00-59, end hours 00-24, others 00-23."
fn read_time(figures: &[u8]) -> Result<Time, u8> {
    Ok(Time {
        day: within(&figures[..2], 1, 31)?,
        hour: within(&figures[2..4], 0, 23)?,
        minute: within(&figures[4..6], 0, 59)?,
    })
}

/// A period; its two times need not fit each other (ruling 47). "G2 01 to 24, or 51 to 74"; "GG
/// 00 to 23 and Ge 01 to 24".
fn read_period(form: PeriodForm, group: &[u8]) -> Result<Period, u8> {
    match form {
        PeriodForm::TwoDays => Ok(Period {
            from_day: Some(within(&group[..2], 1, 31)?),
            from_hour: within(&group[2..4], 0, 23)?,
            to_day: Some(within(&group[5..7], 1, 31)?),
            to_hour: within(&group[7..], 0, 24)?,
        }),
        PeriodForm::OneDay => Ok(Period {
            from_day: Some(within(&group[..2], 1, 31)?),
            from_hour: within(&group[2..4], 0, 23)?,
            to_day: None,
            to_hour: within(&group[4..], 1, 24).or_else(|_| within(&group[4..], 51, 74))?,
        }),
        PeriodForm::NoDay => Ok(Period {
            from_day: None,
            from_hour: within(&group[..2], 0, 23)?,
            to_day: None,
            to_hour: within(&group[2..], 1, 24)?,
        }),
    }
}

// ---------------------------------------------------------------------------------------------
// METAR and SPECI
// ---------------------------------------------------------------------------------------------

fn read_observation(cut: &Cut, special: bool) -> Result<Report, Refusal> {
    let mut observation = Observation {
        special,
        ..Observation::default()
    };
    // The name has stood: its place is closed, and that of the times before it.
    let mut walk = Walk::over(observation_places(), 2);
    let mut take = |slot, group: &[u8]| take_in_observation(&mut observation, slot, group);
    let rest = walk_groups(cut, 1, &mut walk, stops_observation, &mut take)?;
    let content = Content::Observation(observation);
    Ok(Report { content, rest })
}

fn take_in_observation(observation: &mut Observation, slot: Slot, group: &[u8]) -> Result<(), u8> {
    match slot {
        Slot::Corrected => observation.corrected = true,
        Slot::Location => observation.location = read_letters(group)?,
        Slot::IssueTime => observation.time = read_time(group)?,
        Slot::Nil => observation.nil = true,
        Slot::Automatic => observation.automatic = true,
        Slot::Varying => observation.varying = Some(read_varying(group)?),
        Slot::RunwayRange => observation.runways.push(read_runway(group)?),
        Slot::Temperatures => {
            let (temperature, dew_point) = split_temperatures(group).ok_or(4)?;
            observation.temperature = read_temperature(temperature)?;
            observation.dew_point = read_temperature(dew_point)?;
        }
        // Q: whole hectopascals, "0000-9999", or Q////.
        Slot::Pressure => observation.pressure = optional(&group[1..])?.map(|whole| whole * 10),
        Slot::Recent => observation.recent.push(read_recent(observation, group)?),
        Slot::Snoclo | Slot::StateOfRunway => {
            take_runway_state(&mut observation.runway_state, slot, group)?;
        }
        Slot::Nosig | Slot::TrendWord => open_trend(&mut observation.trend, group)?,
        _ => match observation.trend.changes.last_mut() {
            Some(change) => take_in_trend(change, slot, group)?,
            None => {
                let setting = Setting {
                    forecast: false,
                    change_body: false,
                    automatic: observation.automatic,
                };
                take_element(&mut observation.elements, &setting, slot, group)?;
            }
        },
    }
    Ok(())
}

/// "SNOCLO beside a group 7", at whichever comes second; a group's figures go first (ruling 13.5).
fn take_runway_state(state: &mut RunwayState, slot: Slot, group: &[u8]) -> Result<(), u8> {
    if slot == Slot::Snoclo {
        state.closed_by_snow = true;
    } else {
        state.groups.push(read_state_of_runway(group)?);
    }
    match state.closed_by_snow && !state.groups.is_empty() {
        true => Err(7),
        false => Ok(()),
    }
}

/// RR and CLRD//, or RR, deposit, extent, depth and braking.
fn read_state_of_runway(group: &[u8]) -> Result<StateOfRunway, u8> {
    let runway = match required(&group[..2])? {
        runway @ (1..=36 | 51..=86 | 88 | 99) => runway,
        _ => return Err(5),
    };
    if is_cleared(group) {
        return Ok(StateOfRunway {
            runway,
            contamination: None,
        });
    }
    let contamination = Contamination {
        deposit: optional(&group[2..3])?,
        extent: read_extent(&group[3..4])?,
        depth: read_depth(&group[4..6])?,
        braking: read_braking(&group[6..])?,
    };
    Ok(StateOfRunway {
        runway,
        contamination: Some(contamination),
    })
}

/// Table 0519 has 1, 2, 5 and 9; the others are reserved, and 0 is not in it (ruling 13.2).
fn read_extent(figure: &[u8]) -> Result<Option<u32>, u8> {
    match optional(figure)? {
        extent @ (None | Some(1 | 2 | 5 | 9)) => Ok(extent),
        _ => Err(5),
    }
}

/// Table 1079.
fn read_depth(figures: &[u8]) -> Result<Option<Depth>, u8> {
    match optional(figures)? {
        None => Ok(None),
        Some(99) => Ok(Some(Depth::Closed)),
        Some(code) => foot_of(&depth_classes(), code).map(|foot| Some(Depth::Millimetres(foot))),
    }
}

/// Table 0366: 96 to 98 are reserved.
fn read_braking(figures: &[u8]) -> Result<Option<u32>, u8> {
    match optional(figures)? {
        Some(96..=98) => Err(5),
        braking => Ok(braking),
    }
}

/// NOSIG, BECMG or TEMPO: "NOSIG beside one 7", at whichever comes second (ruling 1.4).
fn open_trend(trend: &mut Trend, group: &[u8]) -> Result<(), u8> {
    if trend.none_significant || (group == b"NOSIG" && !trend.changes.is_empty()) {
        return Err(7);
    }
    match word_of(&TREND_WORDS, group) {
        Some(word) => trend.changes.push(Expected {
            word,
            ..Expected::default()
        }),
        None => trend.none_significant = true,
    }
    Ok(())
}

/// A time or an element of the change that stands last.
fn take_in_trend(change: &mut Expected, slot: Slot, group: &[u8]) -> Result<(), u8> {
    match slot {
        Slot::From => change.from = Some(read_clock(group)?),
        Slot::Until if group == b"TL2400" => change.until = Some(MIDNIGHT_AT_END),
        Slot::Until => change.until = Some(read_clock(group)?),
        Slot::At => change.at = Some(read_clock(group)?),
        _ => take_element(&mut change.elements, &CHANGE_BODY, slot, group)?,
    }
    Ok(())
}

/// "TL to 2400".
const MIDNIGHT_AT_END: Clock = Clock {
    hour: 24,
    minute: 0,
};

/// "GGgg, 0000 to 2359" after FM, TL or AT: hours and minutes (ruling 1.10).
fn read_clock(group: &[u8]) -> Result<Clock, u8> {
    Ok(Clock {
        hour: within(&group[2..4], 0, 23)?,
        minute: within(&group[4..], 0, 59)?,
    })
}

/// dddVddd: 000 is 5 (ruling 34), "equal directions in dddVddd: 7".
fn read_varying(group: &[u8]) -> Result<(u32, u32), u8> {
    let from = read_direction(&group[..3])?;
    let to = read_direction(&group[4..])?;
    if from == to {
        return Err(7);
    }
    Ok((from, to))
}

/// "M0050 below 50, read 0"; "P2000 over 2,000, read 2,001"; M or P with other figures is 5
/// (ruling 35).
fn read_runway(group: &[u8]) -> Result<Runway, u8> {
    let parts = split_runway(group).ok_or(4)?;
    let number = within(parts.number, 1, 36)?;
    let range = match (parts.bound, optional(parts.range)?) {
        (None, None) => None,
        (None, Some(code)) => Some(foot_of(&runway_classes(), code)?),
        (Some(b'M'), Some(50)) => Some(0),
        (Some(b'P'), Some(2000)) => Some(2001),
        _ => return Err(5),
    };
    Ok(Runway {
        number,
        side: parts.side,
        range,
        tendency: parts.tendency,
    })
}

/// "// for each temperature"; document 02, No. 2: M00 "is read as -0.3". M before slashes is 5.
fn read_temperature((minus, figures): TemperatureParts) -> Result<Option<i32>, u8> {
    match (minus, optional(figures)?) {
        (true, None) => Err(5),
        (true, Some(0)) => Ok(Some(-3)),
        (true, Some(degrees)) => Ok(Some(-10 * degrees as i32)),
        (false, degrees) => Ok(degrees.map(|degrees| 10 * degrees as i32)),
    }
}

/// "RE groups carry no sign and no VC (5)."
fn read_recent(observation: &Observation, group: &[u8]) -> Result<Weather, u8> {
    let (sign, codes) = split_recent(group).ok_or(4)?;
    let weather = read_codes(sign, &codes)?;
    if sign.is_some() || codes.first() == Some(&"VC") {
        return Err(5);
    }
    agree_on_unknown(observation.automatic, &weather)?;
    Ok(weather)
}

// ---------------------------------------------------------------------------------------------
// TAF
// ---------------------------------------------------------------------------------------------

fn read_forecast(cut: &Cut, edition: Edition) -> Result<Report, Refusal> {
    let mut forecast = Forecast::default();
    // The name has stood: its place is closed.
    let mut walk = Walk::over(forecast_places(edition), 1);
    let mut take = |slot, group: &[u8]| take_in_forecast(&mut forecast, slot, group);
    let rest = walk_groups(cut, 1, &mut walk, never_stops, &mut take)?;
    let content = Content::Forecast(forecast);
    Ok(Report { content, rest })
}

fn take_in_forecast(forecast: &mut Forecast, slot: Slot, group: &[u8]) -> Result<(), u8> {
    match slot {
        Slot::AmendedOrCorrected => forecast.correction = word_of(&["AMD", "COR"], group),
        Slot::Location => forecast.location = read_letters(group)?,
        Slot::IssueTime => forecast.time = read_time(group)?,
        Slot::Nil => forecast.nil = true,
        Slot::Cancelled => forecast.cancelled = true,
        Slot::Change(_) => forecast.changes.push(Change {
            opening: read_opening(group)?,
            elements: Elements::default(),
        }),
        Slot::Temporary => set_temporary(forecast),
        Slot::Period(form) => set_period(forecast, read_period(form, group)?),
        _ => match forecast.changes.last_mut() {
            Some(change) => take_element(&mut change.elements, &CHANGE_BODY, slot, group)?,
            None => {
                let setting = Setting {
                    change_body: false,
                    ..CHANGE_BODY
                };
                take_element(&mut forecast.elements, &setting, slot, group)?;
            }
        },
    }
    Ok(())
}

/// The word of a change group; its period follows as a group of its own.
fn read_opening(group: &[u8]) -> Result<Opening, u8> {
    let period = Period::default();
    match group {
        b"BECMG" => Ok(Opening::Becoming(period)),
        b"TEMPO" => Ok(Opening::Temporary(period)),
        [b'F', b'M', figures @ ..] if figures.len() == 6 => {
            let Time { day, hour, minute } = read_time(figures)?;
            Ok(Opening::From(Some(day), Clock { hour, minute }))
        }
        [b'F', b'M', ..] => Ok(Opening::From(None, read_clock(group)?)),
        _ => match required(&group[4..])? {
            percent @ (30 | 40) => Ok(Opening::Probable {
                percent,
                temporary: false,
                period,
            }),
            _ => Err(5),
        },
    }
}

/// "PROB TEMPO": the TEMPO after PROB30 or PROB40.
fn set_temporary(forecast: &mut Forecast) {
    if let Some(change) = forecast.changes.last_mut() {
        if let Opening::Probable { temporary, .. } = &mut change.opening {
            *temporary = true;
        }
    }
}

/// The report's own period, or that of the change group that stands last.
fn set_period(forecast: &mut Forecast, read: Period) {
    match forecast
        .changes
        .last_mut()
        .map(|change| &mut change.opening)
    {
        None => forecast.period = read,
        Some(Opening::Becoming(period) | Opening::Temporary(period)) => *period = read,
        Some(Opening::Probable { period, .. }) => *period = read,
        Some(Opening::From(..)) => {}
    }
}

// ---------------------------------------------------------------------------------------------
// The writer
// ---------------------------------------------------------------------------------------------

/// Writes a record's canonical text: "single spaces, no leading blank, "=" at once after the
/// last group, no unread rest". The record is one that the reader gives, or one like it whose
/// values lie between the feet of their classes.
pub fn write(report: &Report) -> Vec<u8> {
    let mut groups = Vec::new();
    match &report.content {
        Content::Synoptic(synoptic) => write_synoptic(&mut groups, synoptic),
        Content::Observation(observation) => write_observation(&mut groups, observation),
        Content::Forecast(forecast) => write_forecast(&mut groups, forecast),
    }
    let mut text = groups.join(" ").into_bytes();
    text.push(b'=');
    text
}

/// A number of a width with leading zeros, or slashes, "as many as letters".
fn figures(value: Option<u32>, width: usize) -> String {
    match value {
        Some(value) => format!("{value:0width$}"),
        None => "/".repeat(width),
    }
}

fn write_synoptic(groups: &mut Vec<String>, synoptic: &Synoptic) {
    let date = format!(
        "{:02}{:02}{}",
        synoptic.day, synoptic.hour, synoptic.wind_indicator
    );
    match &synoptic.origin {
        Origin::Land { station } => {
            groups.extend(["AAXX".to_string(), date, format!("{station:05}")]);
        }
        Origin::Sea {
            call_sign,
            latitude,
            longitude,
        } => {
            groups.extend(["BBXX".to_string(), call_sign.clone(), date]);
            write_position(groups, *latitude, *longitude);
        }
    }
    match &synoptic.section {
        Some(section) => {
            write_section(groups, section);
            write_third(groups, &synoptic.third);
        }
        None => groups.push("NIL".to_string()),
    }
}

/// "Qc 1 NE, 3 SE, 5 SW, 7 NW. Zero counts as north or east".
fn write_position(groups: &mut Vec<String>, latitude: i32, longitude: i32) {
    let quadrant = match (latitude < 0, longitude < 0) {
        (false, false) => 1,
        (true, false) => 3,
        (true, true) => 5,
        (false, true) => 7,
    };
    groups.push(format!("99{:03}", latitude.abs()));
    groups.push(format!("{quadrant}{:04}", longitude.abs()));
}

fn write_section(groups: &mut Vec<String>, section: &Section) {
    let base = section
        .cloud_base
        .map(|base| code_of(&base_classes(), base));
    let visibility = section.visibility;
    let visibility = visibility.map(|(scale, metres)| code_of(&classes_of(scale), metres));
    groups.push(format!(
        "{}{}{}{}",
        section.rain_indicator,
        section.weather_indicator,
        figures(base, 1),
        figures(visibility, 2)
    ));
    write_cover_and_wind(groups, section);
    if let Some(tenths) = section.temperature {
        groups.push(format!("1{}", signed(tenths)));
    }
    match section.humidity {
        Some(Humidity::DewPoint(tenths)) => groups.push(format!("2{}", signed(tenths))),
        Some(Humidity::Relative(percent)) => groups.push(format!("29{percent:03}")),
        None => {}
    }
    if let Some(tenths) = section.station_pressure {
        groups.push(format!("3{:04}", tenths % 10_000));
    }
    match section.level {
        Some(Level::SeaPressure(tenths)) => groups.push(format!("4{:04}", tenths % 10_000)),
        Some(Level::Height { surface, height }) => groups.push(format!("4{surface}{height:03}")),
        None => {}
    }
    if let Some((characteristic, change)) = section.tendency {
        groups.push(format!("5{characteristic}{:03}", change.abs()));
    }
    write_section_end(groups, section);
}

/// The groups 6 to 9: "a required 6 or 7 group is written with slashes", another group all of
/// slashes is omitted.
fn write_section_end(groups: &mut Vec<String>, section: &Section) {
    if wants_rain(section) {
        let amount = figures(section.rain.map(rain_code), 3);
        groups.push(format!("6{amount}{}", figures(section.rain_period, 1)));
    }
    if wants_weather(section) {
        let present = figures(section.present_weather, 2);
        let past = section.past_weather.map(|part| figures(part, 1)).concat();
        groups.push(format!("7{present}{past}"));
    }
    if section.clouds.iter().any(Option::is_some) {
        let parts = section.clouds.map(|part| figures(part, 1)).concat();
        groups.push(format!("8{parts}"));
    }
    if let Some((hour, minute)) = section.observed {
        groups.push(format!("9{hour:02}{minute:02}"));
    }
}

/// "a 333 with no group reads as absent", and canonical text has none (ruling 10.3).
fn write_third(groups: &mut Vec<String>, third: &Third) {
    let mut own = Vec::new();
    if let Some(tenths) = third.maximum {
        own.push(format!("1{}", signed(tenths)));
    }
    if let Some(tenths) = third.minimum {
        own.push(format!("2{}", signed(tenths)));
    }
    for layer in &third.layers {
        let height = layer.height.map(|(scale, metres)| code_of(&layer_classes(scale), metres));
        own.push(format!("8{}{}{}", figures(layer.amount, 1), figures(layer.kind, 1), figures(height, 2)));
    }
    if !own.is_empty() {
        groups.push("333".to_string());
        groups.extend(own);
    }
}

/// Nddff and 00fff: "A speed of 99 units or more is ff 99 and at once 00fff".
fn write_cover_and_wind(groups: &mut Vec<String>, section: &Section) {
    let cover = figures(section.cloud_cover, 1);
    let Some((direction, speed)) = section.wind else {
        groups.push(format!("{cover}////"));
        return;
    };
    let tens = match direction {
        Direction::Calm => 0,
        Direction::Variable => 99,
        Direction::Degrees(degrees) => tens_of(degrees),
    };
    groups.push(format!("{cover}{tens:02}{:02}", speed.min(99)));
    if speed >= 99 {
        groups.push(format!("00{speed:03}"));
    }
}

/// "rounds to tens, halves up, 0 written as 36 or 360 and read as 0".
fn tens_of(degrees: u32) -> u32 {
    match (degrees + 5) / 10 % 36 {
        0 => 36,
        tens => tens,
    }
}

/// sTTT.
fn signed(tenths: i32) -> String {
    format!("{}{:03}", u8::from(tenths < 0), tenths.abs())
}

/// RRR: "from 1.0 mm written to the nearest mm, halves up"; "989 that or more".
fn rain_code(rain: Rain) -> u32 {
    match rain {
        Rain::Trace => 990,
        Rain::Tenths(tenths) if tenths < 10 => 990 + tenths,
        Rain::Tenths(tenths) => ((tenths + 5) / 10).min(989),
    }
}

fn write_time(time: Time) -> String {
    format!("{:02}{:02}{:02}", time.day, time.hour, time.minute)
}

/// A day where the form has one.
fn write_day(day: Option<u32>) -> String {
    day.map(|day| format!("{day:02}")).unwrap_or_default()
}

fn write_period(period: Period) -> String {
    let parted = if period.to_day.is_some() { "/" } else { "" };
    let from = format!("{}{:02}", write_day(period.from_day), period.from_hour);
    let to = format!("{}{:02}", write_day(period.to_day), period.to_hour);
    format!("{from}{parted}{to}")
}

fn write_observation(groups: &mut Vec<String>, observation: &Observation) {
    let name = if observation.special {
        "SPECI"
    } else {
        "METAR"
    };
    groups.push(name.to_string());
    if observation.corrected {
        groups.push("COR".to_string());
    }
    groups.push(observation.location.clone());
    groups.push(format!("{}Z", write_time(observation.time)));
    if observation.nil {
        groups.push("NIL".to_string());
        return;
    }
    if observation.automatic {
        groups.push("AUTO".to_string());
    }
    let elements = &observation.elements;
    groups.extend(elements.wind.as_ref().map(write_wind));
    if let Some((from, to)) = observation.varying {
        groups.push(format!("{:02}0V{:02}0", tens_of(from), tens_of(to)));
    }
    groups.extend(elements.visibility.map(write_visibility));
    groups.extend(observation.runways.iter().map(write_runway));
    groups.extend(elements.weather.iter().map(write_weather));
    groups.extend(elements.clouds.iter().map(write_cloud));
    groups.push(format!(
        "{}/{}",
        write_temperature(observation.temperature),
        write_temperature(observation.dew_point)
    ));
    // "Q is rounded down to a whole hPa"
    let pressure = observation.pressure.map(|tenths| tenths / 10);
    groups.push(format!("Q{}", figures(pressure, 4)));
    let recent = observation.recent.iter().map(write_weather);
    groups.extend(recent.map(|weather| format!("RE{weather}")));
    write_runway_state(groups, &observation.runway_state);
    write_trend(groups, &observation.trend);
}

fn write_runway_state(groups: &mut Vec<String>, state: &RunwayState) {
    if state.closed_by_snow {
        groups.push("SNOCLO".to_string());
    }
    groups.extend(state.groups.iter().map(write_state_of_runway));
}

fn write_state_of_runway(state: &StateOfRunway) -> String {
    let runway = state.runway;
    let Some(contamination) = state.contamination else {
        return format!("{runway:02}CLRD//");
    };
    let deposit = figures(contamination.deposit, 1);
    let extent = figures(contamination.extent, 1);
    let depth = figures(contamination.depth.map(depth_code), 2);
    let braking = figures(contamination.braking, 2);
    format!("{runway:02}{deposit}{extent}{depth}{braking}")
}

/// "The writer rounds depths down: 0 to 89 by 1, then 90 up to 99 mm, then the 50s."
fn depth_code(depth: Depth) -> u32 {
    match depth {
        Depth::Millimetres(depth) => code_of(&depth_classes(), depth),
        Depth::Closed => 99,
    }
}

fn write_trend(groups: &mut Vec<String>, trend: &Trend) {
    if trend.none_significant {
        groups.push("NOSIG".to_string());
    }
    for change in &trend.changes {
        groups.push(change.word.to_string());
        let times = [("FM", change.from), ("TL", change.until), ("AT", change.at)];
        for (letters, time) in times {
            if let Some(Clock { hour, minute }) = time {
                groups.push(format!("{letters}{hour:02}{minute:02}"));
            }
        }
        write_elements(groups, &change.elements);
    }
}

fn write_wind(wind: &Wind) -> String {
    let unit = wind.unit;
    let Some((direction, speed)) = wind.flow else {
        return format!("/////{}", unit.letters);
    };
    let direction = match direction {
        Direction::Calm => "000".to_string(),
        Direction::Variable => "VRB".to_string(),
        Direction::Degrees(degrees) => format!("{:02}0", tens_of(degrees)),
    };
    let speed = write_speed(unit, speed);
    let gust = wind.gust.map_or(String::new(), |gust| {
        format!("G{}", write_speed(unit, gust))
    });
    format!("{direction}{speed}{gust}{}", unit.letters)
}

/// "The writer uses P for 100 knots, 50 m/s, 200 km/h and more", also for what the reader took
/// as two figures (ruling 8.1).
fn write_speed(unit: Unit, speed: Speed) -> String {
    match speed {
        Speed::Number(number) if number <= unit.highest => format!("{number:02}"),
        Speed::Number(_) => format!("P{}", unit.highest),
        Speed::Above(figure) => format!("P{figure}"),
    }
}

fn write_visibility(visibility: Visibility) -> String {
    match visibility {
        Visibility::Cavok => "CAVOK".to_string(),
        Visibility::Missing => figures(None, 4),
        Visibility::Metres(metres) => figures(Some(code_of(&visibility_classes(), metres)), 4),
    }
}

fn write_runway(runway: &Runway) -> String {
    let letter = |letter: Option<u8>| letter.map(char::from).map_or(String::new(), String::from);
    let range = match runway.range {
        None => figures(None, 4),
        Some(metres) if metres < 50 => "M0050".to_string(),
        Some(metres) if metres > 2000 => "P2000".to_string(),
        Some(metres) => figures(Some(code_of(&runway_classes(), metres)), 4),
    };
    format!(
        "R{:02}{}/{range}{}",
        runway.number,
        letter(runway.side),
        letter(runway.tendency)
    )
}

fn write_weather(weather: &Weather) -> String {
    match weather {
        Weather::Missing => "//".to_string(),
        Weather::NoneSignificant => "NSW".to_string(),
        Weather::Codes {
            sign,
            vicinity,
            descriptor,
            phenomena,
        } => {
            let sign = sign.map(char::from).map_or(String::new(), String::from);
            let vicinity = if *vicinity { "VC" } else { "" };
            let descriptor = descriptor.unwrap_or("");
            format!("{sign}{vicinity}{descriptor}{}", phenomena.concat())
        }
    }
}

fn write_height(height: Option<u32>) -> String {
    figures(height.map(|metres| code_of(&height_classes(), metres)), 3)
}

fn write_cloud(cloud: &Cloud) -> String {
    match cloud {
        Cloud::Clear(word) => word.to_string(),
        Cloud::Vertical(height) => format!("VV{}", write_height(*height)),
        Cloud::Layer {
            amount,
            height,
            close,
        } => format!("{amount}{}{close}", write_height(*height)),
    }
}

/// "written as whole degrees, -99 to 99, halves up"; document 02, No. 2: "M now follows the observed value".
fn write_temperature(tenths: Option<i32>) -> String {
    let Some(tenths) = tenths else {
        return figures(None, 2);
    };
    let degrees = (tenths + 5).div_euclid(10).abs();
    if tenths < 0 {
        format!("M{degrees:02}")
    } else {
        format!("{degrees:02}")
    }
}

fn write_forecast(groups: &mut Vec<String>, forecast: &Forecast) {
    groups.push("TAF".to_string());
    groups.extend(forecast.correction.map(String::from));
    groups.push(forecast.location.clone());
    groups.push(format!("{}Z", write_time(forecast.time)));
    if forecast.nil {
        groups.push("NIL".to_string());
        return;
    }
    groups.push(write_period(forecast.period));
    if forecast.cancelled {
        groups.push("CNL".to_string());
        return;
    }
    write_elements(groups, &forecast.elements);
    for change in &forecast.changes {
        write_opening(groups, &change.opening);
        write_elements(groups, &change.elements);
    }
}

fn write_elements(groups: &mut Vec<String>, elements: &Elements) {
    groups.extend(elements.wind.as_ref().map(write_wind));
    groups.extend(elements.visibility.map(write_visibility));
    groups.extend(elements.weather.iter().map(write_weather));
    groups.extend(elements.clouds.iter().map(write_cloud));
}

fn write_opening(groups: &mut Vec<String>, opening: &Opening) {
    match opening {
        Opening::Becoming(period) => {
            groups.extend(["BECMG".to_string(), write_period(*period)]);
        }
        Opening::Temporary(period) => {
            groups.extend(["TEMPO".to_string(), write_period(*period)]);
        }
        Opening::Probable {
            percent,
            temporary,
            period,
        } => {
            groups.push(format!("PROB{percent}"));
            groups.extend(temporary.then(|| "TEMPO".to_string()));
            groups.push(write_period(*period));
        }
        Opening::From(day, time) => {
            let clock = format!("{:02}{:02}", time.hour, time.minute);
            groups.push(format!("FM{}{clock}", write_day(*day)));
        }
    }
}

// ---------------------------------------------------------------------------------------------
// The program
// ---------------------------------------------------------------------------------------------

/// What the program prints for a text, a TAF in an edition, without the line end: "its canonical
/// text or "refused N at P"".
pub fn answer(edition: Edition, text: &[u8]) -> Vec<u8> {
    match read_in(edition, text) {
        Ok(report) => write(&report),
        Err((number, place)) => format!("refused {number} at {place}").into_bytes(),
    }
}

/// The bytes of a line of hexadecimal figures, two to a byte; None where the line is not such.
fn bytes_of_line(line: &[u8]) -> Option<Vec<u8>> {
    let figure = |byte: u8| char::from(byte).to_digit(16);
    let pair = |pair: &[u8]| match pair {
        [high, low] => Some((figure(*high)? * 16 + figure(*low)?) as u8),
        _ => None,
    };
    line.chunks(2).map(pair).collect()
}

/// The answers to lines of hexadecimal bytes, one a line; one that begins with "2005 " asks for
/// that edition.
fn answer_lines(input: &[u8]) -> Vec<u8> {
    let mut output = Vec::new();
    for line in input.split_inclusive(|&byte| byte == b'\n') {
        let line = line.strip_suffix(b"\n").unwrap_or(line);
        let line = line.strip_suffix(b"\r").unwrap_or(line);
        let (edition, line) = match line.strip_prefix(b"2005 ") {
            Some(rest) => (Edition::Of2005, rest),
            None => (Edition::Present, line),
        };
        match bytes_of_line(line) {
            Some(text) => output.extend(answer(edition, &text)),
            None => output.extend(b"not a line of hexadecimal bytes"),
        }
        output.push(b'\n');
    }
    output
}

fn main() -> std::io::Result<()> {
    let argument = std::env::args().nth(1).unwrap_or_default();
    let edition = match argument.as_str() {
        "2005" => Edition::Of2005,
        _ => Edition::Present,
    };
    let mut input = Vec::new();
    std::io::stdin().lock().read_to_end(&mut input)?;
    let output = if argument == "--lines" {
        answer_lines(&input)
    } else {
        let mut line = answer(edition, &input);
        line.push(b'\n');
        line
    };
    std::io::stdout().lock().write_all(&output)
}

// ---------------------------------------------------------------------------------------------
// "Lines that settle arguments", which reading alone does not reach
// ---------------------------------------------------------------------------------------------

#[cfg(test)]
mod tests {
    use super::*;

    fn codes(classes: Classes, values: &[u32]) -> Vec<u32> {
        values
            .iter()
            .map(|&value| code_of(&classes, value))
            .collect()
    }

    #[test]
    fn scales_round_down() {
        assert_eq!(codes(land_classes(), &[5999, 6000]), [50, 56]);
        assert_eq!(codes(land_classes(), &[70_000, 70_001]), [88, 89]);
        assert_eq!(codes(land_classes(), &[99, 34_999, 99_999]), [0, 80, 89]);
        assert_eq!(codes(sea_classes(), &[49, 50, 99_999]), [90, 91, 99]);
        assert_eq!(codes(base_classes(), &[599, 600]), [4, 5]);
        let visibility = codes(visibility_classes(), &[370, 799, 5700, 9999, 10_000]);
        assert_eq!(visibility, [350, 750, 5000, 9000, 9999]);
        assert_eq!(
            codes(height_classes(), &[3299, 3300, 29_999]),
            [100, 110, 990]
        );
        let runway = |range| {
            write_runway(&Runway {
                number: 1,
                side: None,
                range: Some(range),
                tendency: None,
            })
        };
        assert_eq!(runway(399), "R01/0375");
        assert_eq!(runway(2001), "R01/P2000");
        assert_eq!(runway(2000), "R01/2000");
        assert_eq!(runway(49), "R01/M0050");
    }

    /// "91 to 99 mm are written 90 .. and 91 is written never" (ruling 13.9).
    #[test]
    fn depths_round_down() {
        let written = [0, 89, 90, 91, 99, 100, 149, 150, 399, 400, 99_999]
            .map(|depth| depth_code(Depth::Millimetres(depth)));
        assert_eq!(written, [0, 89, 90, 90, 90, 92, 92, 93, 97, 98, 98]);
        assert_eq!(depth_code(Depth::Closed), 99);
    }

    #[test]
    fn the_others_round_to_the_nearest() {
        let written: Vec<_> = [25, -15, -4, -5, -6, -1, 0, -995, 994]
            .map(|tenths| write_temperature(Some(tenths)))
            .into();
        assert_eq!(written, ["03", "M01", "M00", "M00", "M01", "M00", "00", "M99", "99"]);
        assert_eq!([4, 5, 355, 354, 0].map(tens_of), [36, 1, 36, 35, 36]);
        let rain = [9, 10, 9885, 9884, 99_999].map(|tenths| rain_code(Rain::Tenths(tenths)));
        assert_eq!(rain, [999, 1, 989, 988, 989]);
        assert_eq!(rain_code(Rain::Trace), 990);
    }

    /// In km/h "a record may now be 0 to 999", of which the reader gives 0 to 199.
    #[test]
    fn speeds_above_the_highest_number() {
        let written = |unit, numbers: [u32; 3]| {
            numbers.map(|number| write_speed(unit, Speed::Number(number)))
        };
        assert_eq!(written(KNOTS, [99, 100, 199]), ["99", "P99", "P99"]);
        assert_eq!(written(METRES_A_SECOND, [9, 49, 50]), ["09", "49", "P49"]);
        let kilometres = written(KILOMETRES_AN_HOUR, [199, 200, 999]);
        assert_eq!(kilometres, ["199", "P199", "P199"]);
    }

    #[test]
    fn not_in_the_table() {
        assert_eq!(read_signed(b"11000"), Err(5));
        assert_eq!(foot_of(&land_classes(), 55), Err(5));
        assert_eq!(foot_of(&depth_classes(), 91), Err(5));
    }
}
