//! The benchmark's harness: the library and the independent decoder in one process, on the same
//! texts. Standard input has valid reports, a line of hexadecimal bytes each; the argument is the
//! number of rounds. Before a text is timed, both sides must give the same answer to it.
//! Three sides are timed: the library's reader of any kind, the kind's own reader, the decoder.
//! Cloud heights are timed apart, by the library's rule and by its table.

use std::hint::black_box;
use std::io::Read;

#[allow(dead_code)]
mod decoder;

// ---------------------------------------------------------------------------------------------
// The library
// ---------------------------------------------------------------------------------------------

/// A call of the crate `answers_c`: the text, whether its record is written, the lent buffer and
/// a number. The answer is a refusal and its place, or 0 and the rest's place or the bytes written.
type Call = unsafe extern "C" fn(*const u8, usize, bool, *mut u8, usize, *mut usize) -> u8;

extern "C" {
    fn delgushar_any(t: *const u8, n: usize, w: bool, o: *mut u8, m: usize, r: *mut usize) -> u8;
    fn delgushar_synop(t: *const u8, n: usize, w: bool, o: *mut u8, m: usize, r: *mut usize) -> u8;
    fn delgushar_metar(t: *const u8, n: usize, w: bool, o: *mut u8, m: usize, r: *mut usize) -> u8;
    fn delgushar_taf(t: *const u8, n: usize, w: bool, o: *mut u8, m: usize, r: *mut usize) -> u8;
}

type Buffer = [u8; decoder::LONGEST_TEXT];

fn ask(call: Call, text: &[u8], writes: bool, out: &mut Buffer) -> (u8, usize) {
    let mut number = 0;
    let (room, len) = (out.as_mut_ptr(), out.len());
    // The library keeps to the two slices: that is proved of it.
    let refusal = unsafe { call(text.as_ptr(), text.len(), writes, room, len, &mut number) };
    (refusal, number)
}

// ---------------------------------------------------------------------------------------------
// The reports
// ---------------------------------------------------------------------------------------------

#[derive(Clone, Copy)]
struct Kind {
    name: &'static str,
    first_group: &'static str,
    own: Call,
}

const fn kind(name: &'static str, first_group: &'static str, own: Call) -> Kind {
    Kind {
        name,
        first_group,
        own,
    }
}

const SYNOP: Kind = kind("SYNOP", "AAXX", delgushar_synop);
const SHIP: Kind = kind("SHIP", "BBXX", delgushar_synop);
const THIRD: Kind = kind("SYNOP with section 3", "AAXX", delgushar_synop);
const METAR: Kind = kind("METAR", "METAR", delgushar_metar);
const TREND: Kind = kind("METAR with a trend", "METAR", delgushar_metar);
const STATE: Kind = kind("METAR with runway states", "METAR", delgushar_metar);
const TAF: Kind = kind("TAF", "TAF", delgushar_taf);

/// Texts of one kind that are timed together.
#[derive(Clone)]
struct Texts {
    kind: Kind,
    texts: Vec<Vec<u8>>,
}

impl Texts {
    fn of_one(kind: Kind, text: String) -> Texts {
        let texts = vec![text.into_bytes(); 100];
        Texts { kind, texts }
    }

    fn mean_bytes(&self) -> usize {
        self.texts.iter().map(Vec::len).sum::<usize>() / self.texts.len()
    }

    fn longest(&self) -> &[u8] {
        self.texts.iter().max_by_key(|text| text.len()).unwrap()
    }
}

fn is_parting(byte: u8) -> bool {
    b" \r\n".contains(&byte)
}

fn bytes_of_line(line: &str) -> Vec<u8> {
    let byte = |at| u8::from_str_radix(&line[at..at + 2], 16).unwrap();
    (0..line.len()).step_by(2).map(byte).collect()
}

fn groups(text: &[u8]) -> impl Iterator<Item = &[u8]> {
    let parts = text.split(|&byte| is_parting(byte) || byte == b'=');
    parts.filter(|part| !part.is_empty())
}

/// The reports of a kind among the lines.
fn of_kind(kind: Kind, lines: &str) -> Texts {
    let is_of_kind = |text: &Vec<u8>| groups(text).next() == Some(kind.first_group.as_bytes());
    let texts = lines.lines().map(bytes_of_line);
    let texts = texts.filter(is_of_kind).collect();
    Texts { kind, texts }
}

/// Whether a group is one of runway state, or SNOCLO.
fn is_state(group: &[u8]) -> bool {
    let figure = |byte: &u8| byte.is_ascii_digit() || *byte == b'/';
    let state = group.ends_with(b"CLRD//") || group.iter().all(figure);
    group == b"SNOCLO" || (group.len() == 8 && state)
}

/// Reports of land stations without section 3, and those with it.
fn by_sections(reports: Texts) -> [Texts; 2] {
    let has_third = |text: &Vec<u8>| groups(text).any(|group| group == b"333");
    let (thirds, plain) = reports.texts.into_iter().partition(has_third);
    [(SYNOP, plain), (THIRD, thirds)].map(|(kind, texts)| Texts { kind, texts })
}

/// Observations with neither runway states nor a trend, those with a trend alone, and those with
/// runway states.
fn by_parts(observations: Texts) -> [Texts; 3] {
    let begins_trend = |group: &[u8]| matches!(group, b"NOSIG" | b"BECMG" | b"TEMPO");
    let has_state = |text: &Vec<u8>| groups(text).any(is_state);
    let has_trend = |text: &Vec<u8>| groups(text).any(begins_trend);
    let (states, others): (Vec<_>, Vec<_>) = observations.texts.into_iter().partition(has_state);
    let (trends, plain) = others.into_iter().partition(has_trend);
    [(METAR, plain), (TREND, trends), (STATE, states)].map(|(kind, texts)| Texts { kind, texts })
}

/// A forecast with so many changes.
fn with_changes(changes: usize) -> Texts {
    let body = "TAF LEMD 301700Z 3018/0124 13005MPS 9999 BKN020".to_string();
    let change = " BECMG 0106/0108 18008G15MPS 4000 -RA BR BKN010 OVC030";
    Texts::of_one(TAF, body + &change.repeat(changes) + "=")
}

/// An observation whose unread rest has so many bytes.
fn with_rest(bytes: usize) -> Texts {
    let read = "METAR LEMD 011200Z 27010KT 4000 BR SCT010 15/14 Q1013 ".to_string();
    let rest = "RMK ".to_string() + &"A0 ".repeat(bytes / 3);
    Texts::of_one(METAR, read + &rest[..bytes])
}

// ---------------------------------------------------------------------------------------------
// Faults
// ---------------------------------------------------------------------------------------------

type Fault = fn(Vec<u8>) -> Option<Vec<u8>>;

fn in_first_byte(mut text: Vec<u8>) -> Option<Vec<u8>> {
    text[0] = b'*';
    Some(text)
}

/// The first group names no kind.
fn in_first_group(mut text: Vec<u8>) -> Option<Vec<u8>> {
    let at = text.iter().position(|&byte| !is_parting(byte))?;
    text[at] = b'X';
    Some(text)
}

/// A last group that no place takes; none where the report has an unread rest.
fn in_last_group(mut text: Vec<u8>) -> Option<Vec<u8>> {
    let is_end = |&byte: &u8| is_parting(byte) || byte == b'=';
    while text.last().is_some_and(is_end) {
        text.pop();
    }
    let at = text.len() + 1;
    text.extend(b" X=");
    match decoder::read(&text) {
        Err((_, place)) if place == at => Some(text),
        _ => None,
    }
}

fn spoilt(valid: &Texts, fault: Fault) -> Texts {
    let texts: Vec<_> = valid.texts.iter().cloned().filter_map(fault).collect();
    assert!(!texts.is_empty());
    let kind = valid.kind;
    Texts { kind, texts }
}

// ---------------------------------------------------------------------------------------------
// The same answers
// ---------------------------------------------------------------------------------------------

/// Holds both of the library's readers to the decoder's answer on every text.
fn hold_to_decoder(texts: &Texts) {
    let mut out = [0; decoder::LONGEST_TEXT];
    for text in &texts.texts {
        let shown = String::from_utf8_lossy(text);
        let decoded = decoder::read(text);
        let answer = match &decoded {
            Ok(report) => (0, report.rest),
            Err(refusal) => *refusal,
        };
        for call in [delgushar_any as Call, texts.kind.own] {
            assert_eq!(ask(call, text, false, &mut out), answer, "{shown}");
            if let Ok(report) = &decoded {
                let canonical = decoder::write(report);
                let written = ask(call, text, true, &mut out);
                assert_eq!(written, (0, canonical.len()), "{shown}");
                assert_eq!(&out[..canonical.len()], canonical, "{shown}");
            }
        }
    }
}

// ---------------------------------------------------------------------------------------------
// Time
// ---------------------------------------------------------------------------------------------

#[derive(Clone, Copy)]
enum Side {
    Any,
    Own,
    Decoder,
}

const SIDES: [Side; 3] = [Side::Any, Side::Own, Side::Decoder];

/// One side on one text; what it makes counts as used.
#[inline(always)]
fn work(side: Side, kind: Kind, text: &[u8], writes: bool, out: &mut Buffer) {
    let text = black_box(text);
    match side {
        Side::Any => {
            black_box(ask(delgushar_any, text, writes, out));
        }
        Side::Own => {
            black_box(ask(kind.own, text, writes, out));
        }
        Side::Decoder => {
            let decoded = black_box(decoder::read(text));
            if writes {
                black_box(decoded.map(|report| decoder::write(&report))).ok();
            }
        }
    }
}

/// The clock of the time that the processor gave to this thread.
const THREAD_CLOCK: i32 = 3;

extern "C" {
    fn clock_gettime(clock: i32, seconds_and_nanoseconds: *mut [i64; 2]) -> i32;
}

fn nanoseconds() -> i64 {
    let mut time = [0; 2];
    let status = unsafe { clock_gettime(THREAD_CLOCK, &mut time) };
    assert_eq!(status, 0);
    time[0] * 1_000_000_000 + time[1]
}

/// The shortest time that is measured, in nanoseconds.
const SHORTEST: i64 = 2_000_000;

/// Nanoseconds a text.
fn time(side: Side, texts: &Texts, writes: bool) -> f64 {
    let mut out = [0; decoder::LONGEST_TEXT];
    let (begun, mut took, mut count) = (nanoseconds(), 0, 0);
    while took < SHORTEST {
        for text in &texts.texts {
            work(side, texts.kind, text, writes, &mut out);
        }
        count += texts.texts.len();
        took = nanoseconds() - begun;
    }
    took as f64 / count as f64
}

fn median(mut times: Vec<f64>) -> f64 {
    times.sort_by(f64::total_cmp);
    times[times.len() / 2]
}

/// The longest name of a row.
const NAME_WIDTH: usize = "METAR with runway states, first group bad".len();

/// A row of a table: the texts, and for each side the times of the rounds.
struct Row {
    name: String,
    texts: Texts,
    writes: bool,
    times: [Vec<f64>; 3],
}

impl Row {
    fn new(name: String, texts: Texts, writes: bool) -> Row {
        hold_to_decoder(&texts);
        let times = Default::default();
        Row {
            name,
            texts,
            writes,
            times,
        }
    }

    /// The sides take turns, and who begins changes from round to round.
    fn run(&mut self, round: usize) {
        for turn in 0..SIDES.len() {
            let side = (round + turn) % SIDES.len();
            self.times[side].push(time(SIDES[side], &self.texts, self.writes));
        }
    }

    fn medians(&self) -> [f64; 3] {
        self.times.clone().map(median)
    }

    fn print(&self) {
        let bytes = self.texts.mean_bytes();
        let [any, own, decoder] = self.medians();
        print!("| {:<NAME_WIDTH$} | {bytes:>5} ", self.name);
        print!("| {any:>7.0} | {own:>10.0} | {decoder:>7.0} ");
        print!("| {:>17.2} | {:>13.2} ", decoder / any, decoder / own);
        println!("| {:>18.1} |", any / bytes as f64);
    }
}

/// The line between a table's head and its rows.
fn print_rule() {
    let names = "-".repeat(NAME_WIDTH + 2);
    println!("|{names}|--:|--:|--:|--:|--:|--:|--:|");
}

fn print_times(rows: &[Row]) {
    print!("\n| {:<NAME_WIDTH$} | bytes ", "nanoseconds a text");
    print!("| library | own reader | decoder ");
    println!("| decoder / library | decoder / own | library, ns a byte |");
    print_rule();
    rows.iter().for_each(Row::print);
}

fn valid_rows(valid: &[Texts]) -> Vec<Row> {
    let mut rows = Vec::new();
    for (what, writes) in [("read", false), ("read and write", true)] {
        for texts in valid {
            let name = format!("{}, {what}", texts.kind.name);
            rows.push(Row::new(name, texts.clone(), writes));
        }
    }
    rows
}

fn refused_rows(valid: &[Texts]) -> Vec<Row> {
    let faults: [(&str, Fault); 3] = [
        ("first byte", in_first_byte),
        ("first group", in_first_group),
        ("last group", in_last_group),
    ];
    let mut rows = Vec::new();
    for (place, fault) in faults {
        for texts in valid {
            let name = format!("{}, {place} bad", texts.kind.name);
            rows.push(Row::new(name, spoilt(texts, fault), false));
        }
    }
    rows
}

fn growth_rows() -> Vec<Row> {
    let mut rows = Vec::new();
    for changes in [0, 4, 8, 16] {
        let name = format!("TAF, {changes} changes, read");
        rows.push(Row::new(name, with_changes(changes), false));
    }
    for bytes in [0, 900, 1800] {
        let name = format!("METAR, {bytes} bytes unread, read");
        rows.push(Row::new(name, with_rest(bytes), false));
    }
    rows
}

// ---------------------------------------------------------------------------------------------
// Stack
// ---------------------------------------------------------------------------------------------

const STACK: usize = 4 << 20;
const PAINT: u64 = 0x5A17_5A17_5A17_5A17;
/// Below the stack pointer a function may keep this many bytes without moving it.
const RED_ZONE: usize = 128;

/// How deep a call goes: the stack below is painted first, and afterwards searched from its far
/// end for the first paint that is gone.
#[inline(never)]
fn depth(call: &mut dyn FnMut()) -> usize {
    let top: usize;
    unsafe { std::arch::asm!("mov {}, rsp", out(reg) top) };
    let end = top - STACK;
    for at in (end..top - RED_ZONE).step_by(8) {
        unsafe { (at as *mut u64).write_volatile(PAINT) };
    }
    call();
    let is_painted = |at: usize| unsafe { (at as *const u64).read_volatile() } == PAINT;
    let deepest = (end..top).step_by(8).find(|&at| !is_painted(at));
    top - deepest.unwrap_or(top)
}

/// The bytes of stack that one side takes for one text, in a thread of its own.
fn stack_used(side: Side, kind: Kind, text: &[u8], writes: bool) -> usize {
    let measure = || {
        let mut out = [0; decoder::LONGEST_TEXT];
        let mut call = || work(side, kind, text, writes, &mut out);
        call();
        depth(&mut call)
    };
    std::thread::scope(|scope| {
        let thread = std::thread::Builder::new().stack_size(2 * STACK);
        thread.spawn_scoped(scope, measure).unwrap().join().unwrap()
    })
}

fn print_stack(name: &str, texts: &Texts) {
    let text = texts.longest();
    print!("| {name:<NAME_WIDTH$} | {:>5} |", text.len());
    for writes in [false, true] {
        let [any, own, decoder] = SIDES.map(|side| stack_used(side, texts.kind, text, writes));
        print!(" {any:>7} | {own:>10} | {decoder:>7} |");
    }
    println!();
}

/// The longest report of each kind, and forecasts with no change and with the most.
fn print_stacks(valid: &[Texts]) {
    print!("\n| {:<NAME_WIDTH$} | bytes ", "bytes of stack");
    print!("| library | own reader | decoder ");
    println!("| library, written too | own reader | decoder |");
    print_rule();
    for texts in &valid[..5] {
        print_stack(texts.kind.name, texts);
    }
    print_stack("TAF, 0 changes", &with_changes(0));
    print_stack("TAF, 16 changes", &with_changes(16));
}

// ---------------------------------------------------------------------------------------------
// Cloud heights
// ---------------------------------------------------------------------------------------------

/// A call of the crate `answers_c`: codes of table 1690 and the room for their heights.
type Heights = unsafe extern "C" fn(*const u32, usize, *mut u32, usize) -> usize;

extern "C" {
    fn delgushar_heights_by_rule(c: *const u32, n: usize, h: *mut u32, m: usize) -> usize;
    fn delgushar_heights_by_table(c: *const u32, n: usize, h: *mut u32, m: usize) -> usize;
}

const BY_RULE_AND_TABLE: [Heights; 2] = [delgushar_heights_by_rule, delgushar_heights_by_table];

/// How many codes are asked at a time, which is also how many there are.
const CODES: usize = 1000;

fn fill(call: Heights, codes: &[u32; CODES], heights: &mut [u32; CODES]) {
    // The library keeps to the two slices: that is proved of it.
    let count = unsafe { call(codes.as_ptr(), CODES, heights.as_mut_ptr(), CODES) };
    assert_eq!(count, CODES);
}

/// A thousand codes, and for the rule and the table the times of the rounds.
struct CodesRow {
    name: &'static str,
    codes: [u32; CODES],
    times: [Vec<f64>; 2],
}

impl CodesRow {
    fn new(name: &'static str, codes: [u32; CODES]) -> CodesRow {
        let [mut by_rule, mut by_table] = [[0; CODES]; 2];
        fill(delgushar_heights_by_rule, &codes, &mut by_rule);
        fill(delgushar_heights_by_table, &codes, &mut by_table);
        assert_eq!(by_rule, by_table, "{name}");
        let times = Default::default();
        CodesRow { name, codes, times }
    }

    fn run(&mut self, round: usize) {
        for turn in 0..BY_RULE_AND_TABLE.len() {
            let side = (round + turn) % BY_RULE_AND_TABLE.len();
            let mut heights = [0; CODES];
            let (begun, mut took, mut count) = (nanoseconds(), 0, 0);
            while took < SHORTEST {
                fill(BY_RULE_AND_TABLE[side], black_box(&self.codes), &mut heights);
                black_box(&heights);
                count += 1;
                took = nanoseconds() - begun;
            }
            self.times[side].push(took as f64 / count as f64);
        }
    }

    fn print(&self) {
        let [rule, table] = self.times.clone().map(median);
        print!("| {:<NAME_WIDTH$} | {rule:>7.0} | {table:>8.0} ", self.name);
        println!("| {:>12.2} |", rule / table);
    }
}

/// The codes 000 to 999 in a fixed shuffled order.
fn mixed_codes() -> [u32; CODES] {
    let mut codes: [u32; CODES] = std::array::from_fn(|code| code as u32);
    let mut state = 1u32;
    for at in (1..CODES).rev() {
        state = state.wrapping_mul(1_664_525).wrapping_add(1_013_904_223);
        codes.swap(at, (state >> 16) as usize % (at + 1));
    }
    codes
}

fn codes_rows() -> [CodesRow; 3] {
    let mixed = mixed_codes();
    [
        CodesRow::new("codes 000 to 999 in order", std::array::from_fn(|code| code as u32)),
        CodesRow::new("codes 000 to 999, mixed", mixed),
        CodesRow::new("codes 000 to 099, mixed", mixed.map(|code| code % 100)),
    ]
}

fn print_heights(rows: &[CodesRow]) {
    print!("\n| {:<NAME_WIDTH$} ", "nanoseconds for 1,000 cloud heights");
    println!("| by rule | by table | rule / table |");
    println!("|{}|--:|--:|--:|", "-".repeat(NAME_WIDTH + 2));
    rows.iter().for_each(CodesRow::print);
}

/// Runs a call so many frames deeper. A time may depend on where the stack stands, so that the
/// rounds take different places.
#[inline(never)]
fn deeper(frames: usize, call: &mut dyn FnMut()) {
    let frame = black_box([0u8; 96]);
    match frames {
        0 => call(),
        _ => deeper(frames - 1, call),
    }
    black_box(&frame);
}

fn main() {
    let rounds = std::env::args().nth(1);
    let rounds = rounds.map_or(31, |word| word.parse().unwrap());
    let mut lines = String::new();
    std::io::stdin().read_to_string(&mut lines).unwrap();
    let [synop, ship, metar, taf] = [SYNOP, SHIP, METAR, TAF].map(|kind| of_kind(kind, &lines));
    let [synop, third] = by_sections(synop);
    let [metar, trend, state] = by_parts(metar);
    let valid = [synop, ship, metar, trend, state, taf, third];
    let mut rows = valid_rows(&valid);
    // in section 3 a last group that no place takes ends the reading, and no text is refused for it
    rows.extend(refused_rows(&valid[..6]));
    rows.extend(growth_rows());
    let mut heights = codes_rows();
    for round in 0..rounds {
        for row in &mut rows {
            deeper(round, &mut || row.run(round));
        }
        for row in &mut heights {
            deeper(round, &mut || row.run(round));
        }
    }
    let count = valid[1].texts.len();
    let thirds = valid[6].texts.len();
    let [trends, states] = [3, 4].map(|at: usize| valid[at].texts.len());
    print!("{count} reports of each kind, of the SYNOPs {thirds} with section 3, of the METARs {trends} with a trend and ");
    print!("{states} with runway states, ");
    println!("the median of {rounds} rounds.");
    print_times(&rows);
    print_heights(&heights);
    print_stacks(&valid);
}
