// The line program: forms and hostile lines fed to it, each answer compared with document 01's grammar read here and the routed Rust's numbers.
use super::{answered, row_of, to_routed, Input, Random, EDGES};
use routed::astro::atmosphere::shim;
use std::io::{BufRead, BufReader, Write};
use std::process::{Command, Stdio};
use std::sync::mpsc::sync_channel;
use std::thread;

const FIELDS: [&str; 10] = ["year", "doy", "sec", "alt", "g_lat", "g_long", "lst", "f107a", "f107", "ap"];

// ---- document 01's grammar

enum Form {
    Dnet([i32; 5]),
    Ccor([i32; 4]),
    Run([i32; 10], Option<[i32; 7]>, [i32; 24]),
}

pub struct Reader<'a>(pub &'a [u8]);

impl Reader<'_> {
    pub fn text(&mut self, t: &str) -> Option<()> {
        self.0 = self.0.strip_prefix(t.as_bytes())?;
        Some(())
    }

    // An optional minus, 1 to 9 digits, no leading zero, no -0.
    pub fn number(&mut self) -> Option<i32> {
        let minus = self.text("-").is_some();
        let n = self.0.iter().take_while(|c| c.is_ascii_digit()).count();
        let (digits, rest) = self.0.split_at(n);
        self.0 = rest;
        if !(1..=9).contains(&n) || (digits[0] == b'0' && (n > 1 || minus)) {
            return None;
        }
        let size = digits.iter().fold(0, |v, c| 10 * v + (c - b'0') as i32);
        Some(if minus { -size } else { size })
    }

    // Numbers with a space before each, and the bracket behind them.
    pub fn numbers<const N: usize>(&mut self) -> Option<[i32; N]> {
        let mut out = [0; N];
        for x in &mut out {
            self.text(" ")?;
            *x = self.number()?;
        }
        self.text(")")?;
        Some(out)
    }

    fn form(&mut self) -> Option<Form> {
        if self.text("(dnet").is_some() {
            return self.numbers().map(Form::Dnet);
        }
        if self.text("(ccor").is_some() {
            return self.numbers().map(Form::Ccor);
        }
        self.text("(run")?;
        let mut fields = [0; 10];
        for (x, name) in fields.iter_mut().zip(FIELDS) {
            self.text(" (")?;
            self.text(name)?;
            *x = self.numbers::<1>()?[0];
        }
        let history = if self.text(" (ap_array").is_some() { Some(self.numbers()?) } else { None };
        self.text(" (switches")?;
        let row = self.numbers()?;
        self.text(")")?;
        Some(Form::Run(fields, history, row))
    }
}

fn read(line: &[u8]) -> Option<Form> {
    if line.len() > 511 {
        return None;
    }
    let mut r = Reader(line);
    let form = r.form()?;
    r.0.is_empty().then_some(form)
}

// ---- the answers

fn bits(x: f64) -> String {
    if x.is_nan() {
        "7ff8000000000000".to_string()
    } else {
        format!("{:016x}", x.to_bits())
    }
}

fn thousandths(n: i32) -> f64 {
    n as f64 / 1000.0
}

// The answer to line `number`, without its newline.
fn answer(line: &[u8], number: u64) -> String {
    match read(line) {
        None => format!("(refused 7 {number})"),
        Some(Form::Dnet(n)) => {
            let [dd, dm, zhm, xmm, xm] = n.map(thousandths);
            format!("(value {})", bits(shim::dnet(dd, dm, zhm, xmm, xm)))
        }
        Some(Form::Ccor(n)) => {
            let [alt, r, h1, zh] = n.map(thousandths);
            format!("(value {})", bits(shim::ccor(alt, r, h1, zh)))
        }
        Some(Form::Run(n, history, w)) => {
            let x = n.map(thousandths);
            let r = Input {
                year: n[0],
                doy: n[1],
                sec: x[2],
                alt: x[3],
                g_lat: x[4],
                g_long: x[5],
                lst: x[6],
                f107a: x[7],
                f107: x[8],
                ap: x[9],
                ap_array: history.map(|a| a.map(thousandths)),
            };
            match answered(&r, &w) {
                (0, 0) => {
                    let (row, _) = shim::gtd7(&to_routed(&r), w);
                    format!("(row {})", row.map(bits).join(" "))
                }
                (n, k) => format!("(refused {n} {k})"),
            }
        }
    }
}

// ---- lines

fn joined(xs: impl IntoIterator<Item = i64>) -> String {
    xs.into_iter().map(|x| x.to_string()).collect::<Vec<_>>().join(" ")
}

fn written(fields: &[i64; 10], history: Option<[i64; 7]>, row: &[i32; 24]) -> String {
    let fields = FIELDS.iter().zip(fields).map(|(name, v)| format!("({name} {v})")).collect::<Vec<_>>().join(" ");
    let array = history.map_or(String::new(), |a| format!(" (ap_array {})", joined(a)));
    format!("(run {fields}{array} (switches {}))", joined(row.map(i64::from)))
}

// A record in and at the ends of the ranges, and just beyond, with a row of any kind.
fn run_form(g: &mut Random) -> String {
    let field = |g: &mut Random, lo: i64, hi: i64| match g.below(8) {
        0 => lo,
        1 => hi,
        2 => hi + 500 * g.below(2) as i64,
        _ => lo + g.below((hi - lo + 1) as u64) as i64,
    };
    let mut row = row_of(g);
    row.iter_mut().for_each(|x| *x %= 1_000_000_000);
    let edge = (EDGES[g.below(20) as usize] * 1000.0) as i64 + g.below(3) as i64 - 1;
    let alt = if g.below(2) == 0 { edge.max(0) } else { field(g, 0, 2_500_000) };
    let numbers = [
        field(g, 0, 86_400_000),
        alt,
        field(g, -90_000, 90_000),
        field(g, -1_000_000, 1_000_000),
        field(g, -24_000, 48_000),
        60_000 + g.below(200_000) as i64,
        60_000 + g.below(200_000) as i64,
        field(g, 0, 400_000),
    ];
    let history = std::array::from_fn(|_| g.below(400_001) as i64);
    let there = g.below(2) == 0;
    let mut fields = [g.below(4000) as i64 - 1000, 1 + g.below(367) as i64, 0, 0, 0, 0, 0, 0, 0, 0];
    fields[2..].copy_from_slice(&numbers);
    written(&fields, there.then_some(history), &row)
}

// A number of 1 to 9 digits, often small or as long as it may be.
fn any_number(g: &mut Random) -> i64 {
    let digits = 1 + g.below(9) as u32;
    let size = g.below(10u64.pow(digits)) as i64;
    match g.below(4) {
        0 => -size,
        1 => 999_999_999 * (1 - 2 * g.below(2) as i64),
        _ => size,
    }
}

// Forms with numbers of any length; those with long ones lie about 511 bytes.
fn wide_form(g: &mut Random) -> String {
    let long = g.below(2) == 0;
    let mut number = || if long && g.below(8) > 0 { (100_000_000 + g.below(900_000_000) as i64) * (1 - 2 * g.below(2) as i64) } else { any_number(g) };
    let dnet: [i64; 5] = std::array::from_fn(|_| number());
    let fields = std::array::from_fn(|_| number());
    let history = std::array::from_fn(|_| number());
    let row = std::array::from_fn(|_| number() as i32);
    match g.below(4) {
        0 => format!("(dnet {})", joined(dnet)),
        1 => format!("(ccor {})", joined(dnet.into_iter().skip(1))),
        _ => written(&fields, (long || g.below(2) == 0).then_some(history), &row),
    }
}

fn good_line(g: &mut Random) -> Vec<u8> {
    if g.below(16) == 0 { wide_form(g) } else { run_form(g) }.into_bytes()
}

// A form with one to three bytes or words changed; or no form at all.
fn hostile_line(g: &mut Random) -> Vec<u8> {
    let mut line = if g.below(2) == 0 { run_form(g) } else { wide_form(g) }.into_bytes();
    match g.below(24) {
        0 => return Vec::new(),
        1 => return (0..g.below(40)).map(|_| g.next() as u8).collect(),
        2 => {
            let n = [500, 510, 511, 512, 513, 1023, 1024, 1025, 4096, 65_536, 70_000][g.below(11) as usize];
            line.resize(n, b" 0)("[g.below(4) as usize]);
            return line;
        }
        3 => {
            let more = line.clone();
            line.extend(if g.below(2) == 0 { &b" "[..] } else { b"" });
            line.extend(more);
        }
        4 => line.extend([&b"\r"[..], b" ", b"\0", b")", b"\t", b"0"][g.below(6) as usize]),
        5 => {
            line.insert(0, b" (\t0-"[g.below(5) as usize]);
        }
        6 => return String::from_utf8(line).expect("a form").to_uppercase().into_bytes(),
        _ => {
            for _ in 0..1 + g.below(3) {
                let k = g.below(line.len() as u64) as usize;
                let c = if g.below(3) == 0 { g.next() as u8 } else { b" ()-0123456789anps_"[g.below(19) as usize] };
                match g.below(6) {
                    0 => {
                        line.remove(k);
                    }
                    1 => line.insert(k, c),
                    2 => line.insert(k, line[k]),
                    3 => {
                        let j = g.below(line.len() as u64) as usize;
                        line.swap(j, k);
                    }
                    4 => {
                        // a number's first byte: a zero or a minus before it
                        let at = line.iter().enumerate().skip(k).find(|(_, c)| c.is_ascii_digit()).map_or(k, |(i, _)| i);
                        line.insert(at, b"0-"[g.below(2) as usize]);
                    }
                    _ => line[k] = c,
                }
                if line.is_empty() {
                    return line;
                }
            }
            if g.below(10) == 0 {
                line.truncate(g.below(line.len() as u64 + 1) as usize);
            }
        }
    }
    line
}

// ---- the comparison

// Feeds count lines to the program and compares its answers; the last line has no newline.
fn compare(what: &str, program: &str, g: &mut Random, count: u64, line: fn(&mut Random) -> Vec<u8>) -> u64 {
    let mut child = Command::new(program).stdin(Stdio::piped()).stdout(Stdio::piped()).spawn().expect("the line program");
    let mut input = child.stdin.take().expect("its input");
    let output = BufReader::with_capacity(1 << 16, child.stdout.take().expect("its output"));
    let (sender, batches) = sync_channel::<Vec<u8>>(2);
    let mut to_writer = Some(sender);
    let writer = thread::spawn(move || batches.iter().for_each(|b| input.write_all(&b).expect("the program reads")));
    let (answers, from_reader) = sync_channel::<Vec<u8>>(1 << 16);
    let reader = thread::spawn(move || {
        for text in output.split(b'\n') {
            if answers.send(text.expect("the program writes")).is_err() {
                return;
            }
        }
    });
    let (mut done, mut bad, mut forms, mut rows, mut long) = (0u64, 0u64, 0u64, 0u64, 0u64);
    while done < count {
        let mut batch = Vec::new();
        let n = (count - done).min(4096);
        for i in 0..n {
            // a newline would end the line
            let mut l = line(g);
            l.iter_mut().filter(|c| **c == b'\n').for_each(|c| *c = b'\x0b');
            // an empty last line without its newline is no line
            if done + i + 1 == count && l.is_empty() {
                l.push(b'(');
            }
            batch.extend(&l);
            batch.push(b'\n');
        }
        let lines: Vec<Vec<u8>> = batch[..batch.len() - 1].split(|c| *c == b'\n').map(<[u8]>::to_vec).collect();
        if done + n == count {
            batch.pop();
        }
        to_writer.as_ref().expect("lines are left").send(batch).expect("the writer");
        // the program answers a last line without a newline where its input ends
        if done + n == count {
            to_writer = None;
        }
        for l in lines {
            done += 1;
            let want = answer(&l, done);
            let have = from_reader.recv().unwrap_or_default();
            forms += !want.starts_with("(refused 7") as u64;
            rows += want.starts_with("(row") as u64;
            long += (l.len() > 511) as u64;
            if have != want.as_bytes() {
                bad += 1;
                if bad <= 3 {
                    println!("line {done} differs: {:?}\n  {:?}\n  {want:?}", String::from_utf8_lossy(&l), String::from_utf8_lossy(&have));
                }
            }
        }
    }
    drop(to_writer);
    writer.join().expect("the writer");
    let more = from_reader.iter().count() as u64;
    reader.join().expect("the reader");
    let status = child.wait().expect("the program's end");
    if more > 0 || !status.success() {
        bad += 1;
        println!("{more} answers too many, the program ended with {status}");
    }
    println!("{what}: {done} lines, {forms} of them forms, {long} longer than 511 bytes, {rows} rows, {bad} differences");
    bad
}

pub fn good(program: &str, g: &mut Random, count: u64) -> u64 {
    compare("line program, forms", program, g, count, good_line)
}

pub fn hostile(program: &str, g: &mut Random, count: u64) -> u64 {
    compare("line program, hostile lines", program, g, count, hostile_line)
}

// Forms and the answers to them, as two files.
pub fn forms(g: &mut Random, count: u64, input: &str, output: &str) {
    let (mut lines, mut answers) = (String::new(), String::new());
    for number in 1..=count {
        let line = run_form(g);
        answers += &answer(line.as_bytes(), number);
        answers += "\n";
        lines += &line;
        lines += "\n";
    }
    std::fs::write(input, lines).expect("the file of forms");
    std::fs::write(output, answers).expect("the file of answers");
}
