// The declarations and lengths of src/ffi.rs are those of include/potirehu.h.
use std::path::Path;

const FFI: &str = include_str!("../src/ffi.rs");

fn header() -> String {
    let path = Path::new(env!("CARGO_MANIFEST_DIR")).join("../../include/potirehu.h");
    std::fs::read_to_string(path).expect("the repository's include/potirehu.h")
}

// The text with every run of spaces and newlines as one space, and none inside a bracket's edge.
fn plain(text: &str) -> String {
    text.split_whitespace().collect::<Vec<_>>().join(" ").replace("( ", "(")
}

// A parameter or result of C in Rust.
fn rust_type(c: &str) -> &'static str {
    match c {
        "int32_t" => "i32",
        "int64_t" => "i64",
        "uint32_t" => "u32",
        "uint64_t" => "u64",
        "double" => "f64",
        "const uint8_t *" => "*const u8",
        "const int32_t *" => "*const i32",
        "const uint64_t *" => "*const u64",
        "const double *" => "*const f64",
        "int32_t *" => "*mut i32",
        "int64_t *" => "*mut i64",
        "uint32_t *" => "*mut u32",
        "uint64_t *" => "*mut u64",
        "double *" => "*mut f64",
        other => panic!("no Rust type for {other}"),
    }
}

fn parameter(c: &str) -> String {
    let name = c.rsplit([' ', '*']).next().unwrap();
    format!("{name}: {}", rust_type(c[..c.len() - name.len()].trim()))
}

#[test]
fn every_call_is_declared_as_the_header_has_it() {
    let (header, ffi) = (header(), plain(FFI));
    let mut count = 0;
    for start in header.match_indices("\nuint64_t potirehu_").map(|(i, _)| i) {
        let declaration = plain(header[start..].split(';').next().unwrap());
        let (head, parameters) = declaration.trim_end_matches(')').split_once('(').unwrap();
        let (result, name) = head.split_once(' ').unwrap();
        let parameters: Vec<String> = parameters.split(", ").map(parameter).collect();
        let expect = format!("pub fn {name}({}) -> {};", parameters.join(", "), rust_type(result));
        assert!(ffi.contains(&expect), "src/ffi.rs lacks {expect}");
        count += 1;
    }
    assert_eq!(count, ffi.matches("pub fn potirehu_").count());
}

// Each refusal has one name: `NoBand` is POTIREHU_NO_BAND, with the same number.
#[test]
fn every_kind_has_its_name_and_number_in_the_header() {
    let header = header();
    let (_, rest) = header.split_once("enum potirehu_number {").unwrap();
    let (enumerators, _) = rest.split_once("};").unwrap();
    let kinds = include_str!("../src/refusal.rs").split_once("pub enum Kind {").unwrap().1.split_once('}').unwrap().0;
    let kinds: Vec<(&str, &str)> = kinds.lines().filter_map(|line| line.trim().strip_suffix(',')?.split_once(" = ")).collect();
    for (name, number) in &kinds {
        let mut upper = String::new();
        for letter in name.chars() {
            if letter.is_uppercase() {
                upper.push('_');
            }
            upper.push(letter.to_ascii_uppercase());
        }
        assert!(enumerators.contains(&format!(" POTIREHU{upper} = {number}")), "the header lacks POTIREHU{upper} = {number}");
    }
    assert_eq!((kinds.len(), enumerators.matches(" POTIREHU_").count()), (19, 19));
}

// The fields with the altitudes behind them, the row's numbers and the switches are counted from 0, none left out.
#[test]
fn places_rows_and_switches_are_counted_from_0() {
    for (name, count) in [("field", 18), ("row_number", 11), ("switch", 24)] {
        let header = header();
        let enumerators = header.split_once(&format!("enum potirehu_{name} {{")).unwrap().1.split_once("};").unwrap().0;
        let number = |text: &str| text.chars().take_while(char::is_ascii_digit).collect::<String>().parse::<usize>().unwrap();
        let numbers: Vec<usize> = enumerators.split(" = ").skip(1).map(number).collect();
        assert_eq!(numbers, (0..count).collect::<Vec<_>>());
    }
}

#[test]
fn every_length_is_the_headers() {
    for (macro_name, name) in [
        ("POTIREHU_STATION_WHOLE", "WHOLE: usize"),
        ("POTIREHU_STATION_NUMBERS", "NUMBERS: usize"),
        ("POTIREHU_BANDS", "BANDS: usize"),
        ("POTIREHU_NINE", "NINE: usize"),
        ("POTIREHU_COUNTS", "COUNTS: usize"),
        ("POTIREHU_NOWHERE", "NOWHERE: u64"),
    ] {
        let header = header();
        let (_, rest) = header.split_once(&format!("#define {macro_name} ")).unwrap();
        let value = rest.lines().next().unwrap();
        assert!(FFI.contains(&format!("pub const {name} = {value};")), "{macro_name} is {value}");
    }
}
