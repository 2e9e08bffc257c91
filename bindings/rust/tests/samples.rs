// The published samples, in all seven digits.
use potirehu::{gtd7, Flags, NrlmsiseInput};

// The number behind a name of a line.
fn named(line: &str, name: &str) -> f64 {
    let mut words = line.split_whitespace().skip_while(|word| *word != name);
    words.nth(1).unwrap_or_else(|| panic!("{name} in {line}")).parse().unwrap()
}

#[test]
fn published_samples() {
    let text = include_str!("samples.txt");
    let mut lines = text.lines();
    let mut count = 0;
    while let Some(line) = lines.next() {
        if !line.starts_with("case ") {
            continue;
        }
        let mut input = NrlmsiseInput {
            year: 0,
            doy: named(line, "doy") as i32,
            sec: named(line, "sec"),
            alt: named(line, "alt"),
            g_lat: named(line, "g_lat"),
            g_long: named(line, "g_long"),
            lst: named(line, "lst"),
            f107a: named(line, "f107a"),
            f107: named(line, "f107"),
            ap: named(line, "ap"),
            ap_array: None,
        };
        let mut flags = Flags::standard();
        if line.contains("ap_array") {
            input.ap_array = Some([named(line, "ap_array"); 7]);
            flags.switches[9] = -1;
        }
        let figures = [lines.next().unwrap(), lines.next().unwrap()].join(" ");
        let figures: Vec<f64> = figures.split_whitespace().map(|x| x.parse().unwrap()).collect();
        assert_eq!(figures.len(), 11);
        let air = gtd7(&input, &flags).unwrap();
        for (k, (x, figure)) in air.d.iter().chain(&air.t).zip(figures).enumerate() {
            let shown: f64 = format!("{x:.6e}").parse().unwrap();
            assert_eq!(shown, figure, "number {k} of {line}");
        }
        count += 1;
    }
    assert_eq!(count, 17);
}
