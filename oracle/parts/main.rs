// Compares the functions of liboracle_parts.a with the Rust's.
mod atmosphere;
mod random;
mod routed;

fn main() {
    let number = |i: usize| std::env::args().nth(i).and_then(|s| s.parse().ok());
    let differences = atmosphere::compare(number(1).unwrap_or(1), number(2).unwrap_or(1_000_000));
    std::process::exit((differences > 0) as i32);
}
