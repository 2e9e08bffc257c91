//! NRLMSISE-00, the air-density model of low satellites, from the proved library `libpotirehu.a`, behind the names of the Rust
//! `astro::atmosphere`: `NrlmsiseInput`, `Flags`, `gtd7` and its other calls stay as they are written, and only the `use` line changes, save
//! in two places, where the compiler stops: a `match` on the variants of `AtmosphereError` ([`Refusal`] has them as its `kind`), and a
//! write to `flags.switches`, which had no effect ([`Flags`]).
//!
//! ```
//! use potirehu::{gtd7, Flags, NrlmsiseInput};
//! let input = NrlmsiseInput {
//!     year: 2026, doy: 172, sec: 29000.0, alt: 400.0, g_lat: 60.0, g_long: -70.0, lst: 16.0,
//!     f107a: 150.0, f107: 150.0, ap: 4.0, ap_array: None,
//! };
//! match gtd7(&input, &Flags::metric()) {
//!     Ok(air) => println!("{:e} kg/m^3 at {} K", air.density(), air.temperature_alt()),
//!     Err(refusal) => println!("{refusal}"),
//! }
//! ```
//!
//! No call keeps anything, so all may be made from several threads. The rules are in docs/RULES.md of the repository.
#![deny(missing_docs)]
#![deny(clippy::undocumented_unsafe_blocks)]

mod bands;
mod column;
mod descent;
mod ffi;
mod known_in_part;
mod logs;
mod many_records;
mod one_altitude;
mod record;
mod refusal;
mod station;

pub use bands::Bands;
pub use column::{column, column_into, crossings, crossings_into, first_below, MAX_ALTITUDES};
pub use descent::{descent, descent_into, Descent, End, Ending, MAX_ORBITS};
pub use known_in_part::{counts, gtd7_known, known};
pub use logs::{compare_logs, Finding, Log};
pub use many_records::{records, records_into, Answer};
pub use one_altitude::{gtd7, gtd7_with, gtd7d, nrlmsise00, nrlmsise00_with_lst, Parameters};
pub use record::{local_solar_time, ApArray, Flags, NrlmsiseInput, NrlmsiseOutput};
pub use record::{DEFAULT_AP, DEFAULT_F107, DEFAULT_F107A, MAX_ALTITUDE_KM};
pub use refusal::{Kind, Refusal};
pub use station::Station;

/// The name under which the Rust's callers know a refusal; [`Refusal::kind`] has the names of its three variants, [`Refusal::field`] what
/// they carry.
pub type AtmosphereError = Refusal;
