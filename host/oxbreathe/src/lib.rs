//! Oxbreathe for Rust: safe calls of the proved library, with no dependencies. It links `liboxbreathe.a`, for x86-64 Linux, which is
//! shipped in the folder `dist`; Cargo looks there, or in the folder `OXBREATHE_LIB`, and rustc is told by `-L native=`.
//!
//! Every call takes any bytes and answers with a value or a [`Refusal`], which says what for and where in the text; none panics.
//! What a value holds of a text is a part of that text: nothing is copied that can be borrowed.
//!
//! A log that is there already and a file to import:
//!
//! ```
//! use oxbreathe::contacts::{Contact, Writer};
//! use oxbreathe::plan::{Fate, Reason, plan};
//!
//! let mut log = Writer::new();
//! let (date, time) = ("20260301", "1200");
//! log.append(&Contact { id: 7, call: "W1AW", date, time, band: "40m", mode: "SSB", ..Contact::default() })?;
//!
//! let file = b"<CALL:4>w1aw <QSO_DATE:8>20260301 <TIME_ON:4>1210 <BAND:3>40M <MODE:3>USB <EOR>
//!              <CALL:5>G4ZZ  <QSO_DATE:8>20260301 <TIME_ON:4>1215 <BAND:3>40M <MODE:3>USB <EOR>
//!              <CALL:4>G4ZZ <EOR>";
//! let plan = plan(file, log.bytes(), 1800)?;
//! assert_eq!(plan.fates, [Fate::DuplicateInLog, Fate::Importable, Fate::Unusable(Reason::BadDate)]);
//! for (record, fate) in plan.records() {
//!     println!("{} {} {}", record.number(), record.field("CALL").unwrap_or_default(), fate.name());
//! }
//! assert_eq!(plan.summary(), "3 records · 1 to import · 1 duplicate (skipped) · 1 unusable");
//! # Ok::<(), oxbreathe::Refusal>(())
//! ```
#![deny(missing_docs)]

/// An enumeration: each case with its number in the C interface and what it is called, which is also its documentation.
macro_rules! numbered {
    ($(#[$doc:meta])* $type:ident { $($(#[$more:meta])* $case:ident = $number:literal $name:literal,)* }) => {
        $(#[$doc])*
        #[derive(Clone, Copy, Debug, PartialEq, Eq, PartialOrd, Ord, Hash)]
        #[repr(u32)]
        pub enum $type {
            $(#[doc = concat!($name, ".")] $(#[$more])* $case = $number,)*
        }

        impl $type {
            /// All of them, by their numbers.
            pub const ALL: &'static [$type] = &[$($type::$case),*];

            /// The one with this number in the C interface.
            pub fn numbered(number: u32) -> Option<$type> {
                $type::ALL.iter().copied().find(|of| of.number() == number)
            }

            /// Its number in the C interface.
            pub fn number(self) -> u32 {
                self as u32
            }

            /// What it is called.
            pub fn name(self) -> &'static str {
                match self {
                    $($type::$case => $name,)*
                }
            }
        }
    };
}

pub mod contacts;
pub mod dedupe;
pub mod frequency;
pub mod normalize;
pub mod plan;
pub mod qso;
pub mod reading;
mod refusal;
#[allow(missing_docs)]
pub mod sys;
pub mod text;
pub mod writing;

pub use refusal::{Cause, Refusal};

/// The SHA-256 over the sources that the library was built from, as the file `BUILT` beside the archive tells it.
pub const SOURCES: &str = told(option_env!("OXBREATHE_SOURCES"));

/// The kit of Rattle that proved and compiled them.
pub const KIT: &str = told(option_env!("OXBREATHE_KIT"));

const fn told(built: Option<&'static str>) -> &'static str {
    match built {
        Some(told) => told,
        None => "unknown",
    }
}

/// The longest text, list or output that the library takes, in bytes.
pub const LONGEST: usize = 16_777_216;
