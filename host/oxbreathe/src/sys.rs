//! The library's C functions as they are, their pointers and lengths put together to slices, so that they are safe to call. What
//! the fields of an answer hold is said in include/oxbreathe.h.

use crate::refusal::{Answer, Refusal};

/// Plain data of the C interface; an answer starts with its refusal, as far as the call tells it.
macro_rules! structs {
    ($($(#[$doc:meta])* $name:ident [$($refusal:ident)*] { $($field:ident: $type:ty),* })*) => {
        $(structs! { @ $(#[$doc])* $name [$($refusal)*] { $($field: $type),* } })*
    };
    (@ $(#[$doc:meta])* $name:ident [] { $($field:ident: $type:ty),* $(,)? }) => {
        $(#[$doc])*
        #[repr(C)]
        #[derive(Clone, Copy, Debug, Default, PartialEq, Eq)]
        pub struct $name { $(pub $field: $type),* }
    };
    (@ $(#[$doc:meta])* $name:ident [refusal] { $($field:ident: $type:ty),* }) => {
        structs! { @ $(#[$doc])* $name [] { refusal: u32, $($field: $type),* } }
        impl Answer for $name {
            fn refusal(&self) -> Option<Refusal> {
                Refusal::told(self.refusal)
            }
        }
    };
    (@ $(#[$doc:meta])* $name:ident [refusal place] { $($field:ident: $type:ty),* }) => {
        structs! { @ $(#[$doc])* $name [] { refusal: u32, place: usize, $($field: $type),* } }
        impl Answer for $name {
            fn refusal(&self) -> Option<Refusal> {
                Some(Refusal::told(self.refusal)?.placed(self.place))
            }
        }
    };
    (@ $(#[$doc:meta])* $name:ident [refusal place name] { $($field:ident: $type:ty),* }) => {
        structs! { @ $(#[$doc])* $name [] {
            refusal: u32, place: usize, name: usize, name_length: usize, wanted: u64, left: u64, $($field: $type),*
        } }
        impl Answer for $name {
            fn refusal(&self) -> Option<Refusal> {
                let refusal = Refusal::told(self.refusal)?.placed(self.place);
                Some(refusal.of_field(self.name, self.name_length, self.wanted, self.left))
            }
        }
    };
}

structs! {
    /// Is the text taken: the place of its first bad byte, or its length.
    Checked [refusal place] {}
    /// The part of a text that trimming keeps.
    Trimmed [refusal place] { start: usize, end: usize }
    /// Yes or no.
    Told [refusal place] { yes: bool }
    /// 0 less, 1 equal, 2 greater.
    Ordered [refusal place] { order: u32 }
    /// The place of a byte, or the text's length.
    Found [refusal place] { at: usize }
    /// A number that a text spells, by sign and size, or none.
    Numbered [refusal place] { present: bool, negative: bool, size: u64 }
    /// How many bytes were written to a lent output.
    Written [refusal] { length: usize }

    /// Where the bytes of a text stand. Kind 0: nowhere, it is absent; 1: `len` bytes of the text from `start`; 2: those in
    /// capitals; 3 and 4: entry `start` of the bands, of the modes.
    Place [] { kind: u32, start: u32, len: u32 }
    /// Entries of a table, one after the other.
    Span [] { first: u32, count: u32 }
    /// The name of an entry, with 0 after it.
    Name [] { bytes: [u8; 12], len: usize }
    /// An entry of a table, or none.
    Placed [refusal place] { entry: Place }
    /// A mode and a submode. Where `split` is true, the submode is in the text of the mode.
    Normalized [refusal place] { mode: Place, submode: Place, split: bool }
    /// A class by its number, or none: 0 phone, 1 cw, 2 digital, 3 image.
    Classified [refusal place] { present: bool, class: u32 }

    /// The hertz that a text of megahertz says, or none.
    Frequency [refusal place] { present: bool, hz: u64 }
    /// With a moment, its seconds since the first day of year 0.
    Timed [refusal place] { present: bool, seconds: u64 }

    /// How a text was read: the records and the rows they take.
    ReadAnswer [refusal place name] { records: usize, rows: usize }

    /// A frequency in hertz, if one is given. Flags of a contact are numbers, 0 or 1; with any other it is refused.
    Hertz [] { given: u8, hz: u64 }
    /// The number of the DXCC entity by sign and size, if one is given.
    Dxcc [] { given: u8, negative: u8, size: u64 }
    /// A contact over a text: its columns, in the order of [`Column`](crate::qso::Column), and its numbers.
    Qso [] { columns: [Place; 13], freq: Hertz, freq_rx: Hertz, dxcc: Dxcc }
    /// The number of the column that a name names, 13 where it names none.
    ColumnAnswer [refusal place] { column: u32 }
    /// A contact, which a refusal leaves empty, unchanged or without its frequencies.
    QsoAnswer [refusal] { qso: Qso }
    /// How many bytes a contact took; and the contact, unchanged.
    QsoWritten [refusal] { length: usize, qso: Qso }

    /// A contact list's mark.
    MarkAnswer [refusal] { contacts: usize, largest: u64 }
    /// Whether a plan with a mark is fresh against a list.
    FreshAnswer [refusal] { fresh: bool }
    /// How many bytes a list has after a contact was appended.
    AppendAnswer [refusal] { length: usize }
    /// What the contact index keeps of a contact: its id, the services that confirmed it, and where the length bytes of call,
    /// date, time, band and mode stand in the list. The rest is the index's own.
    Record [] {
        id: u64, seconds: u64, head: u32, next: u32, code: u32, services: u32,
        call: u32, date: u32, time: u32, band: u32, mode: u32, timed: u32
    }

    /// What a plan counts: records, those to import, contacts and services newly confirmed and confirmed already, duplicates,
    /// confirmations that match no contact, and unusable records.
    Counts [] {
        total: u64, importable: u64, confirmations: u64, already_confirmed: u64, duplicates: u64, unmatched: u64, unusable: u64
    }
    /// How a plan was made: how much of each table is in use, the list's mark and the counts.
    PlanAnswer [refusal place name] {
        records: usize, rows: usize, confirmations: usize, contacts: usize, largest: u64, counts: Counts
    }
}

/// The numbers of a row.
pub const ROW: usize = 5;

/// A field: the number of its record, from 1, and the places and lengths of its name and its value.
pub type Row = [u32; ROW];

/// A record's fate and reason; the rest is room to work in, and zero after the call.
pub type Fated = [u32; 28];

/// A contact's id, low half first, the bit of the service that confirms it, and where the date stands in the text and how
/// long it is.
pub type Confirmed = [u32; 5];

/// A function of the library for each line, there with `ox_` before its name, where a slice is a pointer and a length.
macro_rules! calls {
    ($($name:ident($($parameters:tt)*) -> $answer:ty;)*) => {
        $(
            #[doc = concat!("`ox_", stringify!($name), "`.")]
            pub fn $name($($parameters)*) -> $answer {
                calls!(@ $name $answer, [] [] $($parameters)*)
            }
        )*
    };
    (@ $name:ident $answer:ty, [$($type:ty,)*] [$($value:expr,)*] $slice:ident: &[$item:ty] $(, $($rest:tt)*)?) => {
        calls!(@ $name $answer, [$($type,)* *const $item, usize,]
            [$($value,)* $slice.as_ptr(), $slice.len(),] $($($rest)*)?)
    };
    (@ $name:ident $answer:ty, [$($type:ty,)*] [$($value:expr,)*] $slice:ident: &mut [$item:ty] $(, $($rest:tt)*)?) => {
        calls!(@ $name $answer, [$($type,)* *mut $item, usize,]
            [$($value,)* $slice.as_mut_ptr(), $slice.len(),] $($($rest)*)?)
    };
    (@ $name:ident $answer:ty, [$($type:ty,)*] [$($value:expr,)*] $plain:ident: $kind:ty $(, $($rest:tt)*)?) => {
        calls!(@ $name $answer, [$($type,)* $kind,] [$($value,)* $plain,] $($($rest)*)?)
    };
    (@ $name:ident $answer:ty, [$($type:ty,)*] [$($value:expr,)*]) => {{
        #[link(name = "oxbreathe", kind = "static")]
        unsafe extern "C" {
            #[link_name = concat!("ox_", stringify!($name))]
            fn $name($(_: $type),*) -> $answer;
        }
        // Safe: each pointer and length come from one slice that lives through the call, and no function keeps them.
        unsafe { $name($($value),*) }
    }};
}

calls! {
    text_check(text: &[u8]) -> Checked;
    text_trim(text: &[u8]) -> Trimmed;
    text_blank(text: &[u8]) -> Told;
    text_same(a: &[u8], b: &[u8]) -> Told;
    text_same_raised(a: &[u8], b: &[u8]) -> Told;
    text_order_raised(a: &[u8], b: &[u8]) -> Ordered;
    text_find(text: &[u8], from: usize, byte: u8) -> Found;
    text_unsigned(text: &[u8]) -> Numbered;
    text_signed(text: &[u8]) -> Numbered;
    text_digits(number: u64, out: &mut [u8]) -> Written;

    band_for_freq_hz(hz: u64) -> Place;
    band_all() -> Span;
    entry_name(kind: u32, entry: u32) -> Name;
    band_canonical(text: &[u8]) -> Placed;
    band_known(text: &[u8]) -> Told;
    mode_normalize(mode: &[u8], submode: &[u8], given: bool) -> Normalized;
    mode_class(text: &[u8]) -> Classified;
    class_named(text: &[u8]) -> Classified;
    class_modes(class: u32) -> Span;
    class_name(class: u32) -> Name;

    mhz_to_hz(mhz: &[u8]) -> Frequency;
    hz_to_mhz(hz: u64, out: &mut [u8]) -> Written;

    read(text: &[u8], table: &mut [u32]) -> ReadAnswer;
    write(text: &[u8], table: &[u32], count: usize, out: &mut [u8]) -> Written;
    journal_header(out: &mut [u8]) -> Written;
    export_header(version: &[u8], program: &[u8], created: &[u8], out: &mut [u8]) -> Written;
    station_fields(
        call: &[u8], grid: &[u8], name: &[u8], state: &[u8], county: &[u8], cq: &[u8], itu: &[u8], out: &mut [u8]
    ) -> Written;

    column(name: &[u8]) -> ColumnAnswer;
    record_to_qso(text: &[u8], table: &[u32], first: usize, count: usize) -> QsoAnswer;
    record_to_normal_qso(text: &[u8], table: &[u32], first: usize, count: usize) -> QsoAnswer;
    normalize_qso(text: &[u8], qso: Qso) -> QsoAnswer;
    write_qso(text: &[u8], qso: Qso, table: &[u32], count: usize, out: &mut [u8]) -> QsoWritten;

    parse_dt(date: &[u8], time: &[u8]) -> Timed;
    in_log(a: &[u8], q: Qso, b: &[u8], o: Qso) -> Told;
    in_file(a: &[u8], q: Qso, b: &[u8], o: Qso) -> Told;
    same_natural_key(a: &[u8], q: Qso, b: &[u8], o: Qso) -> Told;
    within_window(a: &[u8], q: Qso, b: &[u8], o: Qso, window: i64) -> Told;
    is_duplicate(a: &[u8], q: Qso, b: &[u8], o: Qso, window: i64) -> Told;

    contacts_check(list: &[u8]) -> MarkAnswer;
    contacts_fresh(contacts: usize, largest: u64, list: &[u8]) -> FreshAnswer;
    contacts_index(list: &[u8], index: &mut [Record]) -> MarkAnswer;
    contacts_search(
        list: &[u8], other: &[u8], window: i64, index: &mut [Record], found: &mut [u64]
    ) -> MarkAnswer;
    contacts_start(out: &mut [u8]) -> AppendAnswer;
    contacts_append(
        out: &mut [u8], used: usize, contacts: usize, largest: u64, id: u64, services: u8,
        call: &[u8], date: &[u8], time: &[u8], band: &[u8], mode: &[u8]
    ) -> AppendAnswer;

    plan(
        text: &[u8], list: &[u8], window: i64, download: bool,
        table: &mut [u32], index: &mut [Record], fates: &mut [Fated], confirmations: &mut [Confirmed]
    ) -> PlanAnswer;
    plan_summary(counts: Counts, out: &mut [u8]) -> Written;
}
