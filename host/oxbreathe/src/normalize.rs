//! Bands, modes and mode classes. A text is refused as in [`text`](crate::text).

use crate::refusal::{Answer, Refusal};
use crate::sys::{self, Place};
use crate::text::{part, taken};
use std::borrow::Cow;
use std::sync::LazyLock;

const BAND: u32 = 3;
const MODE: u32 = 4;

/// The names of the library's tables, asked once.
static BANDS: LazyLock<Vec<String>> = LazyLock::new(|| names(BAND));
static MODES: LazyLock<Vec<String>> = LazyLock::new(|| names(MODE));
static CLASSES: LazyLock<Vec<String>> = LazyLock::new(|| (0..4).map(|class| name(sys::class_name(class))).collect());

fn name(name: sys::Name) -> String {
    name.bytes.iter().take(name.len).map(|&byte| char::from(byte)).collect()
}

fn names(kind: u32) -> Vec<String> {
    (0..).map(|entry| name(sys::entry_name(kind, entry))).take_while(|name| !name.is_empty()).collect()
}

fn entry(table: &'static [String], entry: u32) -> &'static str {
    table.get(entry as usize).map_or("", String::as_str)
}

/// What a place stands for, over its text; none where it is absent.
pub(crate) fn spelled(text: &str, place: Place) -> Option<Cow<'_, str>> {
    let part = || part(text, place.start, place.len);
    match place.kind {
        1 => part().map(Cow::Borrowed),
        2 => part().map(|part| Cow::Owned(part.to_ascii_uppercase())),
        BAND => Some(Cow::Borrowed(entry(&BANDS, place.start))),
        MODE => Some(Cow::Borrowed(entry(&MODES, place.start))),
        _ => None,
    }
}

/// A band of the library's table.
#[derive(Clone, Copy, Debug, PartialEq, Eq, PartialOrd, Ord, Hash)]
pub struct Band(u32);

impl Band {
    /// The band at a place, or none where the place is absent.
    fn at(place: Place) -> Option<Band> {
        (place.kind == BAND).then_some(Band(place.start))
    }

    /// Its name, as `40m`.
    pub fn name(self) -> &'static str {
        entry(&BANDS, self.0)
    }
}

/// The band of a frequency.
///
/// ```
/// use oxbreathe::normalize::{Band, band_for_freq_hz};
///
/// assert_eq!(band_for_freq_hz(7_300_000).map(Band::name), Some("40m"));
/// assert_eq!(band_for_freq_hz(7_300_001), None);
/// ```
pub fn band_for_freq_hz(hz: u64) -> Option<Band> {
    Band::at(sys::band_for_freq_hz(hz))
}

/// Every band, low to high.
///
/// ```
/// assert_eq!(oxbreathe::normalize::known_bands().next().map(|band| band.name()), Some("2190m"));
/// ```
pub fn known_bands() -> impl Iterator<Item = Band> {
    let all = sys::band_all();
    (all.first..).take(all.count as usize).map(Band)
}

/// Does the text name a band, white space around it and the case of its letters aside.
///
/// ```
/// assert_eq!(oxbreathe::normalize::is_known_band(b" 70CM"), Ok(true));
/// ```
pub fn is_known_band(text: &[u8]) -> Result<bool, Refusal> {
    Ok(sys::band_known(text).accepted()?.yes)
}

/// The band that the text names.
///
/// ```
/// let band = oxbreathe::normalize::canonical_band(b" 70CM")?;
/// assert_eq!(band.map(|band| band.name()), Some("70cm"));
/// # Ok::<(), oxbreathe::Refusal>(())
/// ```
pub fn canonical_band(text: &[u8]) -> Result<Option<Band>, Refusal> {
    Ok(Band::at(sys::band_canonical(text).accepted()?.entry))
}

/// ADIF's MODE and SUBMODE for a mode and a submode as they were written.
///
/// ```
/// let (mode, submode) = oxbreathe::normalize::normalize_mode(b"ft4", None)?;
/// assert_eq!((&*mode, submode.as_deref()), ("MFSK", Some("FT4")));
/// # Ok::<(), oxbreathe::Refusal>(())
/// ```
pub fn normalize_mode<'a>(
    mode: &'a [u8],
    submode: Option<&'a [u8]>,
) -> Result<(Cow<'a, str>, Option<Cow<'a, str>>), Refusal> {
    let own = submode.unwrap_or_default();
    let normal = sys::mode_normalize(mode, own, submode.is_some()).accepted()?;
    // Safe: both were accepted.
    let (mode, own) = unsafe { (taken(mode), taken(own)) };
    let submode = spelled(if normal.split { mode } else { own }, normal.submode);
    Ok((spelled(mode, normal.mode).unwrap_or_default(), submode))
}

/// A coarse family of modes, in the order of the numbers of the C interface, from 0.
#[derive(Clone, Copy, Debug, PartialEq, Eq, Hash)]
pub enum ModeClass {
    /// Voice.
    Phone,
    /// Telegraphy.
    Cw,
    /// Data.
    Digital,
    /// Pictures.
    Image,
}

impl ModeClass {
    /// All of them, by their numbers.
    pub const ALL: [ModeClass; 4] = [ModeClass::Phone, ModeClass::Cw, ModeClass::Digital, ModeClass::Image];

    fn told(answer: sys::Classified) -> Result<Option<ModeClass>, Refusal> {
        let class = answer.accepted()?;
        Ok(ModeClass::ALL.get(class.class as usize).copied().filter(|_| class.present))
    }

    /// Its name, as `digital`.
    pub fn name(self) -> &'static str {
        entry(&CLASSES, self as u32)
    }

    /// The class that the text names.
    ///
    /// ```
    /// use oxbreathe::normalize::ModeClass;
    ///
    /// assert_eq!(ModeClass::parse(b" Digital"), Ok(Some(ModeClass::Digital)));
    /// ```
    pub fn parse(text: &[u8]) -> Result<Option<ModeClass>, Refusal> {
        ModeClass::told(sys::class_named(text))
    }
}

/// The class of the mode that the text names.
///
/// ```
/// use oxbreathe::normalize::{ModeClass, mode_class};
///
/// assert_eq!(mode_class(b"ft8"), Ok(Some(ModeClass::Digital)));
/// assert_eq!(mode_class(b"telepathy"), Ok(None));
/// ```
pub fn mode_class(text: &[u8]) -> Result<Option<ModeClass>, Refusal> {
    ModeClass::told(sys::mode_class(text))
}

/// The modes in a class.
///
/// ```
/// use oxbreathe::normalize::{ModeClass, modes_in_class};
///
/// assert_eq!(modes_in_class(ModeClass::Phone), ["SSB", "AM", "FM", "DIGITALVOICE"]);
/// ```
pub fn modes_in_class(class: ModeClass) -> &'static [String] {
    let all = sys::class_modes(class as u32);
    let from = MODES.get(all.first as usize..);
    from.and_then(|modes| modes.get(..all.count as usize)).unwrap_or_default()
}
