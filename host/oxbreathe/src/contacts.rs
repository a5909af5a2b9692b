//! The contacts that are in the log already, as one list of bytes: written, checked, known by its mark, listed and searched.

use crate::qso::Qso;
use crate::refusal::{Answer, Refusal};
use crate::sys::{self, MarkAnswer};
use crate::{LONGEST, text};

numbered! {
    /// A service that confirms contacts, by its bit in a contact's byte.
    Service {
        Lotw = 1 "lotw",
        Eqsl = 2 "eqsl",
        Qrz = 4 "qrz",
        Qsl = 8 "qsl",
    }
}

/// The services that confirmed a contact.
///
/// ```
/// use oxbreathe::contacts::{Service, Services};
///
/// let services: Services = [Service::Lotw, Service::Qsl].into_iter().collect();
/// assert!(services.has(Service::Qsl) && !services.has(Service::Qrz));
/// assert_eq!(services.iter().map(Service::name).collect::<Vec<_>>(), ["lotw", "qsl"]);
/// ```
#[derive(Clone, Copy, Debug, Default, PartialEq, Eq, Hash)]
pub struct Services(u8);

impl Services {
    /// Whether a service is one of them.
    pub fn has(self, service: Service) -> bool {
        self.0 & service as u8 != 0
    }

    /// Each of them.
    pub fn iter(self) -> impl Iterator<Item = Service> {
        Service::ALL.iter().copied().filter(move |service| self.has(*service))
    }
}

impl FromIterator<Service> for Services {
    fn from_iter<I: IntoIterator<Item = Service>>(services: I) -> Services {
        Services(services.into_iter().fold(0, |bits, service| bits | service as u8))
    }
}

/// A contact of a list.
#[derive(Clone, Copy, Debug, Default, PartialEq, Eq)]
pub struct Contact<'a> {
    /// From 1 to 2^63 - 1, and above those of the contacts before it.
    pub id: u64,
    /// Those that confirmed it.
    pub services: Services,
    /// The call, of at most 255 bytes, as band and mode.
    pub call: &'a str,
    /// 8 digits.
    pub date: &'a str,
    /// 4 or 6 digits.
    pub time: &'a str,
    /// The band, as it is compared.
    pub band: &'a str,
    /// The mode, as it is compared.
    pub mode: &'a str,
}

/// What a list is known by: how many contacts, and the largest id, 0 where there is none.
#[derive(Clone, Copy, Debug, Default, PartialEq, Eq)]
pub struct Mark {
    /// How many contacts.
    pub contacts: usize,
    /// The largest id.
    pub largest: u64,
}

impl Mark {
    fn told(answer: MarkAnswer) -> Result<Mark, Refusal> {
        let MarkAnswer { contacts, largest, .. } = answer.accepted()?;
        Ok(Mark { contacts, largest })
    }
}

/// Checks a list whole.
///
/// ```
/// use oxbreathe::contacts::{Mark, check};
///
/// assert_eq!(check(&[1, 0, 0, 0, 0]), Ok(Mark { contacts: 0, largest: 0 }));
/// assert_eq!(check(&[]).unwrap_err().number(), 17);
/// ```
pub fn check(list: &[u8]) -> Result<Mark, Refusal> {
    Mark::told(sys::contacts_check(list))
}

/// Whether a plan that was made with this mark still holds against a list.
///
/// ```
/// use oxbreathe::contacts::{Mark, is_fresh};
///
/// assert_eq!(is_fresh(Mark { contacts: 1, largest: 7 }, &[1, 0, 0, 0, 0]), Ok(false));
/// ```
pub fn is_fresh(plan: Mark, list: &[u8]) -> Result<bool, Refusal> {
    Ok(sys::contacts_fresh(plan.contacts, plan.largest, list).accepted()?.fresh)
}

/// The fewest bytes of a contact, whose call, band and mode are empty.
const SHORTEST: usize = 28;

/// How many contacts a list has at most: what it says, as far as its bytes can hold them, and none where they are too many.
pub(crate) fn most(list: &[u8]) -> usize {
    let told = list.get(1..5).map_or(0, |count| count.iter().fold(0, |n, &byte| n << 8 | usize::from(byte)));
    if list.len() > LONGEST { 0 } else { told.min(list.len() / SHORTEST) }
}

/// A list with its index.
#[derive(Clone, Debug)]
pub struct List<'a> {
    bytes: &'a [u8],
    index: Vec<sys::Record>,
    mark: Mark,
}

impl<'a> List<'a> {
    /// Checks a list whole, and builds its index.
    ///
    /// ```
    /// use oxbreathe::contacts::{Contact, List, Writer};
    ///
    /// let contact =
    ///     Contact { id: 7, call: "W1AW", date: "20260301", time: "1200", band: "40m", mode: "SSB", ..Contact::default() };
    /// let mut log = Writer::new();
    /// log.append(&contact)?;
    /// let list = List::new(log.bytes())?;
    /// assert_eq!(list.mark(), log.mark());
    /// assert_eq!(list.contacts().collect::<Vec<_>>(), [contact]);
    /// # Ok::<(), oxbreathe::Refusal>(())
    /// ```
    pub fn new(bytes: &'a [u8]) -> Result<List<'a>, Refusal> {
        let mut index = vec![sys::Record::default(); most(bytes)];
        let mark = Mark::told(sys::contacts_index(bytes, &mut index))?;
        Ok(List { bytes, index, mark })
    }

    /// What the list is known by.
    pub fn mark(&self) -> Mark {
        self.mark
    }

    /// The contacts, by their ids.
    pub fn contacts(&self) -> impl Iterator<Item = Contact<'a>> {
        self.index.iter().take(self.mark.contacts).map(|record| self.contact(record))
    }

    fn contact(&self, record: &sys::Record) -> Contact<'a> {
        let &sys::Record { id, services, call, date, time, band, mode, .. } = record;
        let bytes = self.bytes;
        let text = |place: u32| {
            let (&length, rest) = bytes.get(place as usize..)?.split_first()?;
            text::check(rest.get(..usize::from(length))?).ok()
        };
        let [call, date, time, band, mode] = [call, date, time, band, mode].map(|at| text(at).unwrap_or_default());
        let services = Service::ALL.iter().copied().filter(|service| services & service.number() != 0).collect();
        Contact { id, services, call, date, time, band, mode }
    }

    /// For each contact of another list, the first contact of this one that it matches within so many seconds.
    ///
    /// ```
    /// use oxbreathe::contacts::{Contact, List, Writer};
    ///
    /// let contact =
    ///     Contact { id: 7, call: "W1AW", date: "20260301", time: "1200", band: "40m", mode: "SSB", ..Contact::default() };
    /// let (mut log, mut other) = (Writer::new(), Writer::new());
    /// log.append(&contact)?;
    /// other.append(&Contact { id: 1, call: "w1aw", time: "1230", ..contact })?;
    /// other.append(&Contact { id: 2, call: "G4ZZ", ..contact })?;
    /// assert_eq!(List::new(log.bytes())?.search(other.bytes(), 1800)?, [Some(contact), None]);
    /// # Ok::<(), oxbreathe::Refusal>(())
    /// ```
    pub fn search(&self, other: &[u8], seconds: i64) -> Result<Vec<Option<Contact<'a>>>, Refusal> {
        let mut found = vec![0; most(other)];
        let mark = Mark::told(sys::contacts_search(self.bytes, other, seconds, &mut self.index.clone(), &mut found))?;
        let contact = |number: u64| self.index.get(usize::try_from(number).ok()?.checked_sub(1)?);
        Ok(found.into_iter().take(mark.contacts).map(|n| contact(n).map(|record| self.contact(record))).collect())
    }
}

/// A number of 64 bits in its two halves.
pub(crate) fn joined(low: u32, high: u32) -> u64 {
    u64::from(high) << 32 | u64::from(low)
}

/// A list that is being written, contact by contact.
#[derive(Clone, Debug)]
pub struct Writer {
    bytes: Vec<u8>,
    mark: Mark,
}

impl Writer {
    /// A list with no contact.
    pub fn new() -> Writer {
        let mut bytes = vec![0; 5];
        sys::contacts_start(&mut bytes);
        Writer { bytes, mark: Mark::default() }
    }

    /// Puts a contact behind the others, whose ids must be lower. After a refusal the list is as it was.
    ///
    /// ```
    /// use oxbreathe::contacts::{Contact, Writer, check};
    ///
    /// let (date, time) = ("20260301", "1200");
    /// let contact = Contact { id: 7, call: "W1AW", date, time, band: "40m", mode: "SSB", ..Contact::default() };
    /// let mut log = Writer::new();
    /// log.append(&contact)?;
    /// assert_eq!(log.append(&contact).unwrap_err().number(), 18);
    /// assert_eq!(log.append(&Contact { id: 8, date: "1 March", ..contact }).unwrap_err().number(), 17);
    /// assert_eq!(check(log.bytes()), Ok(log.mark()));
    /// # Ok::<(), oxbreathe::Refusal>(())
    /// ```
    pub fn append(&mut self, contact: &Contact) -> Result<(), Refusal> {
        let Contact { id, services, call, date, time, band, mode } = *contact;
        let [call, date, time, band, mode] = [call, date, time, band, mode].map(str::as_bytes);
        let used = self.bytes.len();
        // 16 bytes and the texts, of which none above 255 bytes is taken
        self.bytes.resize(
            used + 16 + [call, date, time, band, mode].map(|text| text.len().min(255)).iter().sum::<usize>(),
            0,
        );
        let Mark { contacts, largest } = self.mark;
        let answer = sys::contacts_append(
            &mut self.bytes, used, contacts, largest, id, services.0, call, date, time, band, mode,
        );
        self.bytes.truncate(if answer.refusal == 0 { answer.length } else { used });
        answer.accepted()?;
        self.mark = Mark { contacts: contacts + 1, largest: id };
        Ok(())
    }

    /// Puts a contact of a log behind the others, with the texts that it is compared by; date and time are trimmed.
    ///
    /// ```
    /// use oxbreathe::contacts::{List, Services, Writer};
    /// use oxbreathe::reading::{read, table};
    ///
    /// let text = b"<CALL:4>W1AW <QSO_DATE:8>20260301 <TIME_ON:4>1200 <BAND:3>40M <MODE:3>USB <EOR>";
    /// let mut log = Writer::new();
    /// for record in read(text, &mut table(text))?.records() {
    ///     log.append_qso(record.number().into(), Services::default(), &record.normal_qso().0)?;
    /// }
    /// assert_eq!(List::new(log.bytes())?.contacts().map(|contact| contact.band).collect::<Vec<_>>(), ["40m"]);
    /// # Ok::<(), oxbreathe::Refusal>(())
    /// ```
    pub fn append_qso(&mut self, id: u64, services: Services, qso: &Qso) -> Result<(), Refusal> {
        let (call, date, time, band, mode) = (qso.call(), qso.qso_date(), qso.time_on(), qso.band(), qso.mode());
        let [date, time] = [&*date, &*time].map(|text| text::trim(text.as_bytes()).map(|kept| text.get(kept)));
        let (date, time) = (date?.unwrap_or_default(), time?.unwrap_or_default());
        self.append(&Contact { id, services, call: &call, date, time, band: &band, mode: &mode })
    }

    /// What the list is known by.
    pub fn mark(&self) -> Mark {
        self.mark
    }

    /// The list.
    pub fn bytes(&self) -> &[u8] {
        &self.bytes
    }
}

impl Default for Writer {
    fn default() -> Writer {
        Writer::new()
    }
}
