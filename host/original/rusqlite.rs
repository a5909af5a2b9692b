//! Stands for rusqlite, of which the original's planner names a connection and two queries. In the place of the database a connection holds
//! contacts in the order of their ids; each query is known by its parameters.

use std::collections::HashMap;

pub type Result<T> = std::result::Result<T, Error>;

/// Nothing here fails.
#[derive(Debug)]
pub enum Error {}

#[derive(Clone, Debug)]
pub struct Contact {
    pub id: i64,
    /// The services that have confirmed it, a bit each.
    pub services: u8,
    pub call: String,
    pub date: String,
    pub time: String,
    pub band: String,
    pub mode: String,
}

/// In the order of their bits.
const SERVICES: [&str; 4] = ["lotw", "eqsl", "qrz", "qsl"];

/// Call in capitals, mode and band.
type Key = (String, String, String);

pub struct Connection {
    contacts: Vec<Contact>,
    keyed: Option<HashMap<Key, Vec<usize>>>,
}

impl Connection {
    /// A query looks at every contact.
    pub fn plain(contacts: Vec<Contact>) -> Connection {
        Connection { contacts, keyed: None }
    }

    /// A query looks at the contacts of one key, as a database with an index does. For measuring.
    pub fn keyed(contacts: Vec<Contact>) -> Connection {
        let mut keyed: HashMap<Key, Vec<usize>> = HashMap::new();
        for (place, c) in contacts.iter().enumerate() {
            keyed.entry(key(&c.call, &c.mode, &c.band)).or_default().push(place);
        }
        Connection { contacts, keyed: Some(keyed) }
    }

    pub fn prepare(&self, _query: &str) -> Result<Statement<'_>> {
        Ok(Statement(self))
    }

    /// How many services of this name have confirmed the contact of this id.
    pub fn query_row<T>(
        &self,
        _query: &str,
        (id, service): (i64, &str),
        read: impl FnOnce(&Row) -> Result<T>,
    ) -> Result<T> {
        let place = self.contacts.binary_search_by_key(&id, |c| c.id).expect("a contact of the list");
        let bit = SERVICES.iter().position(|name| *name == service).expect("a service");
        read(&Row::Count((self.contacts[place].services >> bit & 1) as i64))
    }
}

fn key(call: &str, mode: &str, band: &str) -> Key {
    (call.to_ascii_uppercase(), mode.to_string(), band.to_string())
}

pub struct Statement<'a>(&'a Connection);

impl Statement<'_> {
    /// The contacts of this call, the case of ASCII letters aside, and of exactly this mode and band.
    pub fn query_map<T>(
        &mut self,
        [call, mode, band]: [&str; 3],
        mut read: impl FnMut(&Row) -> Result<T>,
    ) -> Result<std::vec::IntoIter<Result<T>>> {
        let Connection { contacts, keyed } = self.0;
        let found: Vec<Result<T>> = match keyed {
            Some(keyed) => {
                let places = keyed.get(&key(call, mode, band)).map_or(&[][..], |places| places);
                places.iter().map(|&place| read(&Row::Contact(&contacts[place]))).collect()
            }
            None => contacts
                .iter()
                .filter(|c| c.call.eq_ignore_ascii_case(call) && c.mode == mode && c.band == band)
                .map(|c| read(&Row::Contact(c)))
                .collect(),
        };
        Ok(found.into_iter())
    }
}

pub enum Row<'a> {
    Contact(&'a Contact),
    Count(i64),
}

impl Row<'_> {
    /// The first column, which is the only one that is asked for by number.
    pub fn get(&self, _column: usize) -> Result<i64> {
        match self {
            Row::Contact(contact) => Ok(contact.id),
            Row::Count(count) => Ok(*count),
        }
    }
}

#[macro_export]
macro_rules! params {
    ($call:expr, $mode:expr, $band:expr) => {
        [$call.as_str(), $mode.as_str(), $band.as_str()]
    };
    ($id:expr, $service:expr) => {
        ($id, $service)
    };
}
