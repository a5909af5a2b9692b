//! The original rigflow files, unchanged, as one crate. The script puts this file beside a link `rigflow` to where
//! they lie, since that place varies and they are no part of this repository.
#[path = "rigflow/adif.rs"]
pub mod adif;
#[path = "rigflow/dedupe.rs"]
pub mod dedupe;
#[path = "rigflow/import.rs"]
pub mod import;
#[path = "rigflow/model.rs"]
pub mod model;
#[path = "rigflow/normalize.rs"]
pub mod normalize;

pub use rusqlite;

/// What the planner takes from `store.rs`, which is about the database.
pub mod store {
    use crate::error::LogError;
    use crate::model::Qso;
    use rusqlite::Row;

    pub struct LoggedQso {
        pub id: i64,
        pub qso: Qso,
    }

    pub(crate) fn row_to_logged_qso(row: &Row) -> rusqlite::Result<Result<LoggedQso, LogError>> {
        let Row::Contact(c) = row else { unreachable!("a query of contacts") };
        let qso = Qso {
            call: c.call.clone(),
            qso_date: c.date.clone(),
            time_on: c.time.clone(),
            band: c.band.clone(),
            mode: c.mode.clone(),
            ..Qso::default()
        };
        Ok(Ok(LoggedQso { id: row.get(0)?, qso }))
    }
}

/// What the planner takes from `error.rs`, which is also about files.
pub mod error {
    use crate::adif::AdifError;

    #[derive(Debug)]
    pub enum LogError {
        Adif(AdifError),
    }

    impl From<AdifError> for LogError {
        fn from(error: AdifError) -> LogError {
            LogError::Adif(error)
        }
    }

    impl From<rusqlite::Error> for LogError {
        fn from(error: rusqlite::Error) -> LogError {
            match error {}
        }
    }
}
