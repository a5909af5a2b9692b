//! Whether a saved preview still holds: whether everything that it was made of is still the same.

use crate::args::Fresh;
use crate::digest::sha256;
use crate::files::In;
use crate::list::marked;
use crate::saved::{self, Basis};
use crate::{Failure, Said, done, refused};
use oxbreathe::contacts::{Mark, check, is_fresh};
use std::path::PathBuf;

pub fn run(asked: &Fresh) -> Result<Said, Failure> {
    let bases = saved::read(&asked.plan.read_saved()?).filter(|bases| !bases.is_empty()).ok_or_else(|| {
        let what = "is no preview that can be held against anything: ox preview --json prints one of a file that is not refused";
        Failure::File(format!("{} {what}", asked.plan))
    })?;
    if !asked.files.is_empty() && asked.files.len() != bases.len() {
        let (previews, files) = (counted(bases.len(), "preview"), counted(asked.files.len(), "file"));
        return Err(Failure::File(format!("{} has {previews}, and --file names {files}", asked.plan)));
    }
    let list = asked.list.read()?;
    let now = refused::of(&asked.list, &list, check(&list))?;
    let mut not_fresh = String::new();
    for (number, basis) in bases.iter().enumerate() {
        for what in differences(asked, basis, &list, now, asked.files.get(number))? {
            not_fresh += &format!("not fresh: {what}\n");
        }
    }
    if not_fresh.is_empty() {
        return done(format!("fresh: {}\n", marked(now)));
    }
    let mut said = done(not_fresh)?;
    said.status(1);
    Ok(said)
}

fn counted(count: usize, what: &str) -> String {
    format!("{count} {what}{}", if count == 1 { "" } else { "s" })
}

/// What of a preview is not the same any more, in words.
fn differences(
    asked: &Fresh,
    basis: &Basis,
    list: &[u8],
    now: Mark,
    file: Option<&In>,
) -> Result<Vec<String>, Failure> {
    let mut found = Vec::new();
    let then: Mark = basis.mark.into();
    // whether the list is known by the same mark is the library's to say
    if !refused::of(&asked.list, list, is_fresh(then, list))? {
        found.push(format!("previewed against {}; now {}", marked(then), marked(now)));
    } else if basis.log_sha256 != sha256(list) {
        found.push(format!("the list was changed: {} as before, and other bytes", marked(now)));
    }
    let named = In::named(PathBuf::from(&basis.file));
    let file = match file {
        Some(file) => file,
        None if named.is_standard() => {
            return Err(Failure::File("the preview is of standard input: --file says where that file is".to_string()));
        }
        None => &named,
    };
    let bytes = file.read().map_err(|failure| match failure {
        Failure::File(what) if asked.files.is_empty() => Failure::File(format!("{what}; --file says where it is")),
        failure => failure,
    })?;
    if basis.file_sha256 != sha256(&bytes) {
        found.push(format!(
            "the file {file} was changed: its SHA-256 was {}, and is {}",
            basis.file_sha256,
            sha256(&bytes)
        ));
    }
    if basis.window != asked.window {
        found.push(format!("previewed with a window of {} seconds; now {} (--window)", basis.window, asked.window));
    }
    if basis.download != asked.download {
        let kind = |download| if download { "a download" } else { "an import" };
        found.push(format!("previewed as {}; now as {} (--download)", kind(basis.download), kind(asked.download)));
    }
    Ok(found)
}
