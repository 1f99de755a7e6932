//! The files of the demo: a picture and a pool for each night, and the records.

use super::desk::Store;
use crate::draw;
use crate::failure::Failure;
use crate::files::save;
use std::fs;
use std::path::Path;

/// Writes the files of a store, and a picture of it where it has a title.
pub fn fill(folder: &Path, store: &Store, title: Option<&str>) -> Result<(), Failure> {
    fs::create_dir_all(folder).map_err(|error| Failure::file("make", folder, &error))?;
    let ((name, pool), (records_name, records)) = (&store.pool, &store.records);
    save(&folder.join(name), &mut &pool[..])?;
    save(&folder.join(records_name), &mut &records[..])?;
    if let Some(title) = title {
        let picture = draw::titled(pool, records, title)?;
        save(&folder.join(name).with_extension("svg"), &mut picture.as_bytes())?;
    }
    Ok(())
}
