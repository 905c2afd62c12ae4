//! Every damage, by stage.

mod bad_names;
pub mod bad_texts;
mod bodies;
mod ceilings;
mod chain;
mod changes;
mod checksums;
mod file_space;
mod front;
mod header;
mod metadata_directory;
mod tile_directory;

use crate::damage::Aim;

pub fn all() -> Vec<Aim> {
    by_subject().into_iter().flat_map(|(_, aims)| aims).collect()
}

/// The same, with what they damage.
pub fn by_subject() -> [(&'static str, Vec<Aim>); 9] {
    [
        ("the first bytes", front::aims()),
        ("the header", header::aims()),
        ("a ceiling", ceilings::aims()),
        ("the chain", chain::aims()),
        ("a checksum", checksums::aims()),
        ("a body", bodies::aims()),
        ("the tile directory", tile_directory::aims()),
        ("the metadata directory", metadata_directory::aims()),
        ("the file-space directory", file_space::aims()),
    ]
}
