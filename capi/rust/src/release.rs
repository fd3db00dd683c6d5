//! Which release this is, and which archive.

use crate::raw;

/// The release of this package: 10,000 × 4 + 100 × 2 + 0.
pub const VERSION: u64 = 40_200;

/// The SHA-256 of the archive that this package was built with, in hexadecimal. The dossier of a release names it.
pub const ARCHIVE_SHA256: &str = match option_env!("SPAN_ARCHIVE_SHA256") {
    Some(sum) => sum,
    None => "unknown",
};

/// The release that the archive says it is, which is [`VERSION`]: the package builds with no other.
pub fn version() -> u64 {
    raw::version()
}
