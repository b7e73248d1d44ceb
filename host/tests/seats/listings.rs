//! The stored listings, admitted or not.

use crate::stored::{names, path, read};
use reference::Listing;
use std::sync::LazyLock;

/// All of them, in the order of their names.
pub static LISTINGS: LazyLock<Vec<Listing>> = LazyLock::new(|| {
    let directory = path("../listings");
    let names = names(&directory, ".bin").into_iter();
    names.map(|name| Listing::cut(&read(&directory.join(name).with_extension("bin")))).collect()
});
