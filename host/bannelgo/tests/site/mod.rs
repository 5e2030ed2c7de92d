//! A site's name.

use bannelgo::grammar::{any, call, star, Grammar};

/// Site <- Character*; Character <- .
pub fn site() -> Grammar {
    Grammar::builder()
        .rule("Site", star(call("Character")))
        .rule("Character", any())
        .build()
        .expect("accepted")
}
