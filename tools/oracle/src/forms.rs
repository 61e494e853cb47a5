//! The Rust's region 3 and saturation line in three forms, as build.rs wrote them.
//! `plain` is the untouched crate, `ruled` has docs/SCOPE.md's rules, `checked` keeps refusals too.

#[allow(warnings)]
pub mod plain {
    include!(concat!(env!("OUT_DIR"), "/plain.rs"));
}

#[allow(warnings)]
pub mod ruled {
    include!(concat!(env!("OUT_DIR"), "/ruled.rs"));
}

#[allow(warnings)]
pub mod checked {
    include!(concat!(env!("OUT_DIR"), "/checked.rs"));
}
