//! Stands in for the crate that the Rust file imports, over the fetched packages: the numbers are those
//! of font-types, and the list of blues is read-fonts' own file.

pub mod types {
    pub use font_types::Fixed;
}

pub mod ps {
    #[path = "SINK_SOURCE"]
    pub mod charstring;

    #[allow(unused_imports)]
    use crate::types;

    #[path = "BLUES_SOURCE"]
    mod hinting;

    pub use hinting::Blues;
}
