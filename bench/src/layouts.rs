//! The layouts that are timed: of 1, 4 and 32 fields, the same pictures in turn. The COBOL programs are made of them too.

/// The numbers of fields.
pub const SIZES: [usize; 3] = [1, 4, 32];

/// The records of each layout.
pub const RECORDS: usize = 1024;

const PICTURES: [&str; 8] =
    ["ZZZ,ZZ9V.99", "$$$,$$9V.99", "(6)-9", "***9CR", "S(7)9V99", "99/99/9999", "Z,ZZZ,ZZZ,ZZ9V.99CR", "ZZ9"];

/// The pictures of the layout of so many fields.
pub fn pictures(fields: usize) -> impl Iterator<Item = &'static str> {
    PICTURES.into_iter().cycle().take(fields)
}
