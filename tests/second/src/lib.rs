//! The independent second program for pictures, layouts and plans.
//!
//! It is written from the rules alone and shares no code and no definitions with the library it judges. Where the rules leave a
//! choice of method it takes another than the obvious one: texts are taken apart from the right, fields are read by searching
//! among all looks a field can have, plans are judged by rebuilding a layout from them, values are aligned and rounded as decimal texts,
//! and totals are taken from the list of the records accepted.
//! The modules follow the sections of the rules; `cases`, `make`, `judge` and `sheet_of_examples` serve the comparison.
#![forbid(unsafe_code)]

pub mod cases;
pub mod collector;
pub mod field_to_value;
pub mod judge;
pub mod layouts_and_plans;
pub mod lister;
pub mod make;
pub mod manual;
pub mod numbers_that_come_back;
pub mod rules_of_shape;
pub mod sheet_of_examples;
pub mod text_to_symbols;
pub mod totaller;
pub mod totals;
pub mod value_to_field;

pub use field_to_value::read;
pub use layouts_and_plans::{compile, is_plan, plan_edit, plan_read};
pub use lister::listing;
pub use numbers_that_come_back::{Answer, Refusal};
pub use rules_of_shape::check;
pub use totaller::totalling;
pub use value_to_field::{edit, edit_cut};
