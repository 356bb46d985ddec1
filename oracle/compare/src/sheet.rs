//! A sheet's text: its fields, records, checks and lines beside a parser that follows RULES 6. With
//! placer.rs also whole passes, driven through it record by record, and the lists of them.

mod answers;
#[cfg(feature = "placer")]
pub mod cases;
mod counts;
mod damage;
#[cfg(feature = "placer")]
mod drawn;
#[cfg(feature = "placer")]
mod driver;
pub mod fields;
#[cfg(feature = "placer")]
pub mod fixed;
#[cfg(feature = "placer")]
mod full;
pub mod hundredths;
#[cfg(feature = "placer")]
mod listing;
#[cfg(feature = "placer")]
pub mod lists;
#[cfg(feature = "placer")]
pub mod margins;
#[cfg(feature = "placer")]
pub mod passes;
#[cfg(feature = "placer")]
mod plates;
mod probe;
mod reference;
pub mod sheets;
mod texts;
pub mod writers;
