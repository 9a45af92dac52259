//! Made calls and questions, and the whole answers that the crate's real source and document 01's rules give them.
pub mod ask;
pub mod asked;
pub mod cases;
pub mod json;
pub mod judge;
pub mod make;
pub mod model;
pub mod plain;
pub mod screens;
pub mod shows;
