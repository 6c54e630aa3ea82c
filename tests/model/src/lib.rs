//! The same modules for the other tests: `tests/desk` sets the desk beside this model.

pub mod child;
pub mod compare;
pub mod cuts;
pub mod des;
pub mod edges;
pub mod facility;
pub mod faults;
pub mod flows;
pub mod fuzz;
pub mod generate;
pub mod meaning;
pub mod modes;
pub mod notarize;
pub mod notary;
pub mod pairs;
pub mod random;
pub mod refusals;
pub mod rules;
pub mod scene;
pub mod selftest;
pub mod slowest;
pub mod stage;
pub mod stream;
pub mod tables;
pub mod walk;
pub mod write;
