//! The oracle of Stepsheaf: pm-remez, unchanged, with our angles and our root finder, and what is
//! asked of it. oracle/README.md describes it.

pub mod angles;
pub mod chance;
pub mod design;
pub mod generate;
pub mod known;
pub mod leaves;
pub mod number;
pub mod plan;
pub mod reader;
pub mod roots;
pub mod text;
