//! Inputs: images, prices, budgets, working lists, supplies and scripts.

mod fields;
pub mod hostile;
pub mod lawful;
pub mod numbers;
pub mod scripts;
pub mod supplies;
