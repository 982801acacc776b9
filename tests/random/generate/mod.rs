//! Random sheets, scripts, texts and questions, sound and damaged.

pub mod chains;
pub mod copies;
pub mod damage;
pub mod draft;
pub mod question_faults;
pub mod question_texts;
pub mod questions;
pub mod scripts;
pub mod sheets;
pub mod texts;
