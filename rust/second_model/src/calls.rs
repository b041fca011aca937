//! The calls. Each makes its checks in the order of document 01 and changes
//! nothing before the last of them is passed, or puts back what it changed.
//!
//! 01: "every one leaves everything unchanged and sends nothing, and reads and
//! byte counts give 0 beside it."

mod bar;
mod config;
mod device;
mod image;
mod start;
mod withdraw;

pub use bar::{bar_read, bar_write};
pub use config::{config_read, config_write};
pub use device::{event, line};
pub use image::{restore, save};
pub use start::{reset, start};
pub use withdraw::withdraw;
