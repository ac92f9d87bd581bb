//! What the comparison, the traces and the race share: the library's calls, and random sessions of them.

pub mod captures;
pub mod font_files;
pub mod frames;
pub mod lent;
pub mod library;
pub mod linked;
pub mod model;
pub mod pages;
pub mod raced;
pub mod random;
pub mod recorder;
pub mod sample;
pub mod sessions;
pub mod traffic;
pub mod zero_spacings;
