//! Writes the font, the pages and the transfers of the race into a file, one behind the other, as ports/run/count.c has them.
//!
//!     pages FILE

use runner::raced::{transfer, Pages};
use runner::traffic;

fn main() -> std::io::Result<()> {
    let file = std::env::args().nth(1).expect("a file to write");
    let Pages { font, font_page, user_page, shadowed, stop, noise, descriptors, strips, passing, behind_511, zeros } = Pages::new();
    let transfers = [traffic::bytes(&transfer(false)), traffic::bytes(&transfer(true))].concat();
    let passing = passing.map(|(_, page)| page).concat();
    let pages = [font, font_page, user_page, shadowed, stop, noise, descriptors, strips, transfers, passing, behind_511, zeros];
    std::fs::write(file, pages.concat())
}
