//! Prints the stored lists as antt text, with what the amended copy makes of each.

use harness::{stored_lists, theorem};

fn main() {
    print!("{}", theorem::text(&stored_lists::lists()));
}
