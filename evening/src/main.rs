//! batch: every function of an exported folder, listed and walked (see README.md).

use evening::{arguments, interrupt, run};

/// 0 where every function is closed, 1 where one is not, 2 where nothing is done or something could not be written.
fn main() {
    if interrupt::output_is_closed() {
        interrupt::leave(2, Some("standard output is closed: nothing is done"));
    }
    let done = arguments::parse(std::env::args_os().skip(1)).and_then(|arguments| {
        interrupt::watch();
        run::run(arguments)
    });
    match done {
        Ok(true) => interrupt::leave(0, None),
        Ok(false) => interrupt::leave(1, None),
        Err(message) => interrupt::leave(2, Some(&message)),
    }
}
