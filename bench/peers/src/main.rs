//! Makes one call of chrono or time so many times, as `calls.c` does of gix_date: `peers CRATE CALL TEXT COUNT`.
//!
//! A call is `parse` or `print` and the name of a format, as `parse mail`.

use std::env::args;
use std::error::Error;
use std::hint::black_box;

mod by_chrono;
mod by_time;

/// The time that is printed.
const SECONDS: i64 = 1660797906;
const OFFSET_IN_SECONDS: i32 = 28800;

/// A call that is made over and over. It panics where the text is refused.
type Call = Box<dyn Fn()>;

fn main() -> Result<(), Box<dyn Error>> {
    let words: Vec<String> = args().skip(1).collect();
    let [name, call, text, count] = words.as_slice() else {
        return Err("usage: peers CRATE CALL TEXT COUNT".into());
    };
    let text = text.clone();
    let call = match name.as_str() {
        "chrono" => by_chrono::call(call, text),
        "time" => by_time::call(call, text),
        _ => None,
    };
    let call = call.ok_or("no such call")?;
    for _ in 0..count.parse::<u32>()? {
        call();
    }
    Ok(())
}

/// The call that gives a value and does nothing with it, which the compiler does not see.
fn keeping<T>(call: impl Fn() -> T + 'static) -> Call {
    Box::new(move || {
        black_box(call());
    })
}
