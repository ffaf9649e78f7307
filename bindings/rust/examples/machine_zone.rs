use gix_date_proved as gix_date;

use gix_date::git::{approxidate, show_date};
use gix_date::Moment;
use std::{env, error::Error};

fn main() -> Result<(), Box<dyn Error>> {
    let now = Moment::now_local()?;
    for text in env::args().skip(1) {
        let time = approxidate(&text, &now)?.time;
        println!("{}", show_date(time, "iso-local".parse()?, &now)?);
    }
    Ok(())
}
