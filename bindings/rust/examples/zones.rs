use gix_date_proved as gix_date;

use gix_date::{Error, Instant, Zone};

fn main() -> Result<(), Error> {
    let zone = Zone::Posix("EST5EDT,M3.2.0,M11.1.0".into()).read()?;
    let now = Instant::at_second(1700000000);
    for text in ["1 hour ago", "2 weeks ago"] {
        println!("{}", zone.parse(text, now)?);
    }
    Ok(())
}
