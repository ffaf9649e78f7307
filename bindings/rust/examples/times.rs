use gix_date_proved as gix_date;

use gix_date::{parse, parse_header, time::format::ISO8601, Error, Moment};

fn main() -> Result<(), Error> {
    let time = parse_header("1660797906 +0800").ok_or(Error::InvalidTime)?;
    println!("{}", time.format(ISO8601)?);
    let now = Moment::at_offset(1698400800, 7200);
    println!("{}", parse("2 weeks ago", Some(now))?);
    Ok(())
}
