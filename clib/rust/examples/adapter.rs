//! Answers the questions of vectors/adapters/plain, a line for each.
use squitter::*;
use std::fmt::Write;
use std::io::{self, BufRead};

const STRANGERS: [&str; 12] = ["sbs", "tar", "packed", "utf16", "json", "no_frame", "semicolons", "tabs", "no_time",
    "no_rawmsg", "no_seconds", "no_names"];

fn angle(text: &str) -> Result<Angle, Fault> {
    match text.split_once('/') {
        Some((num, den)) => Ok(Angle { num: num.parse().unwrap(), den: den.parse().unwrap() }),
        None => text.parse(),
    }
}

fn position(words: &[&str]) -> Result<Position, Fault> {
    Ok(Position { lat: angle(words[0])?, lon: angle(words[1])? })
}

fn place(at: Position) -> String {
    format!("ok {}/{} {}/{} {at}", at.lat.num, at.lat.den, at.lon.num, at.lon.den)
}

fn encoded(words: &[&str]) -> Result<String, Fault> {
    let (odd, address) = (u8::from(words[1] == "odd"), u32::from_str_radix(words[2], 16).unwrap());
    let at = position(&words[4..])?;
    let sent = if words[0] == "air" {
        let altitude = if words[3] == "-" { 0 } else { altitude_field(words[3].parse().unwrap())? };
        Frame::of_air(&AirHead { address, altitude, ca: 5, type_code: 11, odd, ..AirHead::default() }, &at)?
    } else {
        Frame::of_ground(&GroundHead { address, ca: 4, type_code: 7, odd, ..GroundHead::default() }, &at)?
    };
    let fields = sent.read()?;
    Ok(format!("ok {} {} {sent}", fields.lat, fields.lon))
}

fn fields(f: &Fields) -> String {
    let kind = ["other", "air", "ground"][usize::from(f.kind)];
    let head = format!("ok address={:06X} ca={} type={} kind={kind}", f.address, f.ca, f.type_code);
    let parity = ["even", "odd"][usize::from(f.odd)];
    let tail = format!("time={} parity={parity} lat={} lon={}", f.time, f.lat, f.lon);
    let altitude = match f.altitude_form {
        0 => "none".into(),
        1 => format!("{}_ft", f.feet),
        _ => format!("raw_{:03X}", f.altitude),
    };
    match f.kind {
        0 => format!("{head} me={:014X}", f.raw),
        1 => format!("{head} status={} flag={} altitude={altitude} {tail}", f.status, f.flag),
        _ => format!("{head} movement={} track_status={} track={} {tail}", f.movement, f.track_status, f.track),
    }
}

fn tell(to: &mut String, frames: Frames<'_>) {
    for (moment, frame) in frames {
        let text = frame.to_string();
        let length = if frame.0[0] < 0x80 { 14 } else { 28 };
        write!(to, " {moment}:{}", &text[..length]).unwrap();
    }
}

fn heard(words: &[&str]) -> Result<String, Fault> {
    let format = match words[0] {
        "beast" => Format::Beast,
        "avr" => Format::Avr,
        "csv" => Format::Csv,
        "log" => Format::Log,
        _ => Format::Auto,
    };
    let number = |at: usize, usual| words[at].parse().unwrap_or(usual);
    let has = |flag| words[4].contains(flag);
    let of = FeedSettings { format, leap: number(1, 600_000), late: number(2, 0), live: has('l'), by_arrival: has('b'),
        all_formats: has('a') };
    let (mut feed, mut told) = (Feed::new(&of)?, String::from("ok"));
    for call in &words[5..] {
        let parts: Vec<&str> = call.split(':').collect();
        match parts[0] {
            "lost" => feed.disconnected(),
            "end" => tell(&mut told, feed.finish(parts[1].parse().unwrap())),
            _ => {
                let bytes: Vec<u8> = (0..parts[3].len() / 2)
                    .map(|at| u8::from_str_radix(&parts[3][2 * at..2 * at + 2], 16).unwrap()).collect();
                let piece = bytes.repeat(parts[2].parse().unwrap());
                tell(&mut told, feed.take(&piece, parts[1].parse().unwrap()));
            }
        }
        let source = match feed.format() {
            Format::Beast => "beast",
            Format::Avr => "avr",
            Format::Csv => "csv",
            Format::Log => "log",
            Format::Auto => "-",
            Format::Stranger(number) => STRANGERS[number as usize - 5],
        };
        write!(told, " ={source}").unwrap();
    }
    let c = feed.counts();
    let all = [("found", c.found), ("written", c.written), ("mode_ac", c.mode_ac), ("aside", c.aside),
        ("multilaterated", c.multilaterated), ("receiver_ids", c.receiver_ids), ("damaged", c.damaged),
        ("breaks", c.breaks), ("ahead", c.ahead)];
    for (name, count) in all.iter().filter(|one| one.1 != 0) {
        write!(told, " {name}={count}").unwrap();
    }
    for (format, count) in c.formats.iter().enumerate().filter(|one| *one.1 != 0) {
        write!(told, " DF{format}={count}").unwrap();
    }
    Ok(told)
}

fn answer(words: &[&str]) -> Result<String, Fault> {
    match words[0] {
        "nl" => return Ok(format!("ok {}", angle(words[1])?.zone_count()?)),
        "encode" => return encoded(&words[1..]),
        "feed" if words[4] != "-" => return Ok("unsupported".into()), // an order
        "feed" => return heard(&words[1..]),
        _ => {}
    }
    let first: Frame = words[1].parse()?;
    Ok(match words[0] {
        "parity" => match first.read() {
            Ok(_) => "ok 000000".into(),
            Err(fault) if fault.code == Fault::PARITY => format!("ok {:06X}", fault.first),
            Err(fault) => return Err(fault),
        },
        "altitude" => {
            let f = first.read()?;
            match altitude(f.type_code, f.altitude)? {
                Altitude { form: 0, .. } => "ok none".into(),
                Altitude { form: 1, feet } => format!("ok feet {feet}"),
                _ => format!("ok raw {:03X}", f.altitude),
            }
        }
        "fields" => fields(&first.read()?),
        "local" => place(first.local(&position(&words[2..])?)?),
        _ => {
            let newer = words[2].parse()?;
            let site = if words[3] == "-" { None } else { Some(position(&words[3..])?) };
            place(pair(&first, &newer, site.as_ref())?)
        }
    })
}

fn main() {
    println!("adapter exact the crate squitter");
    for line in io::stdin().lock().lines().map(Result::unwrap) {
        let words: Vec<&str> = line.split(' ').collect();
        println!("{}", answer(&words).unwrap_or_else(|fault| format!("refused {fault}")));
    }
}
