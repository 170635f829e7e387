//! The crate on worked examples, on logs and feeds in pieces, in memory of its own and in memory that is lent. The
//! expected values are those of README.md and of tests/worked.
use squitter::*;
use std::mem::MaybeUninit;

const EVEN: &str = "8D40621D58C382D690C8AC2863A7";
const ODD: &str = "8D40621D58C386435CC412692AD6";
const GROUND: [&str; 2] = ["8C4841753AAB238733C8CD4020B1", "8C4841753A8A35323FAEBDAC702D"];

fn frame(text: &str) -> Frame {
    text.parse().unwrap()
}

fn at(lat: &str, lon: &str) -> Position {
    Position { lat: lat.parse().unwrap(), lon: lon.parse().unwrap() }
}

fn code<T>(got: Result<T, Fault>) -> u32 {
    got.err().map_or(0, |fault| fault.code)
}

#[test]
fn frames() {
    let fields = frame(EVEN).read().unwrap();
    assert_eq!((fields.address, fields.feet, fields.kind, fields.odd), (0x40621D, 38000, 1, 0));
    assert_eq!((fields.lat, fields.lon, fields.ca, fields.type_code), (93000, 51372, 5, 11));
    assert_eq!(frame("*8d40621d58c386435cc412692ad6;").to_string(), ODD);
    assert_eq!(frame(EVEN).local(&at("52.258", "3.918")).unwrap().to_string(), "52.2572021 3.9193726");
    let place = pair(&frame(ODD), &frame(EVEN), None).unwrap();
    let head = AirHead { address: 0x40621D, altitude: 0xC38, ca: 5, type_code: 11, ..AirHead::default() };
    assert_eq!(Frame::of_air(&head, &place).unwrap(), frame(EVEN));
    let head = GroundHead { type_code: 7, ..GroundHead::default() };
    assert_eq!(Frame::of_ground(&head, &place).unwrap().read().unwrap().kind, 2);
    let [first, second] = GROUND.map(frame);
    assert_eq!(code(pair(&first, &second, None)), Fault::NO_SITE);
    let site = at("51.990", "4.375");
    assert_eq!(pair(&first, &second, Some(&site)).unwrap().to_string(), "52.3206071 4.7347347");
    assert_eq!(altitude(11, 0xC38).unwrap(), Altitude { feet: 38000, form: 1 });
    assert_eq!((altitude_field(38000), code(altitude_field(1))), (Ok(0xC38), Fault::BAD_FEET));
    assert_eq!("52.25".parse::<Angle>().unwrap().zone_count(), Ok(36));
    assert_eq!(format!("{:>12}|", place.lat), "  52.2572021|");
    assert!((place.lat.degrees() - 52.2572021).abs() < 1e-7);
    let parts: Vec<u32> = env!("CARGO_PKG_VERSION").split('.').map(|part| part.parse().unwrap()).collect();
    assert_eq!(version(), parts[0] << 16 | parts[1] << 8 | parts[2]);
}

#[test]
fn faults() {
    let error = frame("8D40621D58C382D690C8AC2863A6").read().unwrap_err();
    assert_eq!((error.code, error.first, error.to_string()), (Fault::PARITY, 1, "parity 000001".into()));
    assert_eq!(format!("{error:?}"), "Fault(6: parity 000001)");
    assert_eq!(code("".parse::<Frame>()), Fault::LENGTH);
    assert_eq!(code("x".parse::<Angle>()), Fault::NOT_A_NUMBER);
    let invalid = Angle { num: 1, den: 0 };
    assert_eq!(code(frame(EVEN).local(&Position { lat: invalid, lon: invalid })), Fault::BAD_POSITION);
    assert!(std::panic::catch_unwind(|| invalid.to_string()).is_err());
    let _: Box<dyn std::error::Error> = error.into();
}

fn tracked(mut tracker: Tracker<'_>) {
    assert!(tracker.is_empty());
    assert_eq!(tracker.hear(0, &frame(EVEN)), Ok(Reply::Waiting));
    let state = tracker.save();
    let fix = tracker.hear(10_000, &frame(ODD)).unwrap();
    assert_eq!(fix.position().unwrap().to_string(), "52.2657802 3.9389125");
    assert!(matches!(fix, Reply::Fix(_)));
    assert_eq!(code(tracker.hear(9999, &frame(ODD))), Fault::MOMENT_BACK);
    assert_eq!(tracker.hear(10_001, &frame(GROUND[0])), Ok(Reply::Waiting));
    assert_eq!(tracker.hear(10_002, &frame(GROUND[1])), Ok(Reply::WithoutSite));
    let present = tracker.present(0);
    assert_eq!(present.iter().map(|one| (one.address, one.moment)).collect::<Vec<_>>(),
        [(0x484175, 10_002), (0x40621D, 10_000)]);
    let (ground, air) = (&present[0], &present[1]);
    assert_eq!((air.airborne.even, air.airborne.odd), (Some((0, frame(EVEN))), Some((10_000, frame(ODD)))));
    let last = air.airborne.fix.map(|it| (it.0, it.1.to_string()));
    assert_eq!(last, Some((10_000, fix.position().unwrap().to_string())));
    assert_eq!((ground.airborne.even, ground.surface.fix), (None, None));
    assert_eq!(ground.surface.even.or(ground.surface.odd).map(|it| it.0 / 10), Some(1000));
    assert_eq!([10_000, 10_001, 10_002, 10_003].map(|since| tracker.present(since).len()), [2, 1, 1, 0]);
    assert_eq!(code(tracker.hear(10_003, &frame("8D4B100158C382EEEE9F4AAB18EC"))), Fault::TABLE_FULL);
    let full = tracker.save();
    assert!(full != state);
    tracker.restore(&state).unwrap();
    assert_eq!((tracker.len(), tracker.save() == state), (1, true));
    let followed = [tracker.hear(6000, &frame(ODD)), tracker.hear(12_000, &frame(ODD))];
    assert!(matches!(followed, [Ok(Reply::Fix(_)), Ok(Reply::Followed(_))]));
    let mut other = Tracker::new(&Settings { limit: 1, ..Settings::default() }).unwrap();
    assert_eq!((code(other.restore(&full)), other.len()), (Fault::BAD_ENTRY, 0));
    assert_eq!(other.hear(0, &frame("8D406B902015A678D4D220AA4BDA")), Ok(Reply::NoPlace));
}

#[test]
fn many_are_present() {
    for count in [0u32, 63, 64, 65, 200] {
        let mut tracker = Tracker::new(&Settings::default()).unwrap();
        let mut log = Log::new(&Settings::default()).unwrap();
        for address in 0..count {
            let head = AirHead { address, type_code: 11, ..AirHead::default() };
            let sent = Frame::of_air(&head, &at("1", "2")).unwrap();
            tracker.hear(address.into(), &sent).unwrap();
            log.take(format!("{address} {sent}\n").as_bytes());
        }
        let present: Vec<_> = tracker.present(0).iter().map(|one| one.address).collect();
        assert_eq!(present, (0..count).rev().collect::<Vec<_>>());
        assert_eq!((log.present(0), log.present(64).len()), (tracker.present(0), count.saturating_sub(64) as usize));
    }
}

#[test]
fn watches() {
    let (site, watch) = (at("0", "0"), Watch { range: 60, speed: 3600 });
    let doubts = |before: Option<&(u64, Position)>, lat| watch.doubts(Some(&site), before, 1000, &at(lat, "0"));
    assert_eq!([doubts(None, "1"), doubts(None, "1.0000001")], [0, Watch::BEYOND_RANGE]);
    // in a second 3,600 knots are a mile, and a mile more is allowed: 2 / 60 degrees
    let before = (0, site);
    assert_eq!([doubts(Some(&before), "0.0333333"), doubts(Some(&before), "0.0333334")], [0, Watch::TOO_FAST]);
    assert_eq!(doubts(Some(&before), "-1.5"), Watch::BEYOND_RANGE + Watch::TOO_FAST);
    assert_eq!(watch.doubts(None, None, 1000, &at("1.5", "0")), 0);
    assert_eq!(Watch::default().doubts(Some(&site), Some(&before), 1, &at("80", "0")), 0);
}

#[test]
fn trackers() {
    let two = Settings { limit: 2, ..Settings::default() };
    tracked(Tracker::new(&two).unwrap());
    let size = Tracker::size(2);
    for skipped in 0..16 {
        let mut memory = vec![MaybeUninit::new(0xA5u8); size + 100];
        tracked(Tracker::new_in(&mut memory[skipped..skipped + size], &two).unwrap());
        // Safety: all bytes were written.
        let rest = memory[skipped + size..].iter().map(|byte| unsafe { byte.assume_init() });
        assert!(rest.into_iter().all(|byte| byte == 0xA5));
    }
    let mut memory = vec![MaybeUninit::uninit(); size];
    for length in [0, 1, 15, 31, size - 32] {
        assert_eq!(code(Tracker::new_in(&mut memory[..length], &two)), Fault::NO_MEMORY);
    }
    assert_eq!(code(Tracker::new(&Settings { limit: 0, ..two })), Fault::NO_LIMIT);
    let nowhere = Some(Position { lat: "91".parse().unwrap(), lon: "0".parse().unwrap() });
    assert_eq!(code(Tracker::new(&Settings { site: nowhere, ..two })), Fault::BAD_POSITION);
    let moved = Tracker::new(&two).map(Box::new).unwrap();
    std::thread::spawn(move || tracked(*moved)).join().unwrap();
    let mut split = Tracker::new(&two).unwrap();
    split.hear(0, &frame("8D40621D58C382FAF738E411B0AA")).unwrap();
    assert_eq!(split.hear(1, &frame("8D40621D58C386DD2D38E486BD11")), Ok(Reply::Split { even: 58, odd: 59 }));
    let mut far = Tracker::new(&two).unwrap();
    far.hear(0, &frame("8D40621D58000000000000EFE579")).unwrap();
    assert_eq!(far.hear(1, &frame("8D40621D580006AAAA000049AEDC")), Ok(Reply::Far));
}

fn said(mut log: Log<'_>, text: &[u8], size: usize) -> Vec<String> {
    let mut told = Vec::new();
    let tell = |one: Line| match one.heard {
        Ok(heard) => format!("{} {} {:?} {:?}", one.number, heard.moment, heard.feet, heard.degrees_e7),
        Err(fault) => format!("{} {fault}", one.number),
    };
    for piece in text.chunks(size) {
        told.extend(log.take(piece).map(tell));
    }
    told.extend(log.finish().map(tell));
    let tally = log.tally();
    assert_eq!((tally.good + tally.refused) as usize, told.len());
    told
}

#[test]
fn logs() {
    let settings = Settings { limit: 2, site: Some(at("51.990", "4.375")), ..Settings::default() };
    let text = format!("0 {EVEN}\n\n6000 {ODD}\r\n6001 {}\n6002 {}\nx\n6003 8D406B902015A678D4D220AA4BDA",
        GROUND[0], GROUND[1]);
    let wanted = ["1 0 Some(38000) (0, 0)", "3 6000 Some(38000) (522657802, 39389125)", "4 6001 None (0, 0)",
        "5 6002 None (523206071, 47347347)", "6 bad moment", "7 6003 None (0, 0)"];
    let mut memory = vec![MaybeUninit::uninit(); Log::size(2)];
    for size in [1, 2, 30, 1000] {
        assert_eq!(said(Log::new(&settings).unwrap(), text.as_bytes(), size), wanted);
        assert_eq!(said(Log::new_in(&mut memory, &settings).unwrap(), text.as_bytes(), size), wanted);
    }
    // more lines than there is room for at once, and results that are dropped
    let many = format!("0 {EVEN}\n").repeat(1000);
    assert_eq!(said(Log::new(&settings).unwrap(), many.as_bytes(), many.len()).len(), 1000);
    let mut log = Log::new(&settings).unwrap();
    assert_eq!(log.take(many.as_bytes()).next().unwrap().number, 1);
    log.take(many.as_bytes());
    assert_eq!((log.tally().good, log.take(b"x\n").last().unwrap().number), (2000, 2001));
    let mut answers = log.take(b"");
    assert_eq!((answers.next(), answers.fault()), (None, None));
    assert_eq!(code(Log::new(&Settings { limit: 0, ..settings })), Fault::NO_LIMIT);
}

#[test]
fn feeds() {
    let mut memory = vec![MaybeUninit::uninit(); Feed::size()];
    let count = 300;
    let log: String = (0..count).map(|at| format!("{} {EVEN}\n", at * 10)).collect();
    for size in [1, 7, 100_000] {
        let mut feed = Feed::new_in(&mut memory, &FeedSettings::default()).unwrap();
        assert_eq!(feed.format(), Format::Auto);
        let mut told: Vec<(u64, Frame)> = Vec::new();
        for piece in log.as_bytes().chunks(size) {
            told.extend(feed.take(piece, 0));
        }
        assert_eq!(feed.format(), Format::Log);
        told.extend(feed.finish(0));
        assert_eq!((told.len(), feed.counts().written, feed.counts().found), (300, 300, 300));
        assert!(told.iter().enumerate().all(|(at, one)| *one == (at as u64 * 10, frame(EVEN))));
    }
    let live = FeedSettings { format: Format::Avr, live: true, all_formats: true, ..FeedSettings::default() };
    let mut feed = Feed::new(&live).unwrap();
    let told: Vec<_> = feed.take(b"*5D40621D000000;*8D", 77).collect();
    assert_eq!(told, [(77, Frame([0x5D, 0x40, 0x62, 0x1D, 0, 0, 0, 0, 0, 0, 0, 0, 0, 0]))]);
    feed.disconnected();
    assert_eq!((feed.counts().damaged, feed.finish(78).count()), (1, 0));
    let mut dropped = Feed::new(&FeedSettings::default()).unwrap();
    dropped.take(log.as_bytes(), 0);
    assert!(dropped.counts().written > 290);
    let mut none = Feed::new(&FeedSettings::default()).unwrap();
    none.take(b"{\"now\": 1}\n", 0);
    none.finish(0);
    assert_eq!(none.format(), Format::Stranger(9));
    assert_eq!(code(Feed::new(&FeedSettings { format: Format::Stranger(7), ..live })), Fault::BAD_FORMAT);
    let mut clocked = Feed::new(&FeedSettings { by_arrival: true, ..live }).unwrap();
    let told: Vec<_> = clocked.take(format!("@000000005DC0{EVEN};").as_bytes(), 5).collect();
    assert_eq!(told, [(5, frame(EVEN))]);
}
