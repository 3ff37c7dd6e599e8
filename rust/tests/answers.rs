//! What each call answers, beside the library's replies to lines, over a database and a board file.

use bearoff::{library_version, play_to, position_info};
use bearoff::{Database, Error, Position, Race, Roll, Whole};

fn files() -> [Database<'static>; 2] {
    [Database::build(8).unwrap(), Database::build(60).unwrap()]
}

/// All positions of at most so many pips.
fn positions(bound: u8) -> Vec<Position> {
    let mut found = vec![[0; 6]];
    for point in 0..6 {
        let mut more = Vec::new();
        for counts in found {
            for count in 0..=15 {
                let mut longer: [u8; 6] = counts;
                longer[point] = count;
                more.push(longer);
            }
        }
        found = more;
        found.retain(|counts| {
            let pips: u32 = (1..).zip(counts.iter()).map(|(at, it)| at * u32::from(*it)).sum();
            counts.iter().sum::<u8>() <= 15 && pips <= u32::from(bound)
        });
    }
    found.into_iter().map(Position::new).collect()
}

fn rolls() -> Vec<Roll> {
    (1..7).flat_map(|one| (1..=one).map(move |other| Roll::new(one, other))).collect()
}

#[test]
fn of_each_position_what_its_lines_say() {
    for database in files() {
        let every = positions(8);
        assert_eq!(every.len(), 64);
        for position in every {
            let mean = database.mean(position).unwrap();
            let epc = database.epc(position).unwrap();
            let (whole, rest) = (epc.thousandths / 1000, epc.thousandths % 1000);
            let reply = format!(
                "mean {} epc {} {}.{:03}",
                fraction(&mean),
                fraction(&epc.exact),
                whole,
                rest
            );
            assert_eq!(database.answer(format!("mean {}", position)).unwrap(), reply);
            let pips = i64::from(position_info(position).unwrap().pips);
            assert_eq!(database.wastage(position).unwrap(), epc.thousandths as i64 - 1000 * pips);
            let shares = database.distribution(position).unwrap();
            let parts: String = (0..)
                .zip(shares.iter())
                .filter(|(_, share)| !share.numerator().is_zero())
                .map(|(rolls, share)| format!(" {}:{}", rolls, fraction(share)))
                .collect();
            assert_eq!(
                database.answer(format!("dist {}", position)).unwrap(),
                format!("dist{}", parts)
            );
            let sum: f64 = shares.iter().copied().map(f64::from).sum();
            assert!((sum - 1.0).abs() < 1e-12);
            let squares: f64 =
                (0..).zip(&shares).map(|(k, share)| f64::from(k * k) * f64::from(*share)).sum();
            let variance = database.standard_deviation(position).unwrap().powi(2);
            assert!((squares - f64::from(mean).powi(2) - variance).abs() < 1e-12);
            assert_eq!(database.within(position, 99).unwrap().to_string(), "1");
            assert_eq!(database.within(position, 0).unwrap(), shares[0]);
            let rank = database.rank(position).unwrap();
            assert_eq!(
                database.answer(format!("rank {}", position)).unwrap(),
                format!("rank {}", rank)
            );
        }
    }
}

/// A fraction as lines have it, with a denominator of 1 too.
fn fraction(told: &bearoff::Fraction) -> String {
    format!("{}/{}", told.numerator(), told.denominator())
}

#[test]
fn of_each_roll_what_its_lines_say() {
    for database in files() {
        for position in positions(8) {
            for roll in rolls() {
                let asked = format!("{} {}{}", position, roll.one, roll.other);
                if position == Position::default() {
                    let refused = Err(Error::Refused { status: 5 });
                    assert_eq!(database.play(position, roll), refused);
                    continue;
                }
                let play = database.play(position, roll).unwrap();
                let reply = database.answer(format!("play {}", asked)).unwrap();
                assert_eq!(reply, format!("play {} to {}", play, play.to));
                assert_eq!(play_to(position, roll, play.to).unwrap().to, play.to);
                assert_eq!(database.loss(position, roll, play.to).unwrap().to_string(), "0");
                let choices = database.moves(position, roll).unwrap();
                let parts: String = choices
                    .iter()
                    .map(|choice| format!(" {}:{}", choice.to, fraction(&choice.loss)))
                    .collect();
                let reply = database.answer(format!("moves {}", asked)).unwrap();
                assert_eq!(reply, format!("moves{}", parts));
                for choice in choices {
                    assert_eq!(database.loss(position, roll, choice.to), Ok(choice.loss));
                }
            }
        }
    }
}

#[test]
fn of_all_positions_what_each_says() {
    for database in files() {
        let every = database.positions().unwrap();
        assert_eq!(every.len(), database.position_count() as usize);
        assert!(every.windows(2).all(|two| two[0] < two[1]));
        let (means, epcs) = (database.means().unwrap(), database.epcs().unwrap());
        let distributions = database.distributions().unwrap();
        // each of 64, and of a board file one in a hundred or so
        for (rank, position) in every.iter().enumerate().step_by(1 + every.len() / 400) {
            assert_eq!(database.rank(*position), Ok(rank as u16));
            assert_eq!(database.position(rank as u16), Ok(*position));
            assert_eq!(database.mean(*position), Ok(means[rank]));
            assert_eq!(database.epc(*position), Ok(epcs[rank]));
            let shares = database.distribution(*position).unwrap();
            let (told, over) = distributions[rank].split_at(shares.len());
            assert!(over.iter().all(|numerator| f64::from(*numerator) == 0.0));
            for (share, numerator) in shares.iter().zip(told) {
                let chance = f64::from(*numerator) / f64::from(database.denominator());
                assert!((f64::from(*share) - chance).abs() < 1e-15);
            }
        }
        assert_eq!(database.position(every.len() as u16), Err(Error::Refused { status: 10 }));
    }
}

#[test]
fn rolls_and_plays_from_texts() {
    for (text, one, other) in [("21", 2, 1), (" 1-2\n", 1, 2), ("07", 0, 7)] {
        assert_eq!(text.parse(), Ok(Roll::new(one, other)));
    }
    assert_eq!(Roll::new(2, 1).to_string(), "21");
    for text in ["", "2", "211", "2--1", "2 1", "+2", "2,1", "\u{662}1"] {
        assert_eq!(text.parse::<Roll>(), Err(Error::BadRoll));
    }
    let database = Database::build(8).unwrap();
    for position in positions(8) {
        for roll in rolls() {
            for choice in database.moves(position, roll).unwrap_or_default() {
                let play = play_to(position, roll, choice.to).unwrap();
                assert_eq!(position.after(&play.to_string()), Ok(play.to));
            }
        }
    }
}

#[test]
fn a_file_at_a_path() {
    let folder = std::env::temp_dir().join(format!("bearoff-{}", std::process::id()));
    std::fs::create_dir(&folder).unwrap();
    let (path, none) = (folder.join("race.db"), folder.join("none"));
    let built = Database::build(8).unwrap();
    std::fs::write(&path, built.bytes()).unwrap();
    let opened = Database::open_path(&path).unwrap();
    let told = [Database::open_path(&none).map(|_| ()), Database::open_path(&folder).map(|_| ())];
    std::fs::remove_dir_all(&folder).unwrap();
    assert_eq!(opened.bytes(), built.bytes());
    for error in told {
        assert!(matches!(error, Err(Error::Unreadable { .. })), "{:?}", error);
    }
}

#[test]
fn what_a_file_is() {
    let [database, board] = files();
    assert_eq!((database.version(), database.bound(), database.position_count()), (1, 8, 64));
    assert_eq!((board.version(), board.bound()), (3, 60));
    assert_eq!(database.denominator().to_string(), "17324272922341479351919144385642496");
    assert!((f64::from(board.denominator()) / 36f64.powi(33) - 1.0).abs() < 1e-12);
    assert_eq!(library_version(), env!("CARGO_PKG_VERSION"));
    assert_eq!(format!("{:?}", database), "Database { version: 1, bound: 8, positions: 64 }");
    let new = Database::open(database.upgrade().unwrap()).unwrap();
    assert_eq!((new.version(), new.position_count()), (2, 64));
    for other in [&new, &board] {
        assert_eq!(
            other.upgrade(),
            Err(Error::Refused { status: if other.version() == 3 { 18 } else { 9 } })
        );
    }
}

#[test]
fn bytes_that_are_lent_or_owned() {
    let built = Database::build(8).unwrap();
    let bytes = built.bytes().to_vec();
    let lent = Database::open(&bytes[..]).unwrap();
    assert_eq!(lent.bytes().as_ptr(), bytes.as_ptr());
    let owned = Database::open(bytes.clone()).unwrap();
    // moved into a box, and into a thread, it is the same
    let moved = Box::new(owned);
    let six = Position::new([0, 0, 0, 0, 0, 1]);
    let told = std::thread::spawn(move || moved.mean(six).unwrap()).join().unwrap();
    assert_eq!(Ok(told), lent.mean(six));
    std::thread::scope(|scope| {
        for _ in 0..4 {
            scope.spawn(|| {
                for position in positions(8) {
                    assert_eq!(lent.mean(position), built.mean(position));
                }
            });
        }
    });
}

#[test]
fn a_thread_with_little_stack() {
    let thread = std::thread::Builder::new().stack_size(128 << 10);
    let run = || Database::build(12).unwrap().position_count();
    assert_eq!(thread.spawn(run).unwrap().join().unwrap(), 227);
}

#[test]
fn what_is_refused() {
    let database = Database::build(8).unwrap();
    let bytes = database.bytes().to_vec();
    for end in [0, 31, 32, bytes.len() - 1] {
        let told = Database::open(&bytes[..end]).map(|_| ());
        let status = if end < 32 { 16 } else { 23 };
        let word = if end < 32 { "too-short" } else { "bad-length" };
        assert_eq!(told, Err(Error::Damaged { status, line: format!("header {}", word) }));
    }
    let mut changed = bytes.clone();
    changed[32 + 426 + 15] ^= 1;
    let told = Database::open(changed).map(|_| ()).unwrap_err();
    assert_eq!(told.to_string(), "not a valid database: mean rank 1");
    let (six, roll) = (Position::new([0, 0, 0, 0, 0, 1]), Roll::new(2, 1));
    let refused = |status| Err(Error::Refused { status });
    assert_eq!(database.mean(Position::new([16, 0, 0, 0, 0, 0])), refused(3));
    assert_eq!(database.mean(Position::new([0, 0, 0, 0, 0, 2])), refused(4));
    assert_eq!(
        database.rank(Position::new([255; 6])).map(|_| six).map(|_| ()),
        Err(Error::Refused { status: 3 })
    );
    assert_eq!(database.play(six, Roll::new(0, 7)).map(|_| ()), Err(Error::Refused { status: 2 }));
    assert_eq!(database.loss(six, roll, six), refused(6));
    assert_eq!(Database::build(91).map(|_| ()), Err(Error::Refused { status: 4 }));
    assert_eq!(database.answer("mean 1").unwrap(), "error bad-line");
    let told = Error::Refused { status: 2 };
    assert_eq!(told.to_string(), "a die is not 1 to 6");
    assert_eq!("six".parse::<Position>(), Err(Error::BadText));
    assert_eq!("0,0,0,0,0,256".parse::<Position>(), Err(Error::Refused { status: 3 }));
    assert_eq!("0,0,0,0,0,1".parse(), Ok(six));
    let outside = "4HPwATDgc/ABMA".parse::<Race>().unwrap_err();
    assert_eq!(outside, Error::NotARace { status: 34, place: 24 });
    let words = "the player on roll has a checker outside the home board, point 24";
    assert_eq!(outside.to_string(), words);
    let bar = "mAAAqB0PAAAAAA:cAkFAAAAAAAE".parse::<Race>().unwrap_err();
    assert_eq!(bar.to_string(), "a checker is on the bar");
}

#[test]
fn numbers() {
    let database = Database::build(8).unwrap();
    let mean = |text: &str| database.mean(text.parse().unwrap()).unwrap();
    let (one, six) = (mean("1,0,0,0,0,0"), mean("0,0,0,0,0,1"));
    assert_eq!((one.to_string(), six.to_string()), ("1".into(), "5/4".into()));
    assert_eq!((f64::from(one), f64::from(six)), (1.0, 1.25));
    let epc = database.epc(Position::new([0, 0, 0, 0, 0, 1])).unwrap();
    assert_eq!(
        format!("{} {:.3} {}", epc, epc, f64::from(epc) == 245.0 / 24.0),
        "245/24 10.208 true"
    );
    assert!(one < six && six > one);
    assert_eq!(format!("[{:>6}] [{:<5}]", six, one), "[   5/4] [1    ]");
    assert_eq!(
        format!("{:.3} {:7.1} {:<7.2}| {:+.0}", six, six, one, one),
        "1.250     1.2 1.00   | +1"
    );
    assert_eq!(Whole([0, 0, 7]).to_string(), "7");
    assert_eq!(Whole([0, 1, 0]).to_string(), "18446744073709551616");
    assert_eq!(Whole([1, 0, 0]).to_string(), "340282366920938463463374607431768211456");
    assert_eq!(
        Whole([u64::MAX; 3]).to_string(),
        "6277101735386680763835789423207666416102355444464034512895"
    );
}
