"""The crate for Rust over the library for C: its tests and its examples, what rustdoc and the
compiler warn of, and the example of its page, each by cargo without a network."""

import os
import re
import shutil
import struct
from pathlib import Path

import pytest

from running import ROOT, code_blocks, coded_rows, expect, expect_that, need, race_rows, run

pytestmark = pytest.mark.xdist_group("rust")


@pytest.fixture(scope="module")
def cargo(store, library):
    """Runs cargo over a copy of the crate."""
    need("cargo")
    folder = store / "rust"
    shutil.copytree(ROOT / "rust", folder, ignore=shutil.ignore_patterns("target", "Cargo.lock"))
    environment = {
        **os.environ,
        "CARGO_HOME": str(store / "cargo-home"),
        "CARGO_TARGET_DIR": str(store / "rust-target"),
        "BEAROFF_LIBRARY_DIR": str(library),
        "RUSTFLAGS": "-D warnings",
        "RUSTDOCFLAGS": "-D warnings",
    }

    def run_it(*words, cwd=folder, **more):
        command = ["cargo", *words, "--offline"]
        return run(*command, cwd=cwd, env={**environment, **more}, timeout=900)

    return run_it


def test_its_tests(cargo, note):
    done = cargo("test", "--release")
    expect_that(done.status == 0, done, "no test that fails")
    counts = [line for line in done.output.decode().splitlines() if line.startswith("test result")]
    assert len(counts) == 3 and " 0 passed" not in counts[1], "its tests ran, and its examples"
    note(f"rust: {' / '.join(counts)}")


def test_its_documentation(cargo):
    done = cargo("doc", "--no-deps")
    expect_that(done.status == 0, done, "documentation without a warning")


def write_caller(room, lines, crate=ROOT / "rust"):
    """Writes a crate that depends on it: what it uses, and behind an empty line what it does."""
    (room / "src").mkdir()
    (room / "Cargo.toml").write_text(
        f'[package]\nname = "caller"\nversion = "0.1.0"\nedition = "2021"\n'
        f'[dependencies]\nbearoff = {{ path = "{crate}" }}\n'
    )
    head, *body = lines.split("\n\n", 1)
    told = "\n".join(f"    {line}" for line in body[0].splitlines())
    result = "Result<(), Box<dyn std::error::Error>>"
    (room / "src/main.rs").write_text(
        f"{head}\n\nfn main() -> {result} {{\n{told}\n    Ok(())\n}}\n"
    )


@pytest.mark.parametrize("page", ["rust/README.md", "docs/embedding.md"])
def test_a_program_over_it(cargo, built, room, page):
    """The example of a page, in a crate that depends on it."""
    [example] = code_blocks(page, "rust")
    write_caller(room, example)
    shutil.copyfile(built(44), room / "race.db")
    expect(cargo("run", "--quiet", cwd=room), 0, "6.083 rolls, 4/2 4/3\n")


def test_a_library_of_another_version(cargo, room):
    """It is refused where the crate may call what it hasn't."""
    own = (ROOT / "VERSION").read_text(encoding="utf-8").strip()
    shutil.copytree(ROOT / "rust", "own", ignore=shutil.ignore_patterns("target", "Cargo.lock"))
    write_caller(room, 'use bearoff::Database;\n\nprintln!("{:?}", Database::build(0));', "own")
    for version, is_enough in (("1.0.1", False), ("1.1.0", False), ("0.9.9", False), (own, True)):
        text = (ROOT / "rust/Cargo.toml").read_text(encoding="utf-8")
        Path("own/Cargo.toml").write_text(text.replace(own, version, 1), encoding="utf-8")
        done = cargo("run", "--quiet", cwd=room)
        wanted = "Ok(Database" if is_enough else f'Err(OtherLibrary {{ version: "{own}" }})'
        expect_that(done.output.decode().startswith(wanted), done, wanted)


def test_a_missing_library(cargo, room):
    done = cargo("check", BEAROFF_LIBRARY_DIR=str(room), CARGO_TARGET_DIR=str(room))
    for words in (
        f"{room}/libbearoff.a can't be read: No such file",
        "set BEAROFF_LIBRARY_DIR to",
    ):
        expect_that(words in done.errors.decode(), done, f"'{words}'")


NUMBERS = """
use bearoff::{Database, Position, Race, Whole};

for (bound, step) in [(12, 1), (58, 97), (90, 97)] {
    let database = Database::build(bound)?;
    for position in database.positions()?.into_iter().step_by(step) {
        let (mean, epc) = (database.mean(position)?, database.epc(position)?);
        for told in database.distribution(position)?.iter().chain([&mean, &epc.exact]) {
            let (above, below) = (told.numerator(), told.denominator());
            println!("{}/{} {:x} {:.3}", above, below, f64::from(*told).to_bits(), told);
        }
    }
}
for shift in 0..192 {
    for near in 0..4_u64 {
        // numbers of that many digits, of which the last ones decide
        let mut words = [0; 3];
        words[2 - shift / 64] = 1 << (shift % 64);
        words[2] ^= near;
        if shift > 53 {
            let half = shift - 53;
            words[2 - half / 64] ^= 1 << (half % 64);
        }
        println!("{}/1 {:x} -", Whole(words), f64::from(Whole(words)).to_bits());
    }
}
let texts = std::fs::read("texts")?;
for text in texts.split(|byte| *byte == 0xff) {
    match std::str::from_utf8(text)?.parse::<Position>() {
        Ok(position) => println!("{}", position),
        Err(bearoff::Error::BadText) => println!("bad-text"),
        Err(bearoff::Error::Refused { status: 3 }) => println!("too-many"),
        Err(error) => println!("{:?}", error),
    }
}
let races = std::fs::read("races")?;
for text in races.split(|byte| *byte == 0xff) {
    match std::str::from_utf8(text)?.parse::<Race>() {
        Ok(race) => {
            let theirs = race.theirs.unwrap_or_default().points;
            let dice = race.roll.map_or([0, 0], |roll| [roll.one, roll.other]);
            let seat = race.on_roll.map_or(0, |player| 1 + player as u8);
            let told = [u8::from(race.theirs.is_some()), dice[0], dice[1], seat];
            let told = [&[0], &race.mine.points[..], &theirs, &told].concat();
            let words: Vec<String> = told.iter().map(u8::to_string).collect();
            println!("{}", words.join(" "));
        }
        Err(bearoff::Error::BadText) => println!("11 0"),
        Err(bearoff::Error::NotARace { status, place }) => println!("{} {}", status, place),
        Err(error) => println!("{:?}", error),
    }
}
let plays = std::fs::read("plays")?;
for play in plays.split(|byte| *byte == 0xff) {
    let (position, moves) = std::str::from_utf8(play)?.split_once(' ').unwrap();
    match position.parse::<Position>()?.after(moves) {
        Ok(position) => println!("{}", position),
        Err(bearoff::Error::BadPlay) => println!("bad-play"),
        Err(error) => println!("{:?}", error),
    }
}
"""


def test_numbers_and_texts(cargo, room):
    """Each number is the nearest double, and with a precision what that is; each text is read as
    the library for C reads it, and each play as in the other languages."""
    write_caller(room, NUMBERS.lstrip())
    rows, plays, races = coded_rows("texts.txt", 2), coded_rows("plays.txt", 3), race_rows()
    (room / "texts").write_bytes(b"\xff".join(text.encode() for _, _, text in rows))
    (room / "races").write_bytes(b"\xff".join(text.encode() for text, _ in races))
    asked = (f"{at} {moves}".encode() for at, _, _, moves in plays)
    (room / "plays").write_bytes(b"\xff".join(asked))
    done = cargo("run", "--release", "--quiet", cwd=room)
    expect_that(done.status == 0, done, "status 0")
    lines = done.output.decode().splitlines()
    wanted = [verdict for verdict, _, _ in rows]
    wanted += [re.sub(r"^3 .$", "Refused { status: 3 }", told) for _, told in races]
    wanted += [to for _, _, to, _ in plays]
    verdicts, lines = lines[-len(wanted) :], lines[: -len(wanted)]
    assert verdicts == wanted
    assert len(lines) > 20_000
    for line in lines:
        exact, bits, digits = line.split(" ")
        [near] = struct.unpack(">d", int(bits, 16).to_bytes(8, "big"))
        # which Python rounds rightly, also between whole numbers of any length
        above, below = map(int, exact.split("/"))
        assert near == above / below, line
        assert digits in ("-", f"{near:.3f}"), line
