"""Plants mutants that meet every contract, since they only give up, and sees a test refuse
each: bodies that always answer want of memory, or a fault of a reader or a writer; that give up
over some size; that read or flush where they need not. Each is planted in a copy of the
repository, where the tests of one crate, or one of the short trials of failing_calls, run without
proof, or where the program itself is made without proof and runs rows of test_program.py or
test_files.py. It takes about a minute of a processor for a body, and a minute and a half where
the program is made. Those of IN_GATE are planted in each run; --by-hand plants the others too, and
sees that what has to refuse them passes where nothing is planted. -k takes some by their names.
That each row's line stands once in its file is seen of all rows."""

import functools
import os
import re
import shlex
import shutil
import subprocess
import sys
import tempfile
import time

import pytest

from running import ROOT

TESTS = ["rt", "try", "--test", "--steps", "1", "--seconds", "200"]
PROGRAM = ["rt", "try", "--steps", "1", "--seconds", "200"]

# the program, where it is started with words: the status and a line that it has to end with. FILE
# is a file that it makes, and BUILT one that was made where nothing was planted
BUILDS = "bearoff_cli build --pips 16 FILE"
PROGRAMS = {
    BUILDS: (0, "built pips 16 positions"),
    "bearoff_cli check BUILT": (0, "ok pips 16 positions"),
}

# the places at which a body gives up, each with its file and the line that stands there: before an @
# or behind it
PLACES = r"""
build | retrograde/src/building.rt | @let Some(header) = Header::new(usual_version(bound), bound) else {
header | retrograde/src/building.rt | write_header(&header, writer)?;\n@
compact | retrograde/src/building.rt | @let Some(header) = Header::new(COMPACT_VERSION, bound) else {
upgrade | certificate/src/upgrading.rt | @let header = Header::new(COMPACT_VERSION, old.bound).unwrap();
records | certificate/src/upgrading.rt | write_compact(table, ranks, &header, rank, writer)?;\n    }\n@
push | retrograde/src/means.rt | @self.means.push(mean).map_err(|_| BuildFault::Memory)
record | db_layout/src/writing.rt | @law_record(mean, plays, spread);
write_header | db_layout/src/writing.rt | @write_bytes(&header_bytes(header), writer)
paged | db_reader/src/paged.rt | @match LruCache::new(alloc, count) {
front | db_reader/src/paged.rt | let header = read_header(&mut self.source)?;\n@
moves | epc_query/src/pages/moves.rt | @let Ok(choices) = Vec::with_capacity(alloc, found.len()) else {
run | epc_query/src/running.rt | @let mut held = LineBuffer::new();
take | epc_query/src/running.rt | @let Ok(taken) = reads.next(&mut chunk) else {
answer | epc_query/src/answers.rt | @let Some(()) = answer(self, line, text) else {
mean | certificate/src/checked.rt | let Some(mean) = mean_in(&self.table.lend(rank, &room)) else {\n@
shares | certificate/src/checked.rt | let Some(spread) = spread_in(&self.table.lend(rank, &room)) else {\n@
tell | bearoff_cli/src/act.rt | @tell(alloc, perform(disk, alloc, words, input, output), errors)
words | bearoff_cli/src/act.rt | @let mut words = lines.as_bytes();
line | command_line/src/commands.rt | @text.push_str(line)?;
read | bearoff_cli/src/files.rt | @if read.is_empty() {
file | bearoff_cli/src/files.rt | @match build(alloc, pips, &mut file) {
board | bearoff_cli/src/files.rt | @let mut file = vec![in alloc; 0; size]?;
audit | bearoff_cli/src/kinds.rt | @for pips in 0..=kept.bound {
level | bearoff_cli/src/kinds.rt | @opened.put_level(pips, &mut text).unwrap();
"""

# bodies that give up, each by its name, its place, when it does, what it answers then, and what has
# to refuse it
GIVING_UP = """
build_always_wants_memory | build | bound < 59 | Err(BuildFault::Memory) | failing_calls build
build_always_blames_the_writer | build | bound < 59 | Err(BuildFault::Write) | failing_calls build
build_wants_memory_over_15_pips | file | pips > 15 | Err(AllocError) | BUILDS
build_blames_the_writer_over_15_pips | build | bound > 15 | Err(BuildFault::Write) | BUILDS
build_flushes | header | writer.flush().is_err() | Err(BuildFault::Write) | failing_calls flushes
build_compact_always_wants_memory | compact | bound < 59 | Err(BuildFault::Memory) | file_tests
upgrade_always_blames_the_writer | upgrade | old.bound < 59 | Err(UpgradeFault::Write) | file_tests
upgrade_blames_the_table_over_6_pips | upgrade | old.bound > 6 | Err(UpgradeFault::Read) | file_tests
upgrade_flushes | records | writer.flush().is_err() | Err(UpgradeFault::Write) | failing_calls flushes
push_always_wants_memory | push | mean.numerator() < 1 << 127 | Err(BuildFault::Memory) | failing_calls push
push_wants_memory_from_2000_means_on | push | self.means.len() >= 2000 | Err(BuildFault::Memory) | failing_calls push
means_over_13_fail | record | mean.numerator() > 13 * fixed_fraction::WHOLE | Err(WriteFault) | failing_calls flushes
write_record_flushes | record | writer.flush().is_err() | Err(WriteFault) | failing_calls flushes
write_header_flushes | write_header | writer.flush().is_err() | Err(WriteFault) | failing_calls flushes
paged_always_wants_memory | paged | capacity > 0 | Err((source, PagedFault::Memory)) | failing_calls pages
paged_always_blames_the_source | front | header.bound < 45 | Err(TableFault::Read) | failing_calls pages
moves_always_wants_memory | moves | found.len() > 0 | Err(QueryFault::Memory) | failing_calls moves
moves_want_memory_over_100_results | moves | found.len() > 100 | Err(QueryFault::Memory) | rows TestLongestList
run_always_blames_the_reader | run | turns > 0 | Err(RunFault::Read) | failing_calls run
run_always_blames_the_writer | run | turns > 0 | Err(RunFault::Write) | failing_calls run
run_always_runs_out_of_turns | run | turns > 0 | Err(RunFault::Turns) | failing_calls run
run_always_wants_memory | run | turns > 0 | Err(RunFault::Memory) | failing_calls run
run_always_blames_the_table | run | turns > 0 | Err(RunFault::Table) | failing_calls run
run_blames_the_reader_after_50000_reads | take | _turn > 50_000 | Err(RunFault::Read) | failing_calls turns
run_blames_the_writer_after_50000_lines | take | count > 50_000 | Err(RunFault::Write) | failing_calls turns
long_lines_blame_boards | answer | line.len() > 40 && ROOM > 12_288 | Err(RunFault::Table) | rows TestBoards::test_query
long_lines_blame_a_file | answer | line.len() > 40 | Err(RunFault::Table) | rows TestLongLines
lines_of_37_bytes_fail | answer | line.len() == 37 | Err(RunFault::Table) | rows TestLongLines::test_each_length
a_mean_that_cannot_be_is_none | mean | let Some(none) = Scaled::new(0) | Ok(none) | rows TestChanges
shares_that_cannot_be_are_those_of_no_roll | shares | rank < 60_000 | Ok(Spread::finished()) | rows TestChanges
the_program_always_wants_memory | tell | words.len() < 9 | Told { status: 1, line: Err(WriteFault) } | BUILDS
words_want_memory_where_there_are_three | words | lines.len() > 40 | Err(Fault::Memory) | rows TestAsk::test_words
words_want_memory_over_100000_bytes | line | text.len() > 100_000 | Err(AllocError) | rows TestAsk::test_words
the_program_gives_up_over_30000_bytes | read | bytes.len() > 30_000 | Err(Unread::Memory) | bearoff_cli check BUILT
the_whole_board_always_wants_memory | board | size > 0 | Err(AllocError) | rows TestBoards::test_build
the_audit_of_57_pips_gives_up | audit | kept.bound == 57 | Err(Fault::Write) | rows TestBounds::test_bound[57]
the_audit_of_a_board_gives_up_at_90_pips | level | pips == 90 | Err(Fault::File) | rows TestBoards::test_audit
"""


def giving_up(row):
    """The name, the file, what stands there, what is planted, and what has to refuse it."""
    name, place, when, answer, words = row.split(" | ")
    file, text = re.search(rf"(?m)^{place} \| (.*?) \| (.*)", PLACES).groups()
    text, early = text.replace("\\n", "\n"), f"if {when} {{ return {answer}; }}\n"
    words = BUILDS if words == "BUILDS" else words
    return name, f"crates/{file}", text.replace("@", ""), text.replace("@", early), words


# other bodies: the name and the file, what stands there, what stands there instead, and the crate
# whose tests have to fail, or the program that has to print something else, with its words, or
# `rows` and the class of tests, or a test with its parameter, that has to fail
OTHERS = r"""
paged_reads_at_every_load | db_reader/src/paged.rt
let _ = self.records.put(rank, read);
if rank > 60_000 { let _ = self.records.put(rank, read); }
file_tests

the_first_block_of_a_file_is_dropped | bearoff_cli/src/files.rt
Ok(mut file) => read_bytes(alloc, &mut file),
Ok(mut file) => { let mut block = [0; BLOCK]; let _ = read_block(&mut file, &mut block)?; read_bytes(alloc, &mut file) }
bearoff_cli check BUILT

a_file_over_16_megabytes_tells_another_length | db_reader/src/file_source.rt
self.file.seek(SeekFrom::End(0)).map_err(|_| SourceFault)
match self.file.seek(SeekFrom::End(0)) { Ok(n) => Ok(if n > 1 << 24 { 27_296 } else { n }), _ => Err(SourceFault) }
rows TestLongFiles

100_pages_are_one | bearoff_cli/src/act.rt
FileSource::new(file), affordable(alloc, records)
FileSource::new(file), if records == 100 { 1 } else { affordable(alloc, records) }
rows TestReads

a_play_that_cannot_be_bears_all_off | certificate/src/checked.rt
if recorded >= self.header.count {
let recorded = if recorded == 65_535 { 0 } else { recorded }; if recorded >= self.header.count {
rows TestChanges

the_trial_never_fails | db_reader/src/countdown.rt
let is_due = self.calls_left == 1;
let is_due = self.calls_left == 0 && self.calls_left > 0;
file_tests

the_trial_fails_at_the_call_after | db_reader/src/countdown.rt
calls_left: call,
calls_left: if call == 0 { 0 } else { call.saturating_add(1) },
file_tests

run_blames_the_reader_where_the_reads_run_out | epc_query/src/running.rt
Err(RunFault::Turns)\n}
Err(RunFault::Read)\n}
failing_calls turns

run_says_that_the_reads_ran_out_where_one_failed | epc_query/src/running.rt
return Err(RunFault::Read);
return Err(RunFault::Turns);
failing_calls reads

run_flushes_few_lines_alone | epc_query/src/lines.rt
held.extend(&chunk[start..]);\n    flush(writer)?;
held.extend(&chunk[start..]);\n    if count < 200 { flush(writer)?; }
file_tests

the_upgrade_blames_the_writer_for_a_change | certificate/src/upgrading.rt
let Some(numbers) = numbers_in(&table.lend(rank, &room)) else {\n        return Err(UpgradeFault::Read);
let Some(numbers) = numbers_in(&table.lend(rank, &room)) else {\n        return Err(UpgradeFault::Write);
file_tests

paged_keeps_one_record_more | db_reader/src/paged.rt
match LruCache::new(alloc, count) {
match LruCache::new(alloc, count.saturating_add(1)) {
file_tests

paged_lets_go_of_the_record_read_first | db_reader/src/paged.rt
self.records.get(&rank)
self.records.peek(&rank)
file_tests

a_loss_under_the_least_is_none | epc_query/src/pages/losses.rt
None => Err(QueryFault::Read),
None => Ok(Scaled::ZERO),
file_tests

a_board_file_over_8_megabytes_is_not_written | bearoff_cli/src/files.rt
let written = write_flushed(file.as_slice(), &mut draft.writer);
let written = if file.len() > 1 << 23 { Err(Fault::Write) } else { write_flushed(file.as_slice(), &mut draft.writer) };
rows TestBoards::test_build

replies_before_a_failed_read_are_not_handed_on | bearoff_cli/src/kinds.rt
RunFault::Write => RunFault::Write,
RunFault::Write | RunFault::Table => cause,
rows TestChanges

a_new_file_is_made_in_the_working_folder | whole_file/src/draft.rt
let folder = folder_of(alloc, place.as_str())?;
let folder = folder_of(alloc, if place.is_empty() { "" } else { "place" })?;
rows TestLinks::test_another_device[build --pips 8]

a_new_file_is_for_its_owner_alone | whole_file/src/draft.rt
create_beside(disk, alloc, place, 0o666)
create_beside(disk, alloc, place, 0o600)
rows TestOwners::test_a_new_file[build --pips 8-0o22]

the_group_is_not_kept | whole_file/src/system.rt
fchown(self, Some(owner), Some(group))
fchown(self, Some(owner), if group == u32::MAX { Some(group) } else { None })
rows TestOwners::test_a_file_of_another_user[build --pips 8-(65534, 65533)-own]

the_mode_is_not_kept | whole_file/src/system.rt
is_owned && file.set_permissions(permissions).is_ok()
is_owned && permissions.mode() < u32::MAX
rows TestOwners::test_a_file_that_is_replaced[build --pips 8-0o640]

files_are_compared_without_their_device | whole_file/src/draft.rt
named.number == file.number
named.number.1 == file.number.1
rows TestSteps::test_a_file_of_the_same_number[build --pips 8]

a_folder_that_can_only_be_read_is_told | whole_file/src/system.rt
                | ErrorKind::ReadOnlyFilesystem\n
\n
rows TestStraight::test_a_folder_that_can_only_be_read[build --pips 8]

a_path_that_is_too_long_for_another_name_is_told | whole_file/src/system.rt
\n                | ErrorKind::InvalidFilename => Ok(Made::Refused),
=> Ok(Made::Refused),
rows TestStraight::test_a_path_that_is_too_long_for_another_name[build --pips 8]

a_file_of_which_nothing_is_told_is_not_synced | whole_file/src/system.rt
Ok(told) if !told.is_file() => Ok(()),
Ok(told) if !told.is_file() => Ok(()), Err(_) => Ok(()),
rows TestSteps::test_a_file_of_which_nothing_is_told[build --pips 8-new]

the_input_is_read_behind_its_end | epc_query/src/reads.rt
let result = self.reader.read(buf);
let mut result = self.reader.read(buf); if matches!(result, Ok(0)) { result = self.reader.read(buf); }
rows TestTerminal::test_the_end[query eight-none]

a_word_that_is_no_text_wants_memory | bearoff_cli/src/main.rt
return Err(Fault::Open);\n    }\n    Ok(words)
return Err(Fault::Memory);\n    }\n    Ok(words)
rows TestCommands::test_a_word_that_is_no_text[check X]

two_closed_streams_have_a_stand_in | bearoff_cli/src/main.rt
for place in &mut standing {
for place in &mut standing[..2] {
rows TestClosedStreams::test_what_stands_in[012]

about_leaves_out_what_the_system_says | bearoff_cli/src/act.rt
let _ = write!(text, "{error}");
let _ = error;
rows TestAbout::test_faults

a_help_that_is_asked_for_is_told_as_wrong_words | bearoff_cli/src/act.rt
Err(WordsError::Help(text)) => refused(write_flushed(text.as_bytes(), output)),
Err(WordsError::Help(text)) => Err(ProgramFault::Words(text)),
rows TestCommands::test_words_that_tell_a_text

the_stack_has_room_for_a_64th | bearoff_cli/src/files.rt
const STACK: usize = 896 << 10;
const STACK: usize = 14 << 10;
rows test_memory_about_the_least[check of 20 pips]

lines_of_a_file_have_a_prompt | bearoff_cli/src/main.rt
let is_typed = rt.stdin().is_terminal() && terminal.is_terminal();
let is_typed = terminal.is_terminal();
rows TestTerminal::test_lines_of_a_file

a_file_at_a_terminal_is_read_behind_its_end | bearoff_cli/src/files.rt
if read.is_empty() {
if read.is_empty() { let _ = read_block(file, &mut block);
rows TestTerminal::test_a_file_that_is_typed

the_help_has_no_examples | command_line/src/commands.rt
.after_long_help(EXAMPLES)
.after_long_help(ABOUT)
rows TestCommands::test_words_that_tell_a_text
"""


def other(row):
    """The same of another body."""
    head, *texts, words = row.split("\n")
    name, file = head.split(" | ")
    return name, f"crates/{file}", *(text.replace("\\n", "\n") for text in texts), words


PLANTED = [
    *map(giving_up, GIVING_UP.strip().split("\n")),
    *map(other, OTHERS.strip().split("\n\n")),
]

# the bodies of the gate: those of each kind of test that cost least
IN_GATE = {
    "run_always_wants_memory",
    "write_record_flushes",
    "paged_always_wants_memory",
    "upgrade_always_blames_the_writer",
    "build_wants_memory_over_15_pips",
    "a_mean_that_cannot_be_is_none",
}


def started(entry):
    """The words of a process, none where it has gone or is another's."""
    try:
        with open(os.path.join("/proc", entry, "cmdline"), encoding="utf-8") as file:
            return file.read().split("\0")[:-1]
    except (OSError, ValueError):
        return []


def made(place):
    """The program, made without proof: `rt try` makes it and starts it with a pipe for a database,
    and while it waits for what the pipe will give, the file that it runs from is copied."""
    pipe, start = os.path.join(place, "pipe"), os.path.join(place, "start")
    program = os.path.join(place, "program")
    os.mkfifo(pipe)
    if os.path.exists(start):
        os.remove(start)
    trial = subprocess.Popen(
        [*PROGRAM, "--", "check", pipe],
        cwd=os.path.join(place, "crates", "bearoff_cli"),
        stdin=subprocess.DEVNULL,
        stdout=subprocess.PIPE,
        stderr=subprocess.STDOUT,
        text=True,
    )
    while trial.poll() is None:
        try:
            writer = os.open(pipe, os.O_WRONLY | os.O_NONBLOCK)
        except OSError:
            time.sleep(0.2)
            continue
        for entry in os.listdir("/proc"):
            words = started(entry)
            if words[-2:] == ["check", pipe] and words[-3].endswith("/program"):
                shutil.copy(words[-3], program)
                with open(start, "w", encoding="utf-8") as file:
                    file.write("#!/bin/sh\nexec " + shlex.join(words[:-3] + [program]) + ' "$@"\n')
                os.chmod(start, 0o755)
        os.close(writer)
        break
    said = trial.communicate()[0]
    os.remove(pipe)
    assert os.path.exists(start), f"the program could not be made\n{said[-3000:]}"
    return start


def parts(words):
    """The words of a row, of which `rows` has one more, with spaces in it."""
    return words.split(maxsplit=1 if words.startswith("rows ") else -1)


def tried(place, words):
    """Whether the tests of a crate pass, or its program, started with words, prints what it has
    to, or rows of another file of tests pass; and what was said. What comes to no verdict
    is a failure."""
    crate, *arguments = parts(words)
    if crate == "rows":
        rows = os.path.join(place, "tests", ROWS[arguments[0].partition("[")[0]])
        command = [
            sys.executable,
            "-m",
            "pytest",
            "-q",
            "-x",
            f"{rows}::{arguments[0]}",
            "--program",
            made(place),
        ]
        done = subprocess.run(
            command,
            cwd=place,
            stdin=subprocess.DEVNULL,
            capture_output=True,
            text=True,
            env={**without_xdist(), "SLOWER": "30"},
        )
        said = done.stdout + done.stderr
        # pytest ends with 1 where a test failed, or what it is given could not be made by the
        # program, and with more where none could be run
        is_told = re.search(r"\d+ (passed|failed|error)", said)
        assert done.returncode in (0, 1) and is_told, said[-3000:]
        return done.returncode == 0, said
    folder = os.path.join(place, "crates", crate)
    arguments = [
        os.path.join(place, word) if word in ("FILE", "BUILT", "NOTHING") else word
        for word in arguments
    ]
    command = [*PROGRAM, "--", *arguments] if arguments else TESTS
    done = subprocess.run(
        command, cwd=folder, stdin=subprocess.DEVNULL, capture_output=True, text=True
    )
    said = done.stdout + done.stderr
    assert "run=ended" in said, f"{words} could not be tried\n{said[-3000:]}"
    assert arguments or "test result: " in said, f"{words} could not be tried\n{said[-3000:]}"
    status, wanted = PROGRAMS.get(words, (0, "whole"))
    return done.returncode == status and (not arguments or wanted in said), said


def without_xdist():
    """The environment for a run of pytest within another one."""
    return {
        name: value
        for name, value in os.environ.items()
        if not name.startswith(("PYTEST_", "COV_"))
    }


@functools.cache
def text_of(file):
    return (ROOT / file).read_text(encoding="utf-8")


def rows_of(text):
    """The classes of a file of tests, the tests of each, as CLASS::TEST, and those of none."""
    classes = re.split(r"(?m)^class (\w+):", text)[1:]
    return {
        row
        for name, body in zip(classes[::2], classes[1::2])
        for row in (name, *(f"{name}::{test}" for test in re.findall(r" def (test_\w+)", body)))
    } | {*re.findall(r"(?m)^def (test_\w+)", text)}


ROWS = {
    row: file
    for file in ("test_program.py", "test_files.py", "test_starved.py")
    for row in rows_of(text_of(f"tests/{file}"))
}
SHORT_TRIALS = re.findall(r'(?m)^ +"(\w+)" => ', text_of("crates/failing_calls/src/growths.rt"))


@pytest.mark.parametrize("row", PLANTED, ids=lambda row: row[0])
def test_line(row):
    """The row's line stands once in its file, and the test that has to refuse it is there."""
    name, file, old, new, words = row
    assert text_of(file).count(old) == 1, f"'{old.strip()}' has to stand once in {file}"
    assert old != new
    crate, *arguments = parts(words)
    there = {"rows": ROWS, "failing_calls": SHORT_TRIALS}.get(crate)
    if there is not None:
        assert len(arguments) == 1, f"there is no {words}"
        assert arguments[0].partition("[")[0] in there, f"there is no {words}"
    else:
        assert (ROOT / "crates" / crate).is_dir(), f"there is no {words}"
        assert not arguments or words in PROGRAMS, f"there is no {words}"


def test_names():
    names = [row[0] for row in PLANTED]
    assert len(set(names)) == len(names)
    assert IN_GATE <= set(names)


@pytest.fixture(scope="module")
def place():
    """A copy of the repository, in which a body is planted and taken back."""
    assert shutil.which("rt"), "the Rattle kit's command rt is missing"
    with tempfile.TemporaryDirectory(prefix="bearoff-planted-") as work:
        copy = os.path.join(work, "copy")
        left_out = shutil.ignore_patterns(".git", "out", "__pycache__", ".pytest_cache")
        shutil.copytree(ROOT, copy, symlinks=True, ignore=left_out)
        yield copy


@functools.cache
def passes_unplanted(place, words):
    """What has to refuse bodies passes where nothing is planted, and leaves what others read."""
    passes, said = tried(place, words)
    assert passes, f"{words} fails where nothing is planted\n{said[-3000:]}"
    if words == BUILDS:
        shutil.copy(os.path.join(place, "FILE"), os.path.join(place, "BUILT"))


@pytest.mark.parametrize(
    "row",
    [
        pytest.param(
            row,
            id=row[0],
            marks=[
                # two groups are two copies, in which two bodies at a time are tried
                pytest.mark.xdist_group(f"planted {number % 2}"),
                # each is compiled by the kit, a minute or two
                pytest.mark.proved,
                *([] if row[0] in IN_GATE else [pytest.mark.by_hand]),
            ],
        )
        for number, row in enumerate(sorted(PLANTED, key=lambda row: row[0] not in IN_GATE))
    ],
)
def test_refused(place, row, request):
    """The test of a row fails where the row's body is planted."""
    name, file, old, new, words = row
    if request.config.getoption("--by-hand"):
        if "BUILT" in words:
            passes_unplanted(place, BUILDS)
        passes_unplanted(place, words)
    text = text_of(file)
    path = os.path.join(place, file)
    with open(path, "w", encoding="utf-8") as source:
        source.write(text.replace(old, new))
    try:
        passes, said = tried(place, words)
    finally:
        with open(path, "w", encoding="utf-8") as source:
            source.write(text)
    assert not passes, f"planted {name} in {file}, and {words} passes:\n{said[-2000:]}"
