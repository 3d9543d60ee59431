//! The comparison: generated cases, given to the programs and to this implementation.

use crate::bench::{answer, Answer};
use crate::bench_cases::{bench_case, BenchCase};
use crate::inspect;
use crate::inspect_cases::{inspector_case, File, InspectorCase};
use crate::random::Random;
use std::collections::BTreeMap;
use std::ffi::{OsStr, OsString};
use std::fmt::Write as _;
use std::fs;
use std::io::{ErrorKind, Write as _};
use std::os::unix::ffi::OsStringExt;
use std::path::{Path, PathBuf};
use std::process::{Command, Output, Stdio};

/// The programs that are compared.
pub struct Programs {
    bench: PathBuf,
    inspect: PathBuf,
}

impl Programs {
    pub fn at(bench: &OsStr, inspect: &OsStr) -> Result<Programs, String> {
        let whole_path = |path: &OsStr| {
            fs::canonicalize(path).map_err(|error| format!("{}: {error}", path.display()))
        };
        Ok(Programs {
            bench: whole_path(bench)?,
            inspect: whole_path(inspect)?,
        })
    }
}

pub enum Case {
    Bench(BenchCase),
    Inspector(InspectorCase),
}

pub fn case(seed: u64, number: u64) -> Case {
    let mut random = Random::of_case(seed, number);
    if random.one_in(2) {
        Case::Bench(bench_case(&mut random))
    } else {
        Case::Inspector(inspector_case(&mut random))
    }
}

/// How many cases there were of each class and of each sort of answer.
#[derive(Default)]
struct Counts {
    bench: u64,
    inspector: u64,
    differences: u64,
    classes: BTreeMap<String, u64>,
}

impl Counts {
    fn count(&mut self, class: String) {
        *self.classes.entry(class).or_default() += 1;
    }

    fn report(&mut self, difference: Option<String>, place: &str) -> Result<(), String> {
        match difference {
            None => Ok(()),
            Some(difference) => {
                self.differences += 1;
                print_line(&format!("difference in {place}\n{difference}"))
            }
        }
    }
}

/// Compares the programs in a number of cases, prints what was found and gives the number of
/// differences.
pub fn compare(seed: u64, cases: u64, programs: &Programs) -> Result<u64, String> {
    let folder = Folder::new()?;
    let mut counts = Counts::default();
    for unusable in [Unusable::Input, Unusable::Output] {
        let difference = compare_unusable(unusable, programs, &folder, &mut counts)?;
        counts.report(difference, "bench")?;
    }
    for number in 0..cases {
        let difference = match case(seed, number) {
            Case::Bench(case) => compare_bench(&case, programs, &mut counts)?,
            Case::Inspector(case) => compare_inspector(&case, programs, &folder, &mut counts)?,
        };
        counts.report(difference, &format!("case {number} of seed {seed}"))?;
    }
    for (class, number) in &counts.classes {
        print_line(&format!("{number:6} {class}"))?;
    }
    let Counts {
        bench,
        inspector,
        differences,
        ..
    } = counts;
    print_line(&format!(
        "{bench} bench cases, {inspector} inspector cases, {differences} differences"
    ))?;
    Ok(differences)
}

fn print_line(line: &str) -> Result<(), String> {
    writeln!(std::io::stdout(), "{line}").map_err(|error| error.to_string())
}

/// What `bench` cannot read from or write to.
#[derive(Clone, Copy)]
enum Unusable {
    Input,
    Output,
}

fn compare_unusable(
    unusable: Unusable,
    programs: &Programs,
    folder: &Folder,
    counts: &mut Counts,
) -> Result<Option<String>, String> {
    counts.bench += 1;
    let mut command = Command::new(&programs.bench);
    command
        .stdin(Stdio::null())
        .stdout(Stdio::piped())
        .stderr(Stdio::piped());
    let in_words = |error: std::io::Error| format!("bench could not be run: {error}");
    let class = match unusable {
        Unusable::Input => {
            command.stdin(fs::File::open(&folder.path).map_err(in_words)?);
            "input that cannot be read"
        }
        Unusable::Output => {
            let full = fs::File::options().write(true).open("/dev/full");
            command.stdout(full.map_err(in_words)?);
            "output that cannot be written"
        }
    };
    counts.count(format!("bench: {class}"));
    let output = command.output().map_err(in_words)?;
    if !output.status.success() && output.stdout.is_empty() && is_one_line(&output.stderr) {
        return Ok(None);
    }
    Ok(Some(format!(
        "bench with {class}: expected one line of error\n{}",
        shown_output(&output)
    )))
}

fn compare_bench(
    case: &BenchCase,
    programs: &Programs,
    counts: &mut Counts,
) -> Result<Option<String>, String> {
    counts.bench += 1;
    counts.count(format!("bench: {}", case.class));
    let expected = answer(&case.input);
    count_answer(&expected, counts);
    let output = output_of(Command::new(&programs.bench), &case.input)?;
    let same = output.status.code() == Some(0) && output.stdout == expected.text.as_bytes();
    let replayed_whole = expected
        .session
        .is_none_or(|account| account.replayed_whole);
    if same && replayed_whole {
        return Ok(None);
    }
    let mut report = format!("bench input:\n{}\n", shown(&case.input));
    let _ = writeln!(report, "expected, with status 0:\n{}", expected.text);
    report.push_str(&shown_output(&output));
    if !replayed_whole {
        report.push_str("the replay of the second implementation does not end as its recording\n");
    }
    Ok(Some(report))
}

fn count_answer(answer: &Answer, counts: &mut Counts) {
    let Some(account) = &answer.session else {
        counts.count("bench answers bad".to_string());
        return;
    };
    counts.count("bench answers a session".to_string());
    for (number, _) in account
        .refused
        .iter()
        .enumerate()
        .filter(|(_, &times)| times > 0)
    {
        counts.count(format!("bench answers a session with refusal {number}"));
    }
}

fn compare_inspector(
    case: &InspectorCase,
    programs: &Programs,
    folder: &Folder,
    counts: &mut Counts,
) -> Result<Option<String>, String> {
    counts.inspector += 1;
    counts.count(format!("inspect: {}", case.class));
    let path = folder.path.join(OsStr::new(&case.name));
    let made = MadeFile::new(path, &case.file)?;
    let expected = inspect::called_with(&arguments(case, made.path.as_os_str()));
    counts.count(format!("inspect answers {}", sort_of_answer(&expected)));

    let arguments = arguments(case, OsStr::new(&case.name));
    let mut command = Command::new(&programs.inspect);
    command.args(&arguments).current_dir(&folder.path);
    let output = output_of(command, b"")?;
    let same = match &expected {
        Ok(listing) => output.status.code() == Some(0) && output.stdout == listing.as_bytes(),
        Err(_) => {
            output.status.code() == Some(1)
                && output.stdout.is_empty()
                && is_one_line(&output.stderr)
        }
    };
    if same {
        return Ok(None);
    }
    let mut report = format!("inspect with the arguments {arguments:?}\n");
    if let File::Store(store) = &case.file {
        let _ = writeln!(report, "store: {}", hexadecimal(store));
    }
    let _ = match expected {
        Ok(listing) => writeln!(report, "expected, with status 0:\n{listing}"),
        Err(line) => writeln!(
            report,
            "expected, with status 1, on standard error:\n{line}"
        ),
    };
    report.push_str(&shown_output(&output));
    Ok(Some(report))
}

/// The arguments of a call that names the file in this way.
fn arguments(case: &InspectorCase, file: &OsStr) -> Vec<OsString> {
    let words = case
        .words
        .iter()
        .map(|word| OsString::from_vec(word.clone()));
    case.named
        .then(|| file.to_os_string())
        .into_iter()
        .chain(words)
        .collect()
}

fn sort_of_answer(expected: &Result<String, String>) -> String {
    let Ok(listing) = expected else {
        return "an error".to_string();
    };
    let last = listing.lines().last().unwrap_or("");
    match last.find("cause ") {
        Some(place) => format!("a fault of {}", &last[place..place + 7]),
        None if last == "accepted" => last.to_string(),
        None => "bad setting".to_string(),
    }
}

fn is_one_line(bytes: &[u8]) -> bool {
    bytes.len() > 1 && bytes.iter().position(|&byte| byte == b'\n') == Some(bytes.len() - 1)
}

fn output_of(mut command: Command, input: &[u8]) -> Result<Output, String> {
    let in_words = |error: std::io::Error| format!("a program could not be run: {error}");
    command
        .stdin(Stdio::piped())
        .stdout(Stdio::piped())
        .stderr(Stdio::piped());
    let mut child = command.spawn().map_err(in_words)?;
    let mut child_input = child
        .stdin
        .take()
        .ok_or("a program has no standard input")?;
    std::thread::scope(|scope| {
        let writing = scope.spawn(move || child_input.write_all(input));
        let output = child.wait_with_output().map_err(in_words)?;
        match writing.join() {
            Ok(Err(error)) if error.kind() != ErrorKind::BrokenPipe => Err(in_words(error)),
            _ => Ok(output),
        }
    })
}

fn shown(bytes: &[u8]) -> String {
    let plain = bytes
        .iter()
        .all(|&byte| byte == b'\n' || (b' '..=b'~').contains(&byte));
    if plain {
        String::from_utf8_lossy(bytes).into_owned()
    } else {
        format!("\"{}\"", bytes.escape_ascii())
    }
}

fn shown_output(output: &Output) -> String {
    format!(
        "found, with {}:\n{}\non standard error:\n{}\n",
        output.status,
        shown(&output.stdout),
        shown(&output.stderr)
    )
}

pub fn hexadecimal(bytes: &[u8]) -> String {
    bytes.iter().fold(String::new(), |mut text, byte| {
        let _ = write!(text, "{byte:02x}");
        text
    })
}

/// A folder for the stores, deleted at the end.
struct Folder {
    path: PathBuf,
}

impl Folder {
    fn new() -> Result<Folder, String> {
        let path = std::env::temp_dir().join(format!("roosteryet-second-{}", std::process::id()));
        fs::create_dir(&path).map_err(|error| format!("{}: {error}", path.display()))?;
        Ok(Folder { path })
    }
}

impl Drop for Folder {
    fn drop(&mut self) {
        let _ = fs::remove_dir_all(&self.path);
    }
}

/// What stands at a path during one case, deleted behind it.
struct MadeFile {
    path: PathBuf,
}

impl MadeFile {
    fn new(path: PathBuf, file: &File) -> Result<MadeFile, String> {
        let made = match file {
            File::Store(store) => fs::write(&path, store),
            File::Folder => fs::create_dir(&path),
            File::Missing => Ok(()),
        };
        made.map_err(|error| format!("{}: {error}", path.display()))?;
        Ok(MadeFile { path })
    }
}

impl Drop for MadeFile {
    fn drop(&mut self) {
        let _ = remove(&self.path);
    }
}

fn remove(path: &Path) -> std::io::Result<()> {
    if path.is_dir() {
        fs::remove_dir(path)
    } else {
        fs::remove_file(path)
    }
}
