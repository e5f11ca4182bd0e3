//! The measurements: each call on both sides, in interleaved rounds, its
//! instructions and its stack, as Markdown tables.
//!
//! Times are processor time, and of the calls alone: each is made on a copy of
//! the lent memory that was made before, whether the call changes it or not.

use std::fmt::Write as _;
use std::hint::black_box;
use std::path::{Path, PathBuf};
use std::process::{Command, Stdio};
use std::time::Duration;
use std::{env, fs, io};

use fenstubble_reference::book::{Book, Mode, ResourceRow, SoundBook};
use fenstubble_reference::bytes::{self, Version};
use fenstubble_reference::generate::{self, Random};
use fenstubble_reference::numbers::User;
use fenstubble_reference::requests::Request;
use fenstubble_reference::sets::UserSet;

use crate::clock;
use crate::compare::compare;
use crate::engine::Engine;
use crate::memory::{Filler, Lent, Memory};
use crate::model::Model;
use crate::process::Process;
use crate::side::{Call, Side, MOST_ORDERS};
use crate::stack;
use crate::worlds::{
    chained, filled_listed, grown, large, listed, most_listed, shuffled, typical, LARGEST, LEAVER,
    NEARLY,
};

/// Rounds of each measurement; in each, both sides once.
const ROUNDS: usize = 31;
/// Rounds of the program.
const PROGRAM_ROUNDS: usize = 7;
/// What the calls of one side in one round should take, about.
const ROUND: Duration = Duration::from_millis(3);
/// Most calls of one side in one round.
const MOST_CALLS: usize = 256;
/// Lines of the program's script.
const LINES: usize = 20_000;

/// A call to measure.
#[derive(Clone, Debug)]
pub struct Item {
    /// What it is called in its table.
    pub name: String,
    /// The call.
    pub call: Call,
    /// The book's bytes.
    pub bytes: Vec<u8>,
}

impl Item {
    /// What the call is lent. The book must be a sound one.
    pub fn lent(&self) -> Lent {
        let filler = Filler::Same(0);
        let mut lent = match (self.call, bytes::read(&self.bytes)) {
            (Call::Section(_), _) => return Lent::bytes(&self.bytes),
            (Call::Read, _) => Lent::blank(filler),
            (_, Ok(book)) => Lent::of(book.book(), filler),
            (_, Err(no)) => panic!("a book to measure: {no}"),
        };
        match self.call {
            Call::Read => lent.book = Memory::of(&self.bytes),
            Call::Write => lent.buffer = Memory::of(&vec![0; self.bytes.len()]),
            Call::Check | Call::View(..) => {}
            Call::Leave(_) => lent.list = Memory::of(&[0; 3 * MOST_ORDERS]),
            _ => lent.list = Memory::of(&[0; 3 * 400]),
        }
        lent.for_call(self.call)
    }
}

/// Measurements that belong together.
#[derive(Clone, Debug)]
pub struct Group {
    /// What they show.
    pub heading: String,
    /// The calls.
    pub items: Vec<Item>,
    /// Whether each has twice as much of something as the one before.
    pub doubling: bool,
}

/// Every call on a book, with numbers for which it is accepted.
fn calls(heading: &str, book: &Book) -> Group {
    let all = book.joined();
    // The last folder with an outer key and at least two on its list.
    let locked = |row: &ResourceRow| row.outer.is_some() && row.list.size() > 1;
    let place = book.resources.iter().rposition(locked).unwrap_or(0);
    let (r, list) = (place as u16, book.resources[place].list);
    let first = |set: UserSet| set.users().next().map_or(0, |user| user.0);
    let (listed, outsider) = (first(list), first(all.minus(list)));
    let new_list: UserSet = all.users().step_by(2).collect();
    let mut calls = vec![
        Call::Check,
        Call::Section(4),
        Call::Read,
        Call::Write,
        Call::Join,
        Call::insert(new_list.0),
        Call::Grant(r, outsider),
        Call::Revoke(r, listed),
        Call::View(listed, r),
        Call::Open(listed, r),
    ];
    calls.extend(longest_leave(book));
    let items = calls.into_iter().map(|call| Item {
        name: call.name().into(),
        call,
        bytes: bytes::write(book),
    });
    Group {
        heading: format!("{heading}: {}", told(book)),
        items: items.collect(),
        doubling: false,
    }
}

/// The leave with the most orders on the book, if one is accepted that has any.
fn longest_leave(book: &Book) -> Option<Call> {
    let orders = |user: User| {
        let mut book = SoundBook::new(book.clone()).ok()?;
        let orders = book.leave(user, usize::MAX).ok()?.len();
        (orders > 0).then_some((orders, user))
    };
    let (_, user) = book.staying().users().filter_map(orders).max()?;
    Some(Call::Leave(user.0))
}

/// A leave on several books.
fn leaves<const N: usize>(books: [(&str, Book); N]) -> Group {
    let items = books.map(|(name, book)| {
        let call = Call::Leave(LEAVER.0);
        let mut after = SoundBook::new(book.clone()).expect("a book to measure");
        let orders = after
            .leave(LEAVER, usize::MAX)
            .map_or(0, |orders| orders.len());
        Item {
            name: format!("{name}, {} orders", grouped(orders as u64)),
            call,
            bytes: bytes::write(&book),
        }
    });
    Group {
        heading: "A leave on the largest book: 64 people, 256 folders, the leaver on every list, \
                  no two lists alike"
            .into(),
        items: items.into(),
        doubling: false,
    }
}

/// A book's counts in words.
fn told(book: &Book) -> String {
    let [inner_vertices, inner_tokens, outer_vertices, outer_tokens, resources] =
        book.head().counts();
    format!(
        "{} people, {resources} folders, {inner_vertices} inner and {outer_vertices} outer vertices, \
         {inner_tokens} and {outer_tokens} tokens, {} bytes",
        book.users,
        bytes::length(&book.head(), Version::Two)
    )
}

/// The sound check on several books.
fn checks<const N: usize>(heading: &str, doubling: bool, books: [(&str, Book); N]) -> Group {
    let items = books.map(|(name, book)| Item {
        name: name.into(),
        call: Call::Check,
        bytes: bytes::write(&book),
    });
    Group {
        heading: heading.into(),
        items: items.into(),
        doubling,
    }
}

/// All that is measured of the library.
pub fn groups() -> Vec<Group> {
    let typical = typical().book.into_book();
    let nearly = large(&NEARLY).book.into_book();
    let largest = large(&LARGEST).book.into_book();
    vec![
        calls("Each call on a typical book", &typical),
        calls("Each call on a nearly largest book", &nearly),
        leaves([
            ("as requests led to it", listed().book.into_book()),
            ("that fills the outer vertices", filled_listed()),
            ("with the most orders there can be", most_listed()),
        ]),
        checks(
            &format!("The sound check on the largest book: {}", told(&largest)),
            false,
            [
                ("as requests led to it", largest.clone()),
                ("with its token rows shuffled", shuffled(&largest)),
            ],
        ),
        checks(
            "The sound check with more tokens: 64 people, 256 folders, 192 vertices in each layer, \
             rows shuffled",
            true,
            [
                ("1024 tokens in each layer", grown(128, 128, 1024)),
                ("2048 tokens", grown(128, 128, 2048)),
                ("4096 tokens", grown(128, 128, 4096)),
            ],
        ),
        checks(
            "The sound check with more vertices: 64 people, 256 folders, 1024 tokens in each layer, \
             rows shuffled",
            true,
            [
                ("64 inner and 112 outer groups", grown(64, 112, 1024)),
                ("128 and 224", grown(128, 224, 1024)),
                ("256 and 448", grown(256, 448, 1024)),
            ],
        ),
    ]
}

/// How long so many calls take, each on a copy of its own.
fn time<S: Side>(call: Call, lent: &Lent, count: usize) -> Duration {
    let mut copies = vec![lent.clone(); count];
    let mut lendings: Vec<_> = copies.iter_mut().map(Lent::lend).collect();
    let since = clock::thread();
    for lending in &mut lendings {
        let _ = black_box(S::make(black_box(call), lending));
    }
    clock::thread() - since
}

/// Numbers of several rounds: the median, and the quartiles around it.
#[derive(Clone, Debug)]
struct Spread(Vec<f64>);

impl Spread {
    fn of(mut all: Vec<f64>) -> Spread {
        all.sort_by(f64::total_cmp);
        Spread(all)
    }

    /// The number below which so many quarters of all are.
    fn quarter(&self, quarters: usize) -> f64 {
        self.0[(self.0.len() - 1) * quarters / 4]
    }

    fn median(&self) -> f64 {
        self.quarter(2)
    }
}

/// Seconds of each side for one call, and their ratios, round by round.
struct Measured {
    sides: [Spread; 2],
    ratio: Spread,
}

/// Both sides in each round, one after the other, in turns first.
fn measure(rounds: usize, mut sides: [impl FnMut() -> f64; 2]) -> Measured {
    let mut times = [Vec::new(), Vec::new()];
    for round in 0..rounds {
        for turn in 0..2 {
            let side = (round + turn) % 2;
            times[side].push(sides[side]());
        }
    }
    let ratios = (0..rounds).map(|round| times[0][round] / times[1][round]);
    Measured {
        ratio: Spread::of(ratios.collect()),
        sides: times.map(Spread::of),
    }
}

fn measure_call(item: &Item) -> Measured {
    let lent = item.lent();
    if let Err(found) = compare(item.call, &lent) {
        panic!("the sides differ on {}: {}", item.call, found.text);
    }
    let side = |time: fn(Call, &Lent, usize) -> Duration| {
        let one = time(item.call, &lent, 1);
        let count = (ROUND.as_nanos() / one.as_nanos().max(1)) as usize;
        let count = count.clamp(1, MOST_CALLS);
        let lent = &lent;
        Box::new(move || time(item.call, lent, count).as_secs_f64() / count as f64)
            as Box<dyn FnMut() -> f64>
    };
    measure(ROUNDS, [side(time::<Engine>), side(time::<Model>)])
}

const COLUMNS: &str = "\
| | engine, µs | reference, µs | ratio | middle half | engine, instructions | reference | ratio |
|---|--:|--:|--:|--:|--:|--:|--:|
";

/// A row of a table: microseconds, their ratio and its quartiles; then
/// instructions and their ratio, if they were counted.
fn row(name: &str, measured: &Measured, counted: Option<[u64; 2]>) -> String {
    let [engine, reference] = measured.sides.each_ref().map(|side| side.median() * 1e6);
    let [low, ratio, high] = [1, 2, 3].map(|quarters| measured.ratio.quarter(quarters));
    let counted = counted.map_or("– | – | –".into(), |[engine, reference]| {
        let ratio = engine as f64 / reference as f64;
        format!("{} | {} | {ratio:.2}", grouped(engine), grouped(reference))
    });
    format!("| {name} | {engine:.1} | {reference:.1} | {ratio:.2} | {low:.2} to {high:.2} | {counted} |\n")
}

/// A number with its digits in threes.
fn grouped(number: u64) -> String {
    let digits = number.to_string();
    let threes: Vec<&[u8]> = digits.as_bytes().rchunks(3).rev().collect();
    String::from_utf8_lossy(&threes.join(&b',')).into_owned()
}

/// Measures everything and gives the tables. `say` is told what is under way.
pub fn tables(say: impl Fn(&str)) -> String {
    let mut text = String::new();
    for group in groups() {
        say(&group.heading);
        text += &table(&group, &say);
    }
    say("the request program");
    text += &program(&say);
    say("the stack");
    text + "\n" + &stacks()
}

/// The requests of a group as rows to serve.
fn rows_to_serve(group: &Group) -> Vec<u64> {
    let row = |item: &Item| match item.call {
        Call::Join => Some([0, 0, 0]),
        Call::Insert(list, _) => Some([1, list, 0]),
        Call::Grant(r, u) => Some([2, r.into(), u.into()]),
        Call::Revoke(r, u) => Some([3, r.into(), u.into()]),
        Call::Open(u, r) => Some([4, u.into(), r.into()]),
        Call::Leave(u) => Some([5, u.into(), 0]),
        _ => None,
    };
    group.items.iter().filter_map(row).flatten().collect()
}

/// The stack of each call of a group, then of a serve of its requests.
fn stacks_of(group: &Group) -> Vec<(&'static str, Option<usize>)> {
    let of = |call: Call, lent: &Lent| (call.name(), stack::taken(call, lent));
    let items = group.items.iter();
    let mut all: Vec<_> = items.map(|item| of(item.call, &item.lent())).collect();
    let mut lent = group.items[0].lent();
    let rows = rows_to_serve(group);
    lent.answers = Memory::of(&vec![0; rows.len()]);
    lent.list = Memory::of(&[0; 3 * (5 * 400 + MOST_ORDERS)]);
    lent.requests = Memory::of(&rows);
    all.push(of(Call::Serve, &lent));
    all
}

/// The table of the stack that the engine's calls take.
pub fn stacks() -> String {
    let books = [
        ("typical", typical().book),
        ("nearly largest", large(&NEARLY).book),
        ("longest chains", chained()),
    ];
    let names = books.each_ref().map(|(name, _)| *name);
    let columns = books.map(|(name, book)| stacks_of(&calls(name, book.book())));
    let mut text = format!(
        "Stack of a call, bytes, by book:\n\n| | {} |\n|---|--:|--:|--:|\n",
        names.join(" | ")
    );
    for (name, _) in &columns[0] {
        let taken = columns.each_ref().map(|column| {
            let of_name = column.iter().find(|(other, _)| other == name);
            match of_name.and_then(|(_, taken)| *taken) {
                Some(bytes) => grouped(bytes as u64),
                None => "–".into(),
            }
        });
        let _ = writeln!(text, "| {name} | {} |", taken.join(" | "));
    }
    text
}

fn table(group: &Group, say: &impl Fn(&str)) -> String {
    let mut text = format!("{}:\n\n{COLUMNS}", group.heading);
    let mut counts: Vec<[u64; 2]> = Vec::new();
    for item in &group.items {
        let measured = measure_call(item);
        let counted = count("engine", item);
        let counted = counted.and_then(|engine| Ok([engine, count("reference", item)?]));
        let counted = told_count(counted, say);
        text += &row(&item.name, &measured, counted);
        counts.extend(counted);
    }
    if group.doubling && counts.len() == group.items.len() {
        let factors = |side: usize| {
            let factor = |pair: &[[u64; 2]]| pair[1][side] as f64 / pair[0][side] as f64;
            let factors = counts
                .windows(2)
                .map(|pair| format!("× {:.2}", factor(pair)));
            factors.collect::<Vec<_>>().join(", ")
        };
        let _ = write!(
            text,
            "\nInstructions from row to row: engine {}; reference {}.\n",
            factors(0),
            factors(1)
        );
    }
    text + "\n"
}

/// A script of so many lines that no limit stops: eight people.
pub fn script() -> String {
    let random = &mut Random::new(20_000);
    let mut book = SoundBook::empty(Mode::Delta);
    let mut text = String::from("delta\n");
    for _ in 1..LINES {
        let request = match book.book().users {
            0..8 => Request::Join,
            _ => generate::plain_request(random, book.book(), 8),
        };
        let _ = book.answer(&request, usize::MAX);
        let _ = writeln!(text, "{request}");
    }
    text
}

/// How long a program takes for the script.
fn run_program(path: &Path, script: &Path) -> io::Result<f64> {
    let input = fs::File::open(script)?;
    let since = clock::children();
    let done = Command::new(path)
        .stdin(input)
        .stdout(Stdio::null())
        .status()?;
    let time = clock::children() - since;
    match done.success() {
        true => Ok(time.as_secs_f64()),
        false => Err(io::Error::other(format!(
            "{} ended with {done}",
            path.display()
        ))),
    }
}

/// The table of the request program, or why there is none.
fn program(say: &impl Fn(&str)) -> String {
    let heading = format!("The request program on a script of {LINES} lines, eight people:\n\n");
    match measure_program(say) {
        Ok(row) => format!("{heading}{COLUMNS}{row}"),
        Err(text) => format!("{heading}Not measured: {text}.\n"),
    }
}

fn measure_program(say: &impl Fn(&str)) -> Result<String, String> {
    let desk = Process::desk()?;
    let reference = Path::new(env!("CARGO_MANIFEST_DIR")).join("../target/release/reference");
    let script = Temporary::of("script", script().as_bytes()).map_err(|e| e.to_string())?;
    // Once before, so that what can go wrong is told.
    for path in [desk.path(), &reference] {
        run_program(path, &script.0).map_err(|e| format!("{}: {e}", path.display()))?;
    }
    let time = |path: &Path| {
        let (path, script) = (path.to_owned(), script.0.clone());
        Box::new(move || run_program(&path, &script).unwrap_or(f64::NAN)) as Box<dyn FnMut() -> f64>
    };
    let measured = measure(PROGRAM_ROUNDS, [time(desk.path()), time(&reference)]);
    let count = |path: &Path| {
        let input = fs::File::open(&script.0).map_err(|e| e.to_string())?;
        let mut command = valgrind();
        command.arg(path).stdin(input).stdout(Stdio::null());
        collected(command)
    };
    let counted = count(desk.path()).and_then(|engine| Ok([engine, count(&reference)?]));
    Ok(row("whole runs", &measured, told_count(counted, say)))
}

/// A file that is gone when it is no longer needed.
struct Temporary(PathBuf);

impl Temporary {
    fn of(name: &str, content: &[u8]) -> io::Result<Temporary> {
        let name = format!("fenstubble-bench-{}-{name}", std::process::id());
        let path = env::temp_dir().join(name);
        fs::write(&path, content)?;
        Ok(Temporary(path))
    }
}

impl Drop for Temporary {
    fn drop(&mut self) {
        let _ = fs::remove_file(&self.0);
    }
}

/// Valgrind, to count instructions.
fn valgrind() -> Command {
    let mut command = Command::new("valgrind");
    command.args(["--tool=callgrind", "--callgrind-out-file=/dev/null"]);
    command
}

/// The count that valgrind gives.
fn collected(mut command: Command) -> Result<u64, String> {
    let done = command.stderr(Stdio::piped()).output();
    let done = done.map_err(|e| format!("valgrind: {e}"))?;
    let text = String::from_utf8_lossy(&done.stderr);
    let number = text
        .lines()
        .find_map(|line| line.split_once("Collected : "))
        .and_then(|(_, number)| number.trim().parse().ok());
    match number {
        Some(number) if done.status.success() => Ok(number),
        _ => Err(format!("valgrind gave no count: {}", text.trim())),
    }
}

/// The instructions of one call: the program `counted`, beside this one,
/// makes it, and only that is counted.
fn count(side: &str, item: &Item) -> Result<u64, String> {
    let bench = env::current_exe().map_err(|e| e.to_string())?;
    let book = Temporary::of("book", &item.bytes).map_err(|e| e.to_string())?;
    let mut command = valgrind();
    command.args(["--collect-atstart=no", "--toggle-collect=measured_call"]);
    command.arg(bench.with_file_name("counted"));
    command.args([side, &words(item.call)]).arg(&book.0);
    collected(command)
}

/// Puts each measured book into the folder; gives the arguments of `counted` for
/// each call on it, one to a line.
pub fn books(folder: &Path) -> io::Result<String> {
    let mut written: Vec<Vec<u8>> = Vec::new();
    let mut lines = String::new();
    for item in groups().into_iter().flat_map(|group| group.items) {
        let there = written.iter().position(|bytes| *bytes == item.bytes);
        let number = there.unwrap_or(written.len());
        let path = folder.join(format!("book-{number}"));
        if there.is_none() {
            fs::write(&path, &item.bytes)?;
            written.push(item.bytes.clone());
        }
        let _ = writeln!(lines, "engine '{}' {}", words(item.call), path.display());
    }
    Ok(lines)
}

/// The counts, or none and why not.
fn told_count(counted: Result<[u64; 2], String>, say: &impl Fn(&str)) -> Option<[u64; 2]> {
    counted.map_err(|error| say(&error)).ok()
}

/// The call as words for `counted`; a list is its number.
fn words(call: Call) -> String {
    match call {
        Call::Insert(list, _) => format!("insert {list}"),
        _ => call.to_string(),
    }
}

/// The call from such words.
pub fn call_of(words: &str) -> Option<Call> {
    let mut words = words.split(' ');
    let name = words.next()?;
    let numbers: Vec<u64> = words.map(str::parse).collect::<Result<_, _>>().ok()?;
    let small = |number: u64| u16::try_from(number).ok();
    Some(match (name, numbers[..].as_ref()) {
        ("check", []) => Call::Check,
        ("section", &[k]) => Call::Section(small(k)?.into()),
        ("read", []) => Call::Read,
        ("write", []) => Call::Write,
        ("join", []) => Call::Join,
        ("insert", &[list]) => Call::insert(list),
        ("grant", &[r, u]) => Call::Grant(small(r)?, small(u)?),
        ("revoke", &[r, u]) => Call::Revoke(small(r)?, small(u)?),
        ("leave", &[u]) => Call::Leave(small(u)?),
        ("view", &[u, r]) => Call::View(small(u)?, small(r)?),
        ("open", &[u, r]) => Call::Open(small(u)?, small(r)?),
        _ => return None,
    })
}

#[cfg(test)]
mod tests {
    use super::*;

    #[test]
    fn the_calls_are_accepted_alike() {
        for item in groups().into_iter().flat_map(|group| group.items) {
            let done = compare(item.call, &item.lent());
            let done = done.unwrap_or_else(|found| panic!("{}: {}", item.name, found.text));
            assert!(done.answer.is_ok(), "{}: {:?}", item.name, done.answer);
            assert_eq!(call_of(&words(item.call)), Some(item.call));
        }
    }

    #[test]
    fn the_books_as_files() {
        let folder = env::temp_dir().join(format!("fenstubble-books-{}", std::process::id()));
        fs::create_dir(&folder).unwrap();
        let lines = books(&folder).unwrap();
        let count = groups().iter().map(|group| group.items.len()).sum();
        assert_eq!(lines.lines().count(), count);
        for line in lines.lines() {
            let (call, path) = line.rsplit_once(' ').unwrap();
            let call = call
                .strip_prefix("engine '")
                .unwrap()
                .trim_end_matches('\'');
            assert!(call_of(call).is_some(), "{line}");
            assert!(bytes::read(&fs::read(path).unwrap()).is_ok(), "{line}");
        }
        fs::remove_dir_all(&folder).unwrap();
    }

    #[test]
    fn a_stack_for_each_call() {
        let all = stacks_of(&calls("", typical().book.book()));
        assert_eq!(all.len(), 12);
        assert!(all.iter().all(|(_, taken)| taken.is_some()), "{all:?}");
    }

    #[test]
    fn medians_and_quartiles() {
        let spread = Spread::of(vec![5.0, 1.0, 4.0, 2.0, 3.0]);
        assert_eq!(
            [1, 2, 3].map(|quarters| spread.quarter(quarters)),
            [2.0, 3.0, 4.0]
        );
        let numbers = [0, 7, 999, 1000, 1_234_567].map(grouped);
        assert_eq!(numbers, ["0", "7", "999", "1,000", "1,234,567"]);
    }

    #[test]
    fn the_script() {
        let script = script();
        assert_eq!(script.lines().count(), LINES);
        let mut output = Vec::new();
        fenstubble_reference::program::run(script.as_bytes(), &mut output).unwrap();
        let output = String::from_utf8(output).unwrap();
        assert!(!["no 7\n", "no 8\n", "no 9\n", "no 14\n"]
            .iter()
            .any(|no| output.contains(no)));
    }
}
