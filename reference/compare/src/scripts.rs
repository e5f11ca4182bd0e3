//! The request program: whole scripts, the engine's program against the
//! reference program, output byte for byte.

use std::collections::BTreeMap;
use std::fmt;
use std::time::Instant;

use fenstubble_reference::book::{Mode, SoundBook, MAX_OUTER_GROUPS, MAX_RESOURCES, MAX_USERS};
use fenstubble_reference::generate::{self, Random};
use fenstubble_reference::numbers::{Resource, User};
use fenstubble_reference::program::{self, LONGEST_LINE};
use fenstubble_reference::requests::Request;
use fenstubble_reference::sets::UserSet;

use crate::limits::of_size;
use crate::lines::{
    firsts_of, lines_of, FIRSTS, GAPS, LASTS, LENGTHS, LISTS, NUMBERS, REQUESTS, RESTS, WORDS,
};
use crate::locks::Locks;
use crate::process::Process;
use crate::report::{random_of, Bounds, Report};
use crate::script::{difference, kind, shown, smallest, Difference, Script};
use crate::worlds::{large, listed, LARGEST, LEAVER};

/// What was compared.
#[derive(Clone, Debug, Default)]
pub struct Summary {
    /// Scripts.
    pub scripts: usize,
    /// Their lines, the first ones among them.
    pub lines: usize,
    /// Bytes in and out.
    pub bytes: [usize; 2],
    /// Answers: `ok`, `no 1`, .., `no 11 1`, ..
    pub answers: BTreeMap<String, usize>,
    /// Most rows of one answer.
    pub most_rows: usize,
    /// Answers that lock something first.
    pub locks: Locks,
    /// Leaves that were accepted, and that were refused.
    pub leaves: [usize; 2],
}

impl Summary {
    /// Answers that the program can give and that were not among these.
    pub fn missing(&self) -> Vec<&'static str> {
        const ALL: [&str; 15] = [
            "ok", "no 1", "no 2", "no 3", "no 4", "no 5", "no 6", "no 7", "no 8", "no 9",
            "no 11 1", "no 11 2", "no 11 3", "no 14", "no 15",
        ];
        let mut missing = ALL.to_vec();
        missing.retain(|&answer| !self.answers.contains_key(answer));
        missing
    }
}

impl fmt::Display for Summary {
    fn fmt(&self, f: &mut fmt::Formatter<'_>) -> fmt::Result {
        writeln!(
            f,
            "{} lines in {} scripts, {} bytes in, {} out: no difference",
            self.lines, self.scripts, self.bytes[0], self.bytes[1]
        )?;
        let answers: Vec<String> = self
            .answers
            .iter()
            .map(|(answer, count)| format!("{answer}: {count}"))
            .collect();
        writeln!(f, "{}; most rows {}", answers.join(", "), self.most_rows)?;
        let [accepted, refused] = self.leaves;
        writeln!(f, "leaves accepted {accepted}, refused {refused}")?;
        writeln!(f, "{}", self.locks)
    }
}

type Outcome = Result<(), Box<Report>>;

/// The cases that are the same for every seed, but for random lists and
/// requests.
const FIXED: [fn(&mut Scripts, &mut Random) -> Outcome; 12] = [
    Scripts::first_lines,
    Scripts::numbers,
    Scripts::spaces_and_words,
    Scripts::long_lines,
    Scripts::last_lines,
    Scripts::counts_full,
    Scripts::seven,
    Scripts::eight,
    Scripts::nine,
    Scripts::many_rows,
    Scripts::largest,
    Scripts::leaves,
];

/// Compares about so many lines.
pub fn run(desk: &Process, bounds: Bounds) -> Result<Summary, Box<Report>> {
    let since = Instant::now();
    let mut scripts = Scripts {
        desk: desk.clone(),
        seed: bounds.seed,
        case: bounds.first,
        summary: Summary::default(),
    };
    for case in bounds.first.. {
        scripts.case = case;
        let random = &mut random_of(bounds.seed, case);
        match FIXED.get(usize::try_from(case).unwrap_or(usize::MAX)) {
            Some(fixed) => fixed(&mut scripts, random)?,
            None if bounds.time.is_some_and(|time| since.elapsed() > time) => break,
            None => scripts.any_world(random)?,
        }
        if scripts.summary.lines >= bounds.count {
            break;
        }
    }
    Ok(scripts.summary)
}

/// A script under way, and the book that its requests leave.
struct Writer {
    lines: Vec<Vec<u8>>,
    book: SoundBook,
}

impl Writer {
    /// The first line, and so many joins.
    fn new(mode: Mode, users: usize) -> Writer {
        let mut writer = Writer {
            lines: vec![mode.word().into()],
            book: SoundBook::empty(mode),
        };
        for _ in 0..users {
            writer.ask(Request::Join);
        }
        writer
    }

    /// Three people and two folders of the first two.
    fn small(mode: Mode) -> Writer {
        let mut writer = Writer::new(mode, 3);
        writer.insert(UserSet(3));
        writer.insert(UserSet(3));
        writer
    }

    fn line(&mut self, line: impl Into<Vec<u8>>) {
        let line = line.into();
        if line.len() <= LONGEST_LINE {
            if let Some(request) = program::request(&line) {
                // A refused one changes nothing.
                let _ = self.book.answer(&request, usize::MAX);
            }
        }
        self.lines.push(line);
    }

    fn ask(&mut self, request: Request) {
        self.line(request.to_string());
    }

    fn insert(&mut self, list: UserSet) {
        self.ask(Request::Insert(list.into()));
    }

    fn list(&self, resource: usize) -> UserSet {
        self.book.book().resources[resource].list
    }

    /// So many random lines, one of `odd` malformed, where no more than so
    /// many join.
    fn any(&mut self, random: &mut Random, count: usize, most_users: usize, odd: usize) {
        for _ in 0..count {
            if random.chance(1, odd) {
                let line = self.odd_line(random, most_users);
                self.line(line);
            } else {
                let request = generate::request(random, self.book.book(), most_users);
                self.ask(request);
            }
        }
    }

    /// A line that mostly is malformed: a fine one with bytes changed, or
    /// words and numbers that may not go together.
    fn odd_line(&self, random: &mut Random, most_users: usize) -> Vec<u8> {
        const BYTES: &[u8] = b" \t\r\0\x0B\xFF019-+.,aj";
        let some = |random: &mut Random, from: &[&'static [u8]]| random.pick(from).unwrap_or(b"");
        if random.chance(1, 3) {
            let from = if random.chance(3, 4) {
                &REQUESTS[..]
            } else {
                &WORDS
            };
            let mut line = some(random, from).to_vec();
            for _ in 0..random.below(5) {
                let gap = if random.chance(7, 8) {
                    b" "
                } else {
                    some(random, &GAPS)
                };
                line.extend(gap);
                line.extend(some(random, &NUMBERS));
            }
            return line;
        }
        let request = generate::request(random, self.book.book(), most_users);
        let mut line = request.to_string().into_bytes();
        for _ in 0..random.between(1, 2) {
            let at = random.below(line.len() + 1);
            match (random.below(5), line.get(at).copied()) {
                (0, Some(_)) => drop(line.remove(at)),
                (1, Some(byte)) => line.insert(at, byte),
                (2, Some(_)) => line[at] = random.next() as u8,
                (3, Some(_)) if at > 0 => line.swap(at - 1, at),
                _ => line.insert(at, random.pick(BYTES).unwrap_or(b' ')),
            }
        }
        line.retain(|&byte| byte != b'\n');
        line
    }

    fn script(self) -> Script {
        Script {
            lines: self.lines,
            ended: true,
        }
    }
}

const MODES: [Mode; 2] = [Mode::Delta, Mode::Full];

struct Scripts {
    desk: Process,
    seed: u64,
    case: u64,
    summary: Summary,
}

impl Scripts {
    /// Feeds the script to both, in pieces of some size.
    fn compare(&mut self, random: &mut Random, script: &Script) -> Outcome {
        let mut piece = [usize::MAX, 1 << 16, 4096, 513, 512, 511, 64, 7, 1][random.below(9)];
        if script.input().len() > 50_000 {
            piece = piece.max(511);
        }
        let (found, expected) = difference(&self.desk, script, piece);
        if let Some(found) = found {
            return Err(self.report(script, piece, &found));
        }
        self.summary.scripts += 1;
        self.summary.lines += script.lines.len();
        self.summary.bytes[0] += script.input().len();
        self.summary.bytes[1] += expected.len();
        let delta = script.lines.first().is_some_and(|line| line == b"delta");
        let expected = String::from_utf8_lossy(&expected);
        let mut lines = expected.lines();
        // The first line has no answer, if it is fine.
        let mut asked = script.lines.iter().skip(1);
        while let Some(line) = lines.next() {
            let answer = kind(Some(line.as_bytes()));
            let asked = asked.next().and_then(|line| program::request(line));
            if let Some(Request::Leave(_)) = asked {
                self.summary.leaves[usize::from(answer != "ok")] += 1;
            }
            if let Some(rows) = line.strip_prefix("ok ") {
                let rows = rows.parse().unwrap_or(0);
                self.summary.most_rows = self.summary.most_rows.max(rows);
                let orders: Vec<[u16; 3]> = lines.by_ref().take(rows).filter_map(order).collect();
                self.summary.locks.count(delta, &orders);
            }
            *self.summary.answers.entry(answer).or_default() += 1;
        }
        Ok(())
    }

    fn report(&self, script: &Script, piece: usize, found: &Difference) -> Box<Report> {
        let smallest = smallest(&self.desk, script, piece, &found.kinds);
        let again = match difference(&self.desk, &smallest, piece).0 {
            Some(again) => again.text,
            None => {
                "made again, it does not differ: the program does not always answer alike\n".into()
            }
        };
        // The first line has no answer, but where it is the only one.
        let first = script.lines.first().map_or(&b""[..], Vec::as_slice);
        let wrong = ![&b"delta"[..], b"full"].contains(&first);
        let place = if wrong { 0 } else { found.request };
        let line = script.lines.get(place);
        let line = line.map_or("the end of the input".into(), |line| shown(line));
        Box::new(Report {
            family: "scripts",
            seed: self.seed,
            case: self.case,
            call: format!("line {} of a script, {line}", place + 1),
            text: found.text.clone(),
            smallest: format!("{smallest}{again}"),
        })
    }

    /// Empty input, and first lines of every kind, each with requests after
    /// it that must get no answer where it is wrong.
    fn first_lines(&mut self, random: &mut Random) -> Outcome {
        let nothing = Script {
            lines: vec![],
            ended: false,
        };
        self.compare(random, &nothing)?;
        let firsts = FIRSTS.map(Vec::from).into_iter();
        for first in firsts.chain(LENGTHS.into_iter().flat_map(firsts_of)) {
            for (rest, ended) in [(0, false), (0, true), (1, false), (3, true)] {
                let mut lines = vec![first.clone()];
                lines.extend(
                    ["join", "delta", "join"]
                        .map(Vec::from)
                        .into_iter()
                        .take(rest),
                );
                self.compare(random, &Script { lines, ended })?;
            }
        }
        Ok(())
    }

    /// Every request word with no number, each number, each pair of numbers,
    /// and three; in a small world and in one with all users and resources.
    fn numbers(&mut self, random: &mut Random) -> Outcome {
        for mode in MODES {
            let mut large = Writer::new(mode, MAX_USERS);
            for place in 0..MAX_RESOURCES {
                large.insert(UserSet::alone(User::at(place % MAX_USERS)));
            }
            for mut writer in [Writer::small(mode), large] {
                for word in REQUESTS {
                    writer.line(word);
                    for first in NUMBERS {
                        let one = [word, &b" "[..], first].concat();
                        for second in NUMBERS {
                            writer.line([&one, &b" "[..], second].concat());
                        }
                        writer.line([&one, &b" 1 2"[..]].concat());
                        writer.line([&one, &b" "[..]].concat());
                        writer.line(one);
                    }
                }
                self.compare(random, &writer.script())?;
            }
        }
        Ok(())
    }

    /// Other words, other gaps, spaces before and after, lists of any order
    /// and with someone twice.
    fn spaces_and_words(&mut self, random: &mut Random) -> Outcome {
        for mode in MODES {
            let mut writer = Writer::small(mode);
            for word in REQUESTS.into_iter().chain(WORDS) {
                for rest in RESTS {
                    writer.line([word, rest].concat());
                    writer.line([&b" "[..], word, rest].concat());
                    writer.line([word, rest, b"\r"].concat());
                    writer.line([word, rest, b"\0"].concat());
                }
                for gap in GAPS {
                    writer.line([word, gap, b"0"].concat());
                    writer.line([word, gap, b"0", gap, b"2"].concat());
                    writer.line([word, b" 0", gap, b"2"].concat());
                    writer.line([word, gap, b"0 2"].concat());
                    writer.line([word, b" 0 2", gap].concat());
                    writer.line([gap, word, b" 0 2"].concat());
                }
            }
            for list in LISTS {
                writer.line(format!("insert {list}"));
            }
            for _ in 0..20 {
                writer.line("");
            }
            self.compare(random, &writer.script())?;
        }
        Ok(())
    }

    /// Lines of 1 byte to more than any buffer, with and without their
    /// newline at the end.
    fn long_lines(&mut self, random: &mut Random) -> Outcome {
        for mode in MODES {
            let mut writer = Writer::small(mode);
            for length in LENGTHS {
                for line in lines_of(length) {
                    writer.line(line);
                    writer.line("open 0 0");
                }
            }
            // All 64 users, in both orders, and one more.
            let users: Vec<String> = (0..64).map(|user| user.to_string()).collect();
            let back: Vec<String> = users.iter().rev().cloned().collect();
            for _ in 3..64 {
                writer.line("join");
            }
            writer.line(format!("insert {}", users.join(" ")));
            writer.line(format!("insert {}", back.join(" ")));
            writer.line(format!("insert {} 64", users.join(" ")));
            writer.line(format!("insert {} 0", users.join(" ")));
            self.compare(random, &writer.script())?;
        }
        Ok(())
    }

    /// Scripts that end without a newline, after each kind of line.
    fn last_lines(&mut self, random: &mut Random) -> Outcome {
        let lasts = LASTS.map(Vec::from).into_iter();
        for last in lasts.chain(LENGTHS.into_iter().flat_map(lines_of)) {
            let mut script = Writer::small(MODES[random.below(2)]).script();
            script.lines.push(last);
            script.ended = random.chance(1, 4);
            self.compare(random, &script)?;
        }
        Ok(())
    }

    /// 2 and 3: users to 64 and beyond, resources to 256 and beyond.
    fn counts_full(&mut self, random: &mut Random) -> Outcome {
        for mode in MODES {
            let mut writer = Writer::new(mode, MAX_USERS + 2);
            for place in 0..MAX_RESOURCES + 2 {
                writer.insert(UserSet::alone(User::at(place % 64)));
            }
            // 1 and 4 stand before 3.
            for line in [
                "insert",
                "insert 63",
                "insert 64",
                "insert 0 64",
                "insert 63 0",
                "join",
                "join 0",
            ] {
                writer.line(line);
            }
            for r in [0, 254, 255, 256, 65535] {
                for u in [0, 62, 63, 64, 65535] {
                    for request in [
                        Request::Grant(Resource(r), User(u)),
                        Request::Open(User(u), Resource(r)),
                        Request::Revoke(Resource(r), User(u)),
                    ] {
                        writer.ask(request);
                    }
                }
            }
            writer.any(random, 200, 64, 8);
            self.compare(random, &writer.script())?;
        }
        Ok(())
    }

    /// 7: one folder's list walks through sets that differ by one user, each
    /// a new outer vertex, to 448 groups and beyond.
    fn seven(&mut self, random: &mut Random) -> Outcome {
        for mode in MODES {
            let mut writer = Writer::new(mode, 10);
            writer.insert(UserSet::first(10));
            let mut n: u64 = 0;
            while writer.book.book().outer_groups() < MAX_OUTER_GROUPS {
                n += 1;
                // The bit in which the Gray codes of n - 1 and n differ.
                let user = User(n.trailing_zeros() as u16);
                writer.ask(change(writer.list(0), user));
            }
            for user in 0..10 {
                writer.ask(change(writer.list(0), User(user)));
            }
            for line in [
                "join",
                "insert 0 10",
                "insert 10",
                "insert 0 1 2",
                "grant 0 10",
                "revoke 0 0",
            ] {
                writer.line(line);
            }
            writer.any(random, 150, 12, 8);
            self.compare(random, &writer.script())?;
        }
        Ok(())
    }

    /// 8: lists of 32 of 64 users, each entered by 32 tokens or so, then
    /// grants.
    fn eight(&mut self, random: &mut Random) -> Outcome {
        let mut writer = Writer::new(Mode::Delta, 64);
        for _ in 0..124 {
            writer.insert(of_size(random, 32));
        }
        for user in UserSet::first(64).minus(writer.list(0)).users() {
            writer.ask(Request::Grant(Resource(0), user));
        }
        for _ in 0..4 {
            writer.insert(of_size(random, 32));
        }
        for size in 2..40 {
            writer.insert(of_size(random, size));
        }
        for user in UserSet::first(64).minus(writer.list(1)).users() {
            writer.ask(Request::Grant(Resource(1), user));
        }
        writer.any(random, 100, 64, 8);
        self.compare(random, &writer.script())
    }

    /// 9: the same lists in full mode, then revokes and grants.
    fn nine(&mut self, random: &mut Random) -> Outcome {
        let mut writer = Writer::new(Mode::Full, 64);
        for _ in 0..124 {
            writer.insert(of_size(random, 32));
        }
        for place in 0..12 {
            if let Some(user) = writer.list(place).users().next() {
                writer.ask(Request::Revoke(Resource::at(place), user));
                writer.ask(Request::Open(user, Resource::at(place)));
            }
        }
        for size in 2..40 {
            writer.insert(of_size(random, size));
        }
        writer.any(random, 100, 64, 8);
        self.compare(random, &writer.script())
    }

    /// Long chains, and 255 folders that share an inner vertex with the one
    /// granted.
    fn many_rows(&mut self, random: &mut Random) -> Outcome {
        let mut writer = Writer::new(Mode::Full, 64);
        for count in 2..=64 {
            writer.insert(UserSet::first(count));
        }
        for user in 0..64 {
            writer.ask(Request::Open(User(user), Resource(62)));
            writer.ask(Request::Open(User(user), Resource(user)));
        }
        self.compare(random, &writer.script())?;

        let mut writer = Writer::new(Mode::Delta, 64);
        for _ in 0..256 {
            writer.insert(UserSet::first(63));
        }
        for r in [255, 0, 1, 254] {
            writer.ask(Request::Grant(Resource(r), User(63)));
        }
        writer.any(random, 100, 64, 8);
        self.compare(random, &writer.script())
    }

    /// To the largest book, and on.
    fn largest(&mut self, random: &mut Random) -> Outcome {
        let mut writer = Writer::new(Mode::Delta, 0);
        for request in large(&LARGEST).script {
            writer.ask(request);
        }
        writer.any(random, 200, 64, 8);
        self.compare(random, &writer.script())
    }

    /// Leaves: the longest one, some into the limits, one after the other, and
    /// requests about leavers.
    fn leaves(&mut self, random: &mut Random) -> Outcome {
        let mut writer = Writer::new(Mode::Delta, 0);
        for request in listed().script {
            writer.ask(request);
        }
        writer.ask(Request::Leave(LEAVER));
        writer.ask(Request::Leave(LEAVER));
        writer.any(random, 60, 64, 8);
        self.compare(random, &writer.script())?;
        for mode in MODES {
            // Most of these leaves meet 7 or 9.
            for (users, folders) in [(10, 256), (64, 60)] {
                let mut writer = Writer::new(mode, users);
                let all = writer.book.book().joined();
                for _ in 0..folders {
                    let list = generate::subset(random, all);
                    writer.insert(list.with(User(random.below(users) as u16)));
                }
                for user in all.users() {
                    writer.ask(Request::Leave(user));
                    writer.ask(Request::Leave(user));
                    for r in [0, 1, folders - 1, folders] {
                        writer.ask(Request::Open(user, Resource::at(r)));
                        writer.ask(Request::Grant(Resource::at(r), user));
                        writer.ask(Request::Revoke(Resource::at(r), user));
                    }
                    writer.insert(UserSet::alone(user));
                    writer.insert(UserSet::alone(user).with(User(users as u16)));
                    writer.insert(all);
                }
                for line in ["leave 65536", "leave 64", "join", "leave 0 0", "leave 00"] {
                    writer.line(line);
                }
                writer.any(random, 60, 64, 8);
                self.compare(random, &writer.script())?;
            }
        }
        Ok(())
    }

    /// A script in a random world: mostly long and in a small one.
    fn any_world(&mut self, random: &mut Random) -> Outcome {
        let mode = MODES[random.below(2)];
        let mut writer = match random.below(8) {
            0..=4 => {
                let users = random.between(2, 6);
                let mut writer = Writer::new(mode, 0);
                writer.any(random, 2000, users, 6);
                writer
            }
            5 | 6 => {
                let mut writer = Writer::small(mode);
                writer.any(random, 1000, 7, 1);
                writer
            }
            _ => {
                let mut writer = Writer::new(mode, random.between(56, 64));
                writer.any(random, 200, 64, 12);
                writer
            }
        };
        if random.chance(1, 2) {
            let last = writer.odd_line(random, 64);
            writer.line(last);
        }
        let mut script = writer.script();
        script.ended = random.chance(1, 2);
        self.compare(random, &script)
    }
}

/// The line as an order; the row of an open is none.
fn order(line: &str) -> Option<[u16; 3]> {
    let mut numbers = line.split(' ').map(|word| word.parse().ok());
    Some([numbers.next()??, numbers.next()??, numbers.next()??])
}

/// The request that changes whether folder 0, with that list, is the user's.
fn change(list: UserSet, user: User) -> Request {
    if list.names(user) {
        Request::Revoke(Resource(0), user)
    } else {
        Request::Grant(Resource(0), user)
    }
}
