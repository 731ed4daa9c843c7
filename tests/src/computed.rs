//! Lets the checker compute the definitions of `rules` over scripts: a scratch
//! repository holds a copy of `rules` and a crate that states each script as
//! rows of the bench table's form, and that all of them hold.

use crate::line::Areas;
use crate::moving::AREA;
use crate::script::{lines, parse, Order, Runner};
use std::fmt::Write as _;
use std::fs;
use std::io;
use std::path::{Path, PathBuf};
use std::process::{Command, Output};

/// A script and the answers it must give.
pub struct Script {
    pub orders: Vec<u8>,
    pub answers: Vec<u8>,
}

const HEADER: &str = "\
use mathlib.Core.Path.{refl}
use Rattle.std.specs.Prelude.{List, [], ◌∷◌, ◌≡◌}
use Rattle.rules.specs.Calls.{key, step, tick, message, load}
use Rattle.rules.specs.Bench.{Case, runs, copies, asks, moves, failures, asked}
use Rattle.rules.specs.Whole.{whole}

";

/// The rows of a script, and how many calls they hold. A line that is no order
/// is not a call; the dropped counts between two `D` come from the second
/// implementation, which answers each `D` too.
fn rows(script: &Script) -> (String, usize) {
    let mut answers = lines(&script.answers);
    let mut rows = Rows::default();
    let mut runner = Runner::default();
    for text in lines(&script.orders) {
        let mut ours = Vec::new();
        runner.run(text, &mut ours);
        let answer = if ours.is_empty() { Vec::new() } else { words(answers.next()) };
        match parse(text) {
            Some(order) => rows.add(&order, &answer, runner.line().dropped()),
            None => assert_eq!(answer[0], "?"),
        }
    }
    rows.end_run();
    (rows.text, rows.calls)
}

/// The rows so far, and the calls since the last fresh line.
#[derive(Default)]
struct Rows {
    text: String,
    run: String,
    areas: Areas,
    calls: usize,
}

impl Rows {
    fn add(&mut self, order: &Order, answer: &[String], dropped: u16) {
        match order {
            Order::Lengths(next) => self.areas = *next,
            Order::Fresh => {
                self.end_run();
                self.areas = Areas::default();
            }
            Order::Dropped => assert_eq!(answer[0], dropped.to_string()),
            Order::Read(bytes) => {
                let (number, again) = (&answer[0], list(&hex(&answer[1])));
                self.case(&format!("copies {} {number} {again}", list(bytes)));
            }
            Order::Ask(number, records) => {
                let (own, site) = (list(&records.own), list(&records.site));
                let section = list(&hex(&answer[0]));
                self.case(&format!("asks {number} {own} {site} {section}"));
            }
            Order::Move(form, record) => {
                let (form, number) = (form.byte(), &answer[0]);
                let moved = list(&hex(answer.get(1).map_or("-", String::as_str)));
                let row = format!("moves {form} {AREA} {} {number} {moved}", list(record));
                self.case(&row);
            }
            Order::Load(_) => {
                // A load is lent no areas, and writes nothing.
                let none = Areas { terminal: 0, message: 0 };
                let answer = [answer[0].clone(), "-".into(), "-".into()];
                self.call(none, order, &answer, dropped);
            }
            Order::Key(_) | Order::Step | Order::Tick | Order::Host(_) => {
                self.call(self.areas, order, answer, dropped);
            }
        }
    }

    /// One row that needs no line.
    fn case(&mut self, row: &str) {
        writeln!(self.text, "    {row} ∷").unwrap();
        self.calls += 1;
    }

    fn call(&mut self, areas: Areas, order: &Order, answer: &[String], dropped: u16) {
        let Areas { terminal: a, message: b } = areas;
        let (number, event) = (&answer[0], event(order));
        let (terminal, messages) = (list(&hex(&answer[1])), list(&hex(&answer[2])));
        let row = format!("asked {a} {b} {event} {number} {terminal} {messages} {dropped}");
        writeln!(self.run, "    {row} ∷").unwrap();
        self.calls += 1;
    }

    fn end_run(&mut self) {
        if !self.run.is_empty() {
            write!(self.text, "    runs (\n{}    []) ∷\n", self.run).unwrap();
            self.run.clear();
        }
    }
}

fn event(order: &Order) -> String {
    match order {
        Order::Key(code) => format!("(key {code})"),
        Order::Host(bytes) => format!("(message {})", list(bytes)),
        Order::Load(records) => format!("(load {} {})", list(&records.own), list(&records.site)),
        Order::Step => "step".into(),
        _ => "tick".into(),
    }
}

fn words(answer: Option<&[u8]>) -> Vec<String> {
    let text = String::from_utf8_lossy(answer.unwrap_or_default());
    text.split(' ').map(String::from).collect()
}

fn hex(digits: &str) -> Vec<u8> {
    if digits == "-" {
        return Vec::new();
    }
    let bytes = digits.as_bytes().chunks(2);
    bytes.map(|two| u8::from_str_radix(std::str::from_utf8(two).unwrap(), 16).unwrap()).collect()
}

/// A list as antt writes it.
fn list(bytes: &[u8]) -> String {
    if bytes.is_empty() {
        return "[]".into();
    }
    let mut text = String::from("(");
    for byte in bytes {
        write!(text, "{byte} ∷ ").unwrap();
    }
    text + "[])"
}

fn copy(from: &Path, to: &Path) -> io::Result<()> {
    fs::create_dir_all(to)?;
    for entry in fs::read_dir(from)? {
        let entry = entry?;
        let (old, new) = (entry.path(), to.join(entry.file_name()));
        if old.is_dir() {
            copy(&old, &new)?;
        } else {
            fs::copy(&old, &new)?;
        }
    }
    Ok(())
}

/// Writes the scratch repository; gives the number of calls in it. Where `rules`
/// is proved already, what is kept of that goes along.
fn lay_out(repository: &Path, scratch: &Path, scripts: &[Script]) -> io::Result<usize> {
    let (rules, ours) = (repository.join("crates/rules"), scratch.join("crates/scripts"));
    let specs = ours.join("specs");
    for part in ["src", "specs", "proofs"] {
        fs::create_dir_all(ours.join(part))?;
    }
    for part in ["src", "specs", "proofs", "out"] {
        let from = rules.join(part);
        if from.is_dir() {
            copy(&from, &scratch.join("crates/rules").join(part))?;
        }
    }
    fs::write(scratch.join("crates.txt"), "rules:\nscripts: rules\n")?;
    fs::write(scratch.join("crates/scripts/src/lib.rt"), "pub const SCRIPTS: usize = 1;\n")?;
    let (mut root, mut calls) = (String::new(), 0);
    for (number, script) in scripts.iter().enumerate() {
        let (rows, count) = rows(script);
        let text = format!(
            "{HEADER}rows : List Case\nrows =\n{rows}    []\n\nhold : failures 0 rows ≡ []\nunfolding whole rows\nhold = refl\n"
        );
        fs::write(specs.join(format!("Script{number}.antt")), text)?;
        writeln!(root, "pub mod Script{number}").unwrap();
        calls += count;
    }
    fs::write(specs.join("Lib.antt"), root)?;
    Ok(calls)
}

/// The checker's verdict on the definitions at `repository` over all scripts,
/// and the number of calls that it computed.
pub fn check(repository: &Path, scripts: &[Script]) -> io::Result<(Output, usize)> {
    let name = format!("shekuftav-computed-{}", std::process::id());
    let scratch: PathBuf = std::env::temp_dir().join(name);
    let calls = lay_out(repository, &scratch, scripts)?;
    let output =
        Command::new("rt").arg("check").current_dir(scratch.join("crates/scripts")).output()?;
    fs::remove_dir_all(&scratch)?;
    Ok((output, calls))
}
