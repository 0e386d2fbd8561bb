//! Hands the same texts to `respond` of crates/text, which gives what the program gripcheck prints, and to the scope and the Rust, and compares the
//! outputs byte for byte. With `--program FILE` it hands them to that program as well. With `--store FOLDER` it writes questions and expected answers to
//! files instead.
#[path = "../rust/answers.rs"]
mod answers;
#[allow(dead_code)]
#[path = "../search/questions.rs"]
mod questions;
#[path = "../rust/random.rs"]
mod random;
#[path = "../rust/refusals.rs"]
mod refusals;
mod texts;
use answers::{Answer, hush, refused};
use random::Rng;
use std::io::{ErrorKind, Write};
use std::process::{Command, Stdio};
use std::sync::OnceLock;
use texts::{DAMAGE, LENT, Named, asked, most_nodes, replace_small, revision, sizes, some_text};

unsafe extern "C" {
    fn t_respond(text: *const u8, text_len: usize, out: *mut u8, out_len: usize) -> usize;
}

/// The bytes that an answer must have room for.
const ROOM: usize = 192;
/// The bytes that the program reads at most.
const READ: usize = 65_537;
/// The program gripcheck, where it is asked too.
static PROGRAM: OnceLock<String> = OnceLock::new();

// ---- what is expected

/// What is expected for a text: the result's word, visited, cuts and depth, and the seven lines.
struct Expected {
    word: String,
    visited: u64,
    cuts: u64,
    depth: u64,
    lines: String,
}
/// An answer, as it is to be printed.
fn printed([kind, pending, visited, number, lo, hi, cuts, depth]: Answer) -> Expected {
    let word = if kind == 3 { format!("refused-{number}") } else { WORDS[kind as usize].into() };
    let bound = |bits: u64| if kind == 1 { format!("{bits:016x}") } else { "-".into() };
    let lines = format!("result={word}\nvisited={visited}\ncuts={cuts}\ndepth={depth}\npending={pending}\nlo={}\nhi={}\n", bound(lo), bound(hi));
    Expected { word, visited, cuts, depth, lines }
}
fn expected(text: &[u8]) -> Result<Expected, String> {
    match asked(text, LENT) {
        Ok(q) => answers::expected(&q).map(printed),
        Err(n) => Ok(printed(refused(n))),
    }
}

// ---- what the port does

/// What the port writes to the front of `room` bytes of garbage, and whether it left those behind.
fn ask_port(r: &mut Rng, text: &[u8], room: usize) -> (Vec<u8>, bool) {
    let mut out: Vec<u8> = (0..room).map(|_| r.next() as u8).collect();
    let before = out.clone();
    let n = unsafe { t_respond(text.as_ptr(), text.len(), out.as_mut_ptr(), out.len()) };
    if n > room {
        return (Vec::new(), false);
    }
    (out[..n].to_vec(), out[n..] == before[n..])
}
/// What the program prints for a text on its standard input; and what it says on standard error, and how it ends, if that is not nothing and not 0.
/// Of a text that is longer than what it reads the rest may find no reader.
fn ask_program(program: &str, text: &[u8]) -> Vec<u8> {
    let mut process = Command::new(program);
    let mut process = process.stdin(Stdio::piped()).stdout(Stdio::piped()).stderr(Stdio::piped()).spawn().expect("the program can be started");
    let fed = process.stdin.take().expect("a pipe").write_all(text);
    let output = process.wait_with_output().expect("the program's output can be read");
    let mut said = [output.stdout, output.stderr].concat();
    if !output.status.success() {
        said.extend(format!("{}\n", output.status).bytes());
    }
    match fed {
        Err(e) if e.kind() != ErrorKind::BrokenPipe || text.len() <= READ => said.extend(format!("the text was not read: {e}\n").bytes()),
        _ => {}
    }
    said
}

// ---- the comparison

const WORDS: [&str; 16] = [
    "none", "enclosed", "spent", "refused-1", "refused-2", "refused-3", "refused-5", "refused-6", "refused-7", "refused-8", "refused-9", "refused-10", "refused-11",
    "refused-12", "refused-16", "no answer (debug)",
];
/// The number of words that a text can have for an answer.
const ANSWERS: usize = WORDS.len() - 1;
#[derive(Clone, Copy, Default)]
struct Row {
    texts: u64,
    damaged: u64,
    visits: u64,
    most: u64,
    cuts: u64,
    deepest: u64,
    differ: u64,
}
impl Row {
    fn count(&mut self, answer: Option<&Expected>) {
        let (visited, cuts, depth) = answer.map_or((0, 0, 0), |e| (e.visited, e.cuts, e.depth));
        self.texts += 1;
        self.visits += visited;
        self.most = self.most.max(visited);
        self.cuts += cuts;
        self.deepest = self.deepest.max(depth);
    }
}
fn row_of(theirs: &Result<Expected, String>) -> usize {
    theirs.as_ref().map_or(ANSWERS, |e| WORDS.iter().position(|w| *w == e.word).unwrap_or(ANSWERS))
}
/// Where a text is counted: with those of its revision, or with those that are refused by 12 or 16.
fn table_of(text: &[u8], theirs: &Result<Expected, String>) -> usize {
    let refused = theirs.as_ref().is_ok_and(|e| e.word == "refused-12" || e.word == "refused-16");
    revision(text).filter(|_| !refused).map_or(2, |(rev, _)| rev - 1)
}
/// Asks all. No answer, as where an assertion of the Rust's debug build fires, is a difference.
fn same(r: &mut Rng, text: &[u8], theirs: &Result<Expected, String>) -> bool {
    let room = ROOM + if r.one_in(2) { 0 } else { r.below(100) };
    let (ours, mut left) = ask_port(r, text, room);
    if r.one_in(16) {
        let short = r.below(ROOM);
        let (none, kept) = ask_port(r, text, short);
        left &= none.is_empty() && kept;
    }
    let program = PROGRAM.get().map(|program| ask_program(program, text));
    let right = theirs.as_ref().is_ok_and(|e| e.lines.as_bytes() == ours && program.as_ref().is_none_or(|said| e.lines.as_bytes() == said));
    if !right || !left {
        let theirs = theirs.as_ref().map_or_else(|said| format!("no answer: {said}\n"), |e| e.lines.clone());
        let behind = if left { "left" } else { "not left" };
        let program = program.map_or(String::new(), |said| format!("\nthe program\n{}", String::from_utf8_lossy(&said)));
        let ours = String::from_utf8_lossy(&ours);
        DIFFERENCE.with_borrow_mut(|d| *d = format!("expected\n{theirs}the port\n{ours}the bytes behind are {behind}{program}"));
    }
    right && left
}
thread_local! {
    /// What the last difference was.
    static DIFFERENCE: std::cell::RefCell<String> = const { std::cell::RefCell::new(String::new()) };
}
fn show(text: &[u8]) {
    let most = text.len().min(8000);
    println!("differs: {}", DIFFERENCE.with_borrow(|d| d.clone()));
    println!("the text, {} bytes:\n{}", text.len(), text[..most].escape_ascii().to_string().replace("\\n", "\n"));
}
fn compare(r: &mut Rng, total: u64) -> bool {
    // Of texts in revision 1, in revision 2, and of those that are refused by 12 or 16.
    let (mut rows, mut ways) = ([[Row::default(); WORDS.len()]; 3], [[0u64; 3]; DAMAGE.len()]);
    for _ in 0..total {
        let (text, way) = some_text(r, Named::Either);
        let theirs = expected(&text);
        let same = same(r, &text, &theirs);
        let row = &mut rows[table_of(&text, &theirs)][row_of(&theirs)];
        row.count(theirs.as_ref().ok());
        if let Some(way) = way {
            let word = theirs.map_or(String::new(), |e| e.word);
            row.damaged += 1;
            ways[way][0] += 1;
            ways[way][1] += (word == "refused-12") as u64;
            ways[way][2] += (word == "refused-16") as u64;
        }
        if !same {
            row.differ += 1;
            if row.differ <= 2 {
                show(&text);
            }
        }
    }
    for (name, rows) in ["revision 1", "revision 2", "of no revision"].iter().zip(&rows) {
        println!("{name:<18} {:>10} {:>10} {:>12} {:>8} {:>12} {:>8} {:>12}", "texts", "damaged", "visits", "most", "cuts", "deepest", "differences");
        for (word, row) in WORDS.iter().zip(rows).filter(|(_, row)| row.texts > 0) {
            println!("{word:<18} {:>10} {:>10} {:>12} {:>8} {:>12} {:>8} {:>12}", row.texts, row.damaged, row.visits, row.most, row.cuts, row.deepest, row.differ);
        }
    }
    println!("{:<18} {:>10} {:>10} {:>10}", "damaged", "texts", "refused-12", "refused-16");
    for (way, [texts, refused, other]) in DAMAGE.iter().zip(&ways) {
        println!("{way:<18} {texts:>10} {refused:>10} {other:>10}");
    }
    let differ: u64 = rows.iter().flatten().map(|row| row.differ).sum();
    println!("{total} compared{}, {differ} differ", if PROGRAM.get().is_some() { ", and what the program printed" } else { "" });
    differ == 0
}

// ---- stored answers

/// How many texts are stored of each result word; of the first three, for each degree and each dim. Beside these, so many of over 100 visits.
type Wanted = ([usize; ANSWERS], usize);
/// Of those that name no revision.
const PLAIN: Wanted = ([12, 22, 12, 20, 20, 20, 23, 23, 23, 23, 23, 23, 36, 60, 0], 30);
/// Of those that name one: of the first three and of refusal 11 just those of revision 2.
const NAMED: Wanted = ([4, 7, 4, 4, 4, 4, 4, 4, 4, 4, 4, 4, 12, 30, 20], 10);
/// Which number of `Wanted` a text counts for, and its band of visits: to 1, to 5, to 19, to 59, or more.
fn cell_of(word: usize, text: &[u8], visited: u64) -> (usize, usize) {
    let [dim, degree, _] = revision(text).and_then(|(_, rest)| sizes(rest)).unwrap_or_default();
    let band = [1, 5, 19, 59].iter().filter(|&&v| visited > v).count();
    if word < 3 { (1 + word + 3 * (dim + 4 * degree), band) } else { (1000 + word, 0) }
}
/// The texts of chosen.txt: they stand between empty lines, and lines with a # in front are no part of them.
fn chosen_texts() -> Vec<Vec<u8>> {
    let parts = include_str!("chosen.txt").split("\n\n");
    let texts = parts.map(|part| part.lines().filter(|l| !l.starts_with('#')).flat_map(|l| [l, "\n"]).collect::<String>());
    texts.filter(|text| !text.is_empty()).map(String::into_bytes).collect()
}
/// What is stored: texts with their answers, a row for each result word, how many texts were made for it, and whether the port gives all of the answers.
struct Stored {
    texts: Vec<(Vec<u8>, String)>,
    rows: [Row; WORDS.len()],
    made: usize,
    right: bool,
}
impl Stored {
    /// A text goes in, where there is an answer; it is wrong where there is none, or the port gives another.
    fn put(&mut self, r: &mut Rng, text: Vec<u8>) {
        let theirs = expected(&text);
        if !same(r, &text, &theirs) || theirs.is_err() {
            show(&text);
            self.right = false;
        }
        if let Ok(answer) = &theirs {
            self.rows[row_of(&theirs)].count(Some(answer));
            self.texts.push((text, answer.lines.clone()));
        }
    }
    /// Random texts, in random order.
    fn choose(&mut self, r: &mut Rng, revisions: Named, (stored, longest): Wanted) {
        let mut cells = std::collections::BTreeMap::<usize, [usize; 5]>::new();
        let (first, mut made, mut long) = (self.texts.len(), 0, 0);
        let wanted = first + longest + stored.iter().enumerate().map(|(i, n)| if i < 3 { 16 * n } else { *n }).sum::<usize>();
        while self.texts.len() < wanted && made < 1_000_000 {
            made += 1;
            let (mut text, _) = some_text(r, revisions);
            if let (true, Ok(q)) = (r.one_in(3), asked(&text, LENT)) {
                replace_small(r, &mut text, 3, |_, _| most_nodes(&q).to_string());
            }
            if text.contains(&0) || text.len() > if r.one_in(8) { 6000 } else { 1600 } {
                continue;
            }
            let theirs = expected(&text);
            let word = row_of(&theirs);
            let Ok(answer) = theirs.as_ref() else { continue };
            let searched = word < 3 || WORDS[word] == "refused-11";
            if revisions == Named::Either && !text.starts_with(if searched { b"rev=2" } else { b"rev" }) {
                continue;
            }
            let (cell, band) = cell_of(word, &text, answer.visited);
            let taken = cells.entry(cell).or_default();
            // At first each band of visits has its own share; then what is left goes to any.
            let share = if word < 3 && made < 300_000 { stored[word].div_ceil(5) } else { stored[word] };
            if answer.visited > 100 && long < longest {
                long += 1;
            } else if taken.iter().sum::<usize>() >= stored[word] || taken[band] >= share {
                continue;
            } else {
                taken[band] += 1;
            }
            self.put(r, text);
        }
        for i in (1..self.texts.len() - first).rev() {
            self.texts.swap(first + i, first + r.below(i + 1));
        }
        self.made += made;
        self.right &= self.texts.len() == wanted;
    }
}
/// Chooses texts and writes them, and those of chosen.txt, with their answers: data/00 and so on, args, stdout.
fn store(r: &mut Rng, folder: &str) -> std::io::Result<bool> {
    let mut all = Stored { texts: Vec::new(), rows: [Row::default(); WORDS.len()], made: 0, right: true };
    all.choose(r, Named::None, PLAIN);
    chosen_texts().into_iter().for_each(|text| all.put(r, text));
    all.choose(r, Named::Either, NAMED);
    let Stored { texts: chosen, rows, made, right } = all;
    let mut files: Vec<(Vec<u8>, usize)> = vec![(Vec::new(), 0)];
    for (text, _) in &chosen {
        if files.last().is_some_and(|(bytes, many)| bytes.len() + text.len() >= 65_000 || *many >= 60) {
            files.push((Vec::new(), 0));
        }
        if let Some((bytes, many)) = files.last_mut() {
            bytes.extend(text);
            bytes.push(0);
            *many += 1;
        }
    }
    std::fs::create_dir_all(format!("{folder}/data"))?;
    for (i, (bytes, _)) in files.iter().enumerate() {
        std::fs::write(format!("{folder}/data/{i:02}"), bytes)?;
    }
    std::fs::write(format!("{folder}/args"), (0..files.len()).map(|i| format!("{i:02}\n")).collect::<String>())?;
    std::fs::write(format!("{folder}/stdout"), chosen.iter().map(|(_, lines)| lines.as_str()).collect::<String>())?;
    println!("{:<18} {:>10} {:>12} {:>8} {:>12} {:>8}", "stored", "texts", "visits", "most", "cuts", "deepest");
    for (word, row) in WORDS.iter().zip(&rows).take(ANSWERS) {
        println!("{word:<18} {:>10} {:>12} {:>8} {:>12} {:>8}", row.texts, row.visits, row.most, row.cuts, row.deepest);
    }
    let bytes: usize = files.iter().map(|(bytes, _)| bytes.len()).sum();
    println!("{} texts of {made}, in {} files of {bytes} bytes; the port gives the same: {right}", chosen.len(), files.len());
    Ok(right)
}

fn main() {
    let mut words: Vec<String> = std::env::args().skip(1).collect();
    let mut option = |name: &str| words.first().is_some_and(|w| w == name).then(|| words.drain(..2).nth(1).expect("a word behind the option"));
    if let Some(program) = option("--program") {
        PROGRAM.set(program).expect("one program");
    }
    let folder = option("--store");
    let numbers: Vec<u64> = words.iter().map(|w| w.parse().expect("TEXTS [SEED]")).collect();
    let (total, seed) = (numbers.first().copied().unwrap_or(300_000), numbers.get(1).copied().unwrap_or(1));
    hush();
    let mut r = Rng::of_seed(seed);
    let right = match folder {
        Some(folder) => store(&mut r, &folder).expect("the files can be written"),
        None => compare(&mut r, total),
    };
    std::process::exit(if right { 0 } else { 1 });
}
