//! Hands texts to `rewrite` of crates/text, which writes the one form of a text, and compares what it writes, byte for byte, with a writer that is made from
//! the words of request E7 alone. Then it asks again: with less room, for what was written, and for texts of the same numbers and of others.
#[allow(dead_code)]
#[path = "../search/questions.rs"]
mod questions;
#[path = "../rust/random.rs"]
mod random;
#[path = "../rust/refusals.rs"]
mod refusals;
#[allow(dead_code)]
#[path = "../texts/texts.rs"]
mod texts;
use questions::{Question, question};
use random::Rng;
use refusals::refusal;
use texts::{Named, asked, text_of, written};

unsafe extern "C" {
    fn t_rewrite(text: *const u8, text_len: usize, out: *mut u8, out_len: usize, bytes: &mut [u64; 1]) -> u64;
    fn t_respond(text: *const u8, text_len: usize, out: *mut u8, out_len: usize) -> usize;
}

/// The bytes that a form has at most.
const LONGEST: usize = 5_405;
/// No area is lent where a text is written, so that nothing is refused by 10.
const NO_AREA: usize = usize::MAX;

/// A form, or the number of the refusal.
type Form = Result<Vec<u8>, u64>;

// ---- what is expected

/// Lower-case digits, and one zero.
fn digits(x: f64) -> String {
    format!("{:016x}", if x == 0.0 { 0 } else { x.to_bits() })
}
fn line_of(key: &str, numbers: &[f64]) -> String {
    let numbers: Vec<String> = numbers.iter().map(|x| digits(*x)).collect();
    format!("{key}={}\n", numbers.join(" "))
}
/// The one form of a question that is not refused.
fn form_of(q: &Question) -> Vec<u8> {
    let mut lines = vec![format!("rev={}\ndim={}\ndegree={}\ncount={}\nnodes={}\n", q.rev, q.dim, q.degree, q.count, q.nodes)];
    lines.push(line_of("resolution", &[q.resolution]));
    lines.push(line_of("knots", &q.knots));
    lines.extend(q.points.chunks(2 * (q.dim + 1)).map(|point| line_of("point", point)));
    lines.push(line_of("box", &q.cell));
    lines.concat().into_bytes()
}
/// All numbers are equal, the two zeros too. (No number of a question that is not refused is a NaN.)
fn same_numbers(a: &Question, b: &Question) -> bool {
    let smalls = |q: &Question| [q.rev, q.dim, q.degree, q.count, q.nodes];
    smalls(a) == smalls(b) && a.resolution == b.resolution && a.knots == b.knots && a.points == b.points && a.cell == b.cell
}

// ---- what the port does

/// What the port gives where it is lent `room` bytes of garbage, and whether it left all that it may not write.
fn ask_port(r: &mut Rng, text: &[u8], room: usize) -> (Form, bool) {
    let mut out: Vec<u8> = (0..room).map(|_| r.next() as u8).collect();
    let before = out.clone();
    let mut bytes = [0];
    let number = unsafe { t_rewrite(text.as_ptr(), text.len(), out.as_mut_ptr(), out.len(), &mut bytes) };
    let n = bytes[0] as usize;
    if n > room {
        return (Ok(Vec::new()), false);
    }
    (if number == 0 { Ok(out[..n].to_vec()) } else { Err(number) }, out[n..] == before[n..])
}
/// What gripcheck prints.
fn answer(text: &[u8]) -> Vec<u8> {
    let mut lines = [0; 192];
    let n = unsafe { t_respond(text.as_ptr(), text.len(), lines.as_mut_ptr(), lines.len()) };
    lines[..n.min(192)].to_vec()
}

// ---- texts

/// Each zero gets a sign by chance.
fn sign_zeros(r: &mut Rng, q: &mut Question) {
    let numbers = q.knots.iter_mut().chain(&mut q.points).chain(&mut q.cell).chain([&mut q.resolution]);
    numbers.filter(|x| **x == 0.0).for_each(|x| *x = if r.one_in(2) { 0.0 } else { -0.0 });
}
/// A zero for both bounds of an interval, or for one where the other allows it.
fn put_zero(r: &mut Rng, pair: &mut [f64]) {
    match (r.below(3), pair) {
        (0, [lo, hi]) => (*lo, *hi) = (0.0, 0.0),
        (1, [lo, hi]) if *hi >= 0.0 => *lo = 0.0,
        (2, [lo, hi]) if *lo <= 0.0 => *hi = 0.0,
        _ => {}
    }
}
/// A question of those of the search, with more zeros, and with any nodes up to 4,096, or above: they need not fit into what gripcheck lends.
fn some_question(r: &mut Rng) -> Question {
    let mut q = question(r);
    if r.one_in(2) {
        // The last pair of a point is its weight, which may not begin with a zero.
        let whole = 2 * (q.dim.clamp(2, 3) + 1);
        let coordinates = q.points.chunks_mut(whole).flat_map(|point| point.chunks_mut(2).take(whole / 2 - 1));
        for pair in coordinates.chain(q.cell.chunks_mut(2)) {
            if r.one_in(4) {
                put_zero(r, pair);
            }
        }
    }
    if r.one_in(4) {
        let zero = q.knots.get(r.below(8)).copied().unwrap_or(0.0);
        q.knots.iter_mut().for_each(|u| *u -= zero);
    }
    if r.one_in(4) {
        q.resolution = 0.0;
    }
    if !r.one_in(4) {
        sign_zeros(r, &mut q);
    }
    q.nodes = match r.below(12) {
        0 => r.of(&[0, 9, 10, 99, 100, 999, 1000, 4095, 4096]),
        1 => r.below(4097),
        2 => 4096,
        3 if r.one_in(4) => r.of(&[4097, 4098, 9999, 10_000, 99_999_999, 999_999_999]),
        _ => q.nodes,
    };
    q
}
/// The question written anew: in any case of letters, and in revision 1 with the line `rev=1` or without.
fn written_anew(r: &mut Rng, q: &Question) -> Vec<u8> {
    let named = q.rev == 2 || r.one_in(2);
    written(r, q, named)
}
/// Changes one number: the revision, the nodes, a size with what belongs to it, or one digit of a double.
fn change(r: &mut Rng, q: &mut Question) {
    let whole = 2 * (q.dim + 1);
    match r.below(10) {
        0 => q.rev = 3 - q.rev,
        1 => q.nodes = if r.one_in(2) { r.below(4097) } else { q.nodes + 1 },
        2 if q.degree > 0 => {
            q.degree -= 1;
            q.knots.pop();
        }
        3 => {
            q.count -= 1;
            q.knots.pop();
            q.points.truncate(q.points.len() - whole);
        }
        4 if q.dim == 3 => {
            q.dim = 2;
            q.points = q.points.chunks(whole).flat_map(|point| [&point[..4], &point[6..]].concat()).collect();
            q.cell.truncate(4);
        }
        _ => {
            let mut numbers: Vec<&mut f64> = q.knots.iter_mut().chain(&mut q.points).chain(&mut q.cell).chain([&mut q.resolution]).collect();
            let (i, digit, by) = (r.below(numbers.len()), r.below(16), 1 + r.below(15) as u64);
            *numbers[i] = f64::from_bits(numbers[i].to_bits() ^ by << (4 * digit));
        }
    }
}
/// A question that differs by such a change and is not refused either, if one of 30 is so.
fn other_question(r: &mut Rng, q: &Question) -> Option<Question> {
    let mut others = (0..30).map(|_| {
        let mut other = q.clone();
        change(r, &mut other);
        other
    });
    others.find(|other| refusal(other) == 0 && !same_numbers(q, other))
}

// ---- the comparison

const WORDS: [&str; 11] = [
    "written", "refused-1", "refused-2", "refused-3", "refused-5", "refused-6", "refused-7", "refused-8", "refused-9", "refused-12", "refused-16",
];
/// What is held: the first of every text, the second of one that is refused, the others of one that is written.
#[derive(Clone, Copy)]
enum Held {
    Form,
    Refused,
    Enough,
    Short,
    Again,
    Back,
    Answer,
    Same,
    Other,
}
const HELD: [&str; 9] = [
    "the form or the refusal", "refused in any room", "room for just the form", "too little room is 15", "written again, as it was", "read back, same numbers",
    "the form has the answer", "same numbers, same form", "other number, other form",
];
#[derive(Clone, Copy, Default)]
struct Row {
    texts: u64,
    damaged: u64,
    differ: u64,
}
/// How the texts that were written looked.
#[derive(Default)]
struct Seen {
    unnamed: u64,
    upper: u64,
    negative: u64,
    already: u64,
    no_room: u64,
    longest: usize,
}
struct Comparison {
    r: Rng,
    rows: [Row; WORDS.len()],
    /// How often each of HELD was asked, and how often it was not so.
    held: [[u64; 2]; HELD.len()],
    seen: Seen,
}
impl Comparison {
    /// What the port gives with so much room must be what is expected, with nothing else written.
    fn ask(&mut self, what: Held, text: &[u8], room: usize, right: &Form) {
        let (ours, left) = ask_port(&mut self.r, text, room);
        let written = if left { "nothing else is written" } else { "something else is written" };
        self.hold(what, ours == *right && left, text, || format!("with room for {room} bytes\nexpected {}the port {}{written}", said(right), said(&ours)));
    }
    /// It is right of a text, or not; the first two that are not are printed, with what was seen.
    fn hold(&mut self, what: Held, right: bool, text: &[u8], seen: impl Fn() -> String) {
        let [asked, differ] = &mut self.held[what as usize];
        *asked += 1;
        if !right {
            *differ += 1;
            if *differ <= 2 {
                println!("differs: {}: {}\nthe text, {} bytes:\n{}", HELD[what as usize], seen(), text.len(), shown(text));
            }
        }
    }
    /// A text that is refused has its own number, whatever the room.
    fn refused(&mut self, text: &[u8], right: &Form) {
        for room in [0, self.r.below(LONGEST), LONGEST] {
            self.ask(Held::Refused, text, room, right);
        }
    }
    fn written(&mut self, text: &[u8], q: &Question, form: &[u8]) {
        let n = form.len();
        let right = Ok(form.to_vec());
        self.ask(Held::Enough, text, n, &right);
        for room in [n - 1, 0, self.r.below(n)] {
            self.ask(Held::Short, text, room, &Err(15));
        }
        self.ask(Held::Again, form, LONGEST, &right);
        let back = asked(form, NO_AREA);
        self.hold(Held::Back, back.is_ok_and(|back| same_numbers(q, &back)), text, || format!("the form has {}", said(&right)));
        let answers = [answer(text), answer(form)];
        self.hold(Held::Answer, answers[0] == answers[1], text, || format!("\n{}of the form it is\n{}", shown(&answers[0]), shown(&answers[1])));
        let mut same = q.clone();
        sign_zeros(&mut self.r, &mut same);
        let same = written_anew(&mut self.r, &same);
        self.ask(Held::Same, &same, LONGEST, &right);
        if let Some(other) = other_question(&mut self.r, q) {
            let text = written_anew(&mut self.r, &other);
            let (ours, left) = ask_port(&mut self.r, &text, LONGEST);
            let right = ours == Ok(form_of(&other)) && ours.as_ref().is_ok_and(|other| other != form) && left;
            self.hold(Held::Other, right, &text, || format!("the port {}before the change\n{}", said(&ours), shown(form)));
        }
        self.seen.count(text, q, form, answers[0].starts_with(b"result=refused-10\n"));
    }
    fn one(&mut self) {
        let q = some_question(&mut self.r);
        let (text, way) = text_of(&mut self.r, q, Named::Either);
        let theirs = asked(&text, NO_AREA);
        let right = theirs.as_ref().map(form_of).map_err(|n| *n);
        let before = self.differ();
        let room = right.as_ref().map_or(0, Vec::len).max(self.r.of(&[0, LONGEST])) + self.r.below(100);
        self.ask(Held::Form, &text, room, &right);
        match (&theirs, &right) {
            (Ok(q), Ok(form)) => self.written(&text, q, form),
            _ => self.refused(&text, &right),
        }
        let differ = self.differ() > before;
        let row = &mut self.rows[row_of(&right)];
        row.texts += 1;
        row.damaged += u64::from(way.is_some());
        row.differ += u64::from(differ);
    }
    fn differ(&self) -> u64 {
        self.held.iter().map(|[_, differ]| differ).sum()
    }
    fn print(&self) {
        println!("{:<26} {:>10} {:>10} {:>12}", "result", "texts", "damaged", "differences");
        for (word, row) in WORDS.iter().zip(&self.rows) {
            println!("{word:<26} {:>10} {:>10} {:>12}", row.texts, row.damaged, row.differ);
        }
        println!("{:<26} {:>10} {:>10} {:>12}", "what is held", "asked", "", "differences");
        for (what, [asked, differ]) in HELD.iter().zip(&self.held) {
            println!("{what:<26} {asked:>10} {:>10} {differ:>12}", "");
        }
        let Seen { unnamed, upper, negative, already, no_room, longest } = &self.seen;
        println!("of those written {unnamed} name no revision, {upper} have upper-case digits, {negative} a negative zero; {already} are their own form;");
        println!("{no_room} are refused by 10 of gripcheck; the longest form has {longest} bytes");
    }
}
impl Seen {
    fn count(&mut self, text: &[u8], q: &Question, form: &[u8], no_room: bool) {
        let mut numbers = q.knots.iter().chain(&q.points).chain(&q.cell).chain([&q.resolution]);
        self.unnamed += u64::from(!text.starts_with(b"rev"));
        self.upper += u64::from(text.iter().any(u8::is_ascii_uppercase));
        self.negative += u64::from(numbers.any(|x| *x == 0.0 && x.is_sign_negative()));
        self.already += u64::from(text == form);
        self.no_room += u64::from(no_room);
        self.longest = self.longest.max(form.len());
    }
}
fn row_of(form: &Form) -> usize {
    let word = form.as_ref().map_or_else(|n| format!("refused-{n}"), |_| "written".into());
    WORDS.iter().position(|w| *w == word).expect("a number by which a text is refused")
}
fn shown(text: &[u8]) -> String {
    text[..text.len().min(8000)].escape_ascii().to_string().replace("\\n", "\n")
}
fn said(form: &Form) -> String {
    form.as_ref().map_or_else(|n| format!("refused-{n}\n"), |bytes| format!("{} bytes:\n{}", bytes.len(), shown(bytes)))
}

fn main() {
    let numbers: Vec<u64> = std::env::args().skip(1).map(|w| w.parse().expect("TEXTS [SEED]")).collect();
    let (total, seed) = (numbers.first().copied().unwrap_or(1_000_000), numbers.get(1).copied().unwrap_or(1));
    let mut c = Comparison { r: Rng::of_seed(seed), rows: Default::default(), held: Default::default(), seen: Seen::default() };
    (0..total).for_each(|_| c.one());
    c.print();
    println!("{total} compared, {} differ", c.rows.iter().map(|row| row.differ).sum::<u64>());
    std::process::exit(if c.differ() > 0 { 1 } else { 0 });
}
