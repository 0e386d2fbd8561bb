//! Whole texts: a reader, made from the words of the scope, and random texts, good and damaged.
//! The comparisons of whole texts and of their one form share it; `questions`, `random` and `refusals` are modules of theirs.
use crate::questions::{Question, question, stated};
use crate::random::Rng;
use crate::refusals::refusal;

/// The bytes that a text may have, and the numbers that gripcheck lends.
const LONGEST: usize = 65_536;
pub const LENT: usize = 8_192;

// ---- the text's form

/// A small number: decimal, without leading zeros, of at most nine digits.
fn small(word: &[u8]) -> Option<usize> {
    let word = std::str::from_utf8(word).ok()?;
    let number: u64 = word.parse().ok()?;
    (word.len() <= 9 && number.to_string() == word).then_some(number as usize)
}
/// A double: the 16 hexadecimal digits of its bits, either case.
fn double(word: &[u8]) -> Option<f64> {
    let fits = word.len() == 16 && word.iter().all(u8::is_ascii_hexdigit);
    let word = std::str::from_utf8(word).ok()?;
    if fits { u64::from_str_radix(word, 16).ok().map(f64::from_bits) } else { None }
}
/// The words of the line `key=..`, one space between them.
fn words<'a>(line: Option<&&'a [u8]>, key: &str) -> Option<Vec<&'a [u8]>> {
    let rest = line?.strip_prefix(key.as_bytes())?.strip_prefix(b"=")?;
    Some(rest.split(|b| *b == b' ').collect())
}
fn small_line(line: Option<&&[u8]>, key: &str) -> Option<usize> {
    let words = words(line, key)?;
    if words.len() == 1 { small(words[0]) } else { None }
}
/// The line `key=..` with exactly so many doubles.
fn doubles_line(line: Option<&&[u8]>, key: &str, many: usize) -> Option<Vec<f64>> {
    let numbers: Option<Vec<f64>> = words(line, key)?.into_iter().map(double).collect();
    numbers.filter(|l| l.len() == many)
}
/// The revision that a text names in a first line `rev=..`, or else 1, and what stands behind that line.
pub fn revision(text: &[u8]) -> Option<(usize, &[u8])> {
    if !text.starts_with(b"rev=") {
        return Some((1, text));
    }
    let end = text.iter().position(|b| *b == b'\n')?;
    Some((small(&text[4..end])?, &text[end + 1..]))
}
/// The three lines with the sizes.
pub fn sizes(text: &[u8]) -> Option<[usize; 3]> {
    let lines: Vec<&[u8]> = text.splitn(4, |b| *b == b'\n').collect();
    let sizes = [small_line(lines.first(), "dim")?, small_line(lines.get(1), "degree")?, small_line(lines.get(2), "count")?];
    (lines.len() == 4).then_some(sizes)
}
/// What stands behind the line with the revision, of these sizes and of the form. `room` numbers are lent.
fn whole(rev: usize, text: &[u8], [dim, degree, count]: [usize; 3], room: usize) -> Option<Question> {
    let mut lines: Vec<&[u8]> = text.split(|b| *b == b'\n').collect();
    if lines.pop() != Some(b"") || lines.len() != 7 + count {
        return None;
    }
    let nodes = small_line(lines.get(3), "nodes")?;
    let resolution = doubles_line(lines.get(4), "resolution", 1)?[0];
    let knots = doubles_line(lines.get(5), "knots", count + degree + 1)?;
    let points: Option<Vec<Vec<f64>>> = (6..6 + count).map(|i| doubles_line(lines.get(i), "point", 2 * (dim + 1))).collect();
    let cell = doubles_line(lines.last(), "box", 2 * dim)?;
    Some(Question { rev, dim, degree, count, knots, points: points?.concat(), cell, resolution, nodes, room })
}

// ---- refusals

/// The question that a text asks where so many numbers are lent, or the number by which the scope refuses it.
pub fn asked(text: &[u8], room: usize) -> Result<Question, u64> {
    let (rev, rest) = revision(text).ok_or(12u64)?;
    if rev != 1 && rev != 2 {
        return Err(16);
    }
    let sizes = sizes(rest).ok_or(12u64)?;
    let [dim, degree, count] = sizes;
    if dim != 2 && dim != 3 {
        return Err(1);
    } else if degree > 7 {
        return Err(2);
    } else if count < degree + 1 || count > 32 {
        return Err(3);
    }
    let q = whole(rev, rest, sizes, room).filter(|_| text.len() <= LONGEST).ok_or(12u64)?;
    match refusal(&q) {
        0 => Ok(q),
        n => Err(n),
    }
}

// ---- texts

/// Sixteen hexadecimal digits: of lower case, of upper case, or each of either.
fn hex(r: &mut Rng, style: usize, x: f64) -> String {
    let lower = format!("{:016x}", x.to_bits());
    lower.chars().map(|c| if style == 1 || style == 2 && r.one_in(2) { c.to_ascii_uppercase() } else { c }).collect()
}
fn line_of(r: &mut Rng, style: usize, key: &str, numbers: &[f64]) -> String {
    let numbers: Vec<String> = numbers.iter().map(|x| hex(r, style, *x)).collect();
    format!("{key}={}\n", numbers.join(" "))
}
/// The question as a text, with a line that names the revision or without.
pub fn written(r: &mut Rng, q: &Question, named: bool) -> Vec<u8> {
    let style = r.below(4);
    let mut text = if named { format!("rev={}\n", q.rev) } else { String::new() };
    text += &format!("dim={}\ndegree={}\ncount={}\nnodes={}\n", q.dim, q.degree, q.count, q.nodes);
    text += &line_of(r, style, "resolution", &[q.resolution]);
    text += &line_of(r, style, "knots", &q.knots);
    for point in q.points.chunks(2 * (q.dim.clamp(2, 3) + 1)) {
        text += &line_of(r, style, "point", point);
    }
    text += &line_of(r, style, "box", &q.cell);
    text.into_bytes()
}
/// The most nodes for which the program lends enough.
pub fn most_nodes(q: &Question) -> usize {
    LENT / (stated(q) / (q.nodes + 3)) - 3
}
/// A question for which the program mostly lends enough: nodes are often brought to the most that it can, or a few less or more.
fn fitting(r: &mut Rng) -> Question {
    let mut q = question(r);
    q.room = LENT;
    if q.dim > 3 || q.degree > 7 || q.count > 32 || q.nodes > 4096 {
        return q;
    }
    let (nodes, many, most) = (q.nodes, stated(&q), most_nodes(&q));
    q.nodes = match r.below(40) {
        0 => most,
        1 => most + 1,
        2 => (most + 2).saturating_sub(r.below(6)),
        3..6 => r.below(most + 1),
        _ if many > LENT && !r.one_in(12) => most - r.below(most + 1),
        _ => nodes,
    };
    q
}

fn lines_of(text: &[u8]) -> Vec<Vec<u8>> {
    text.split(|b| *b == b'\n').map(<[u8]>::to_vec).collect()
}
/// How many lines a text has before that of dim.
fn before_dim(text: &[u8]) -> usize {
    usize::from(text.starts_with(b"rev"))
}
/// The bytes of the lines up to that of count.
fn head(text: &[u8]) -> usize {
    lines_of(text).iter().take(3 + before_dim(text)).map(|l| l.len() + 1).sum::<usize>().min(text.len())
}
/// Bytes that stand in texts, or stand just beside those that do, and sometimes any byte.
fn some_byte(r: &mut Rng) -> u8 {
    if r.one_in(4) { r.next() as u8 } else { r.of(b"0123456789abcdefABCDEF =\n\r\t-+./:@G`gxdegrcountbpkiszlm\0\x80") }
}
/// Where a value begins on a random line that has some: the line's number and the place.
fn some_value(r: &mut Rng, lines: &[Vec<u8>]) -> Option<(usize, usize)> {
    let i = r.below(lines.len());
    let places: Vec<usize> = (1..lines[i].len()).filter(|&k| lines[i][k - 1] == b' ' || lines[i][k - 1] == b'=').collect();
    if places.is_empty() { None } else { Some((i, places[r.below(places.len())])) }
}
fn value_end(line: &[u8], at: usize) -> usize {
    (at..line.len()).find(|&k| line[k] == b' ').unwrap_or(line.len())
}
/// Puts another value in the place of one.
fn replace_value(r: &mut Rng, text: &mut Vec<u8>, value: &str) {
    let mut lines = lines_of(text);
    if let Some((i, at)) = some_value(r, &lines) {
        let end = value_end(&lines[i], at);
        lines[i].splice(at..end, value.bytes());
    }
    *text = lines.join(&b'\n');
}
/// Puts another number in one of the lines dim, degree, count and nodes, which are 0 to 3.
pub fn replace_small(r: &mut Rng, text: &mut Vec<u8>, i: usize, change: impl Fn(&mut Rng, String) -> String) {
    replace_in_line(r, text, before_dim(text) + i, change)
}
fn replace_in_line(r: &mut Rng, text: &mut Vec<u8>, i: usize, change: impl Fn(&mut Rng, String) -> String) {
    let mut lines = lines_of(text);
    let at = lines[i.min(lines.len() - 1)].iter().position(|b| *b == b'=');
    if let (true, Some(at)) = (i < lines.len(), at) {
        let old = String::from_utf8_lossy(&lines[i][at + 1..]).into_owned();
        let new = change(r, old);
        lines[i].splice(at + 1.., new.into_bytes());
    }
    *text = lines.join(&b'\n');
}
/// Random bytes, or bytes as they stand in texts.
fn junk(r: &mut Rng, many: usize) -> Vec<u8> {
    let (any, line) = (r.one_in(3), r.of(&[1, 7, 40, 1000]));
    (0..many).map(|_| if any { r.next() as u8 } else if r.one_in(line) { b'\n' } else { r.of(b"0123456789abcdef =") }).collect()
}
/// Sizes that are refused by 1, 2 or 3, or just not.
fn refuse_sizes(r: &mut Rng, text: &mut Vec<u8>) {
    for _ in 0..1 + r.below(2) {
        let (line, number) = r.of(&[
            (0, "0"), (0, "1"), (0, "4"), (0, "999999999"), (1, "8"), (1, "9"), (1, "10"), (1, "999999999"), (1, "7"), (2, "0"), (2, "33"), (2, "34"), (2, "32"),
            (2, "1"), (2, "999999999"),
        ]);
        replace_small(r, text, line, |_, _| number.into());
    }
}
/// Brings a text to 65,536 bytes or to about that many, with its first lines as they are, refused or damaged.
fn lengthen(r: &mut Rng, text: &mut Vec<u8>) {
    match r.below(5) {
        0 | 1 => refuse_sizes(r, text),
        2 => {
            let i = r.below(24.min(text.len().max(1)));
            if let Some(b) = text.get_mut(i) {
                *b = some_byte(r);
            }
        }
        _ => {}
    }
    let many = r.of(&[LONGEST - 1, LONGEST, LONGEST + 1, LONGEST + 2, 2 * LONGEST, 70_000]).saturating_sub(text.len());
    let more = match r.below(4) {
        0 => vec![b'\n'; many],
        1 => vec![b' '; many],
        2 => text.iter().copied().cycle().take(if text.is_empty() { 0 } else { many }).collect(),
        _ => junk(r, many),
    };
    if r.one_in(4) {
        let at = head(text);
        text.splice(at..at, more);
    } else {
        text.extend(more);
    }
}
/// The names of the ways to damage a text. The last one is about the revision.
pub const DAMAGE: [&str; 23] = [
    "byte changed", "byte dropped", "byte doubled", "byte inserted", "line dropped", "line doubled", "lines swapped", "value too few", "value too many", "leading zeros",
    "small number", "upper-case key", "no last newline", "newline more", "spaces", "CR LF", "text after the end", "about 65,536", "sizes refused", "value replaced", "cut off",
    "nodes", "revision",
];
/// Another revision, or none of the form; a line more, or the line elsewhere; with all, nothing or junk behind it.
fn spoil_revision(r: &mut Rng, text: &mut Vec<u8>) {
    if before_dim(text) == 0 {
        text.splice(0..0, *b"rev=1\n");
    }
    match r.below(8) {
        0..4 => {
            let known = r.of(&[
                "0", "3", "3", "4", "10", "12", "20", "21", "257", "258", "999999999", "1000000000", "1000000002", "4294967298", "01", "02", "00", "", " 2", "2 ", "+2", "-1", "2.0",
                "a", "1\r", "2 1",
            ]);
            let value = if r.one_in(4) { format!("{}", r.next() % 3_000_000_000) } else { known.into() };
            replace_in_line(r, text, 0, |_, _| value.clone());
        }
        4 => drop(text.splice(0..0, r.of(&[&b"rev=1\n"[..], b"rev=2\n", b"rev=3\n", b"rev\n", b"rev=", b"\n"]).to_vec())),
        5 => {
            let (mut lines, by) = (lines_of(text), r.below(4));
            let first = lines.remove(0);
            lines.insert((1 + by).min(lines.len()), first);
            *text = lines.join(&b'\n');
        }
        6 => text[..3].copy_from_slice(r.of(&[b"Rev", b"REV", b"rve", b"ref"])),
        _ => {
            let value = r.of(&["0", "3", "999999999"]);
            replace_in_line(r, text, 0, |_, _| value.into());
            let at = lines_of(text)[0].len() + 1;
            let many = r.below(300);
            match r.below(4) {
                0 => text.truncate(at),
                1 => text.truncate(at - 1),
                2 => drop(text.splice(at.min(text.len()).., junk(r, many))),
                _ => lengthen(r, text),
            }
        }
    }
}
fn damage(r: &mut Rng, text: &mut Vec<u8>, way: usize) {
    let at = r.below(text.len().max(1));
    let mut lines = lines_of(text);
    let (i, j) = (r.below(lines.len()), r.below(lines.len()));
    match way {
        0 if at < text.len() => text[at] = some_byte(r),
        1 if at < text.len() => drop(text.remove(at)),
        2 if at < text.len() => text.insert(at, text[at]),
        3 => text.insert(if r.one_in(8) { text.len() } else { at }, some_byte(r)),
        4..7 => {
            match way {
                4 => drop(lines.remove(i)),
                5 => lines.insert(i, lines[i].clone()),
                _ => lines.swap(i, j),
            }
            *text = lines.join(&b'\n');
        }
        7 | 8 => {
            if let Some((i, at)) = some_value(r, &lines) {
                let end = value_end(&lines[i], at);
                let value = lines[i][at..end].to_vec();
                let line = &mut lines[i];
                if way == 8 {
                    line.splice(end..end, [vec![b' '], value].concat());
                } else if line[at - 1] == b' ' {
                    line.drain(at - 1..end);
                } else {
                    line.drain(at..line.len().min(end + 1));
                }
            }
            *text = lines.join(&b'\n');
        }
        9 => {
            let line = r.below(5);
            replace_small(r, text, line, |r, old| format!("{}{old}", r.of(&["0", "00", "00000000", "000000000", "+", "-", "0x", " "])));
        }
        10 => {
            let line = r.below(4);
            replace_small(r, text, line, |r, old| {
                let known = r.of(&["999999999", "1000000000", "1000000002", "4294967298", "18446744073709551618", "0", "00", "", "2.0", "1e1", "a"]);
                match r.below(3) {
                    0 => format!("{:010}", r.next() % 10_000_000_000),
                    1 => format!("{}", (1u128 << r.of(&[32, 64])) + old.parse::<u128>().unwrap_or(0) % (1 << 40)),
                    _ => known.into(),
                }
            });
        }
        11 => {
            let key = lines[i].iter().position(|b| *b == b'=').unwrap_or(0);
            match r.below(3) {
                0 => lines[i][..key].make_ascii_uppercase(),
                1 => lines[i][..key.min(1)].make_ascii_uppercase(),
                _ => lines.iter_mut().for_each(|l| l.make_ascii_uppercase()),
            }
            *text = lines.join(&b'\n');
        }
        12 => drop(text.pop()),
        13 => {
            lines.insert(if r.one_in(2) { lines.len() } else { i }, Vec::new());
            *text = lines.join(&b'\n');
        }
        14 => {
            let space = r.of(b"  \t");
            let places: Vec<usize> = (0..text.len()).filter(|&k| text[k] == b' ' || text[k] == b'\n' || text[k] == b'=').collect();
            if !places.is_empty() {
                let k = places[r.below(places.len())];
                match r.below(5) {
                    0 => text[k] = space,
                    1 => text.insert(0, space),
                    2 => text.push(space),
                    n => text.insert(k + n - 3, space),
                }
            }
        }
        15 if r.one_in(2) => *text = lines.join(&b"\r\n"[..]),
        15 => {
            lines[i].push(b'\r');
            *text = lines.join(&b'\n');
        }
        16 => {
            let many = 1 + r.below(40);
            let more = match r.below(4) {
                0 => text.clone(),
                1 => vec![some_byte(r)],
                2 => lines[i].clone(),
                _ => junk(r, many),
            };
            text.extend(more);
        }
        17 => lengthen(r, text),
        18 => {
            refuse_sizes(r, text);
            let head = head(text);
            let many = r.below(300);
            match r.below(4) {
                0 => text.truncate(head),
                1 => text.truncate(head.saturating_sub(1)),
                2 => drop(text.splice(head.., junk(r, many))),
                _ => {}
            }
        }
        19 => {
            let known = r.of(&[
                "7ff0000000000000", "fff0000000000000", "7ff8000000000000", "FFF8000000000000", "7ff0000000000001", "fFfFffffffffffff", "7FF4000000000000", "4630000000000000",
                "4630000000000001", "c630000000000000", "C630000000000001", "8000000000000000", "0000000000000000", "0000000000000001", "8000000000000001", "3ff0000000000000",
                "3ff000000000000", "3ff00000000000000", "3ff000000000000g", "0x3ff00000000000", "+3ff000000000000", "", "1", "-",
            ]);
            let value = if r.one_in(4) { format!("{:016x}", r.next()) } else { known.into() };
            replace_value(r, text, &value);
        }
        20 if r.one_in(8) => text.clear(),
        20 if r.one_in(2) => {
            lines.truncate(i);
            lines.push(Vec::new());
            *text = lines.join(&b'\n');
        }
        20 => text.truncate(at),
        21 => replace_small(r, text, 3, |r, _| r.of(&["4096", "4097", "9999", "999999999", "0", "1", "2", "40", "428", "429"]).into()),
        22 => spoil_revision(r, text),
        _ => {}
    }
}
/// The revisions of a text: one that names none, or either, where half of those of revision 1 name it.
#[derive(Clone, Copy, PartialEq)]
pub enum Named {
    None,
    Either,
}
/// A text, and the way in which it was damaged first.
pub fn some_text(r: &mut Rng, revisions: Named) -> (Vec<u8>, Option<usize>) {
    let q = fitting(r);
    text_of(r, q, revisions)
}
/// The same of a question that is given; the revision is drawn.
pub fn text_of(r: &mut Rng, mut q: Question, revisions: Named) -> (Vec<u8>, Option<usize>) {
    let (mut named, mut ways) = (false, DAMAGE.len() - 1);
    if revisions == Named::Either {
        (q.rev, ways) = (1 + r.below(2), DAMAGE.len());
        named = q.rev == 2 || r.one_in(2);
    }
    let mut text = written(r, &q, named);
    if !r.one_in(3) {
        return (text, None);
    }
    let way = r.below(ways);
    // Long texts take long to make.
    let way = if way == 17 && !r.one_in(4) { 18 } else { way };
    damage(r, &mut text, way);
    if r.one_in(5) {
        let next = r.below(ways);
        damage(r, &mut text, if next == 17 { 0 } else { next });
    }
    (text, Some(way))
}
