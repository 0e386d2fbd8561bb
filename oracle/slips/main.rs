// Answers the questions in the files named by its arguments: texts one behind the other, a byte 0 behind each.
// A byte 0 stands behind each answer. A text at which the port panics has the answer `panic`, so that the others still count.
// With `--area` first, a line more says how many words of a lent work area are not left as they should be.
use std::io::Write;
use text::cursor::{Asked, Sizes};

// The question is asked once more with an area of the program's length and 64 words behind it, all of them 7: a search leaves its stated words 0, and all else stays.
fn wrong_words(question: &[u8]) -> usize {
    let mut lines = [0.0; 303];
    let Ok(Asked { rev, sizes: Sizes { dim, degree, count }, nodes }) = text::reading::read(question, &mut lines) else { return 0 };
    let (k, p) = (2 + count + degree, 2 + count + degree + 2 * (dim + 1) * count);
    let mut area = [7.0; 8192 + 64];
    let (knots, points, sides) = (&lines[1..k], &lines[k..p], &lines[p..p + 2 * dim]);
    let found = geometry::contains::curve_could_contain(rev, dim, degree, count, knots, points, sides, lines[0], nodes, &mut area[..8192]);
    let refused = matches!(found, model::contains::Found::Refused(e, _) if geometry::answers::number(e) != 11);
    let stated = if refused { 0 } else { (nodes + 3) * (2 * (dim + 1) * (count + degree + 1) + 2 * (count + 2 * degree + 2) + 1) };
    area.iter().enumerate().filter(|&(i, &x)| x != if i < stated { 0.0 } else { 7.0 }).count()
}

fn main() {
    let area = std::env::args().nth(1).as_deref() == Some("--area");
    std::panic::set_hook(Box::new(|_| {}));
    let mut all: Vec<Vec<u8>> = Vec::new();
    for name in std::env::args().skip(1 + area as usize) {
        let bytes = std::fs::read(&name).expect("a file of questions");
        let mut rest: &[u8] = &bytes;
        while !rest.is_empty() {
            let end = rest.iter().position(|&b| b == 0).unwrap_or(rest.len());
            all.push(rest[..end].to_vec());
            rest = &rest[(end + 1).min(rest.len())..];
        }
    }
    let mut out = std::io::stdout();
    for question in all {
        let answer = std::panic::catch_unwind(|| {
            let mut lines = [0u8; 192];
            let k = text::respond::respond(&question, &mut lines);
            let mut answer = lines[..k].to_vec();
            if area {
                answer.extend(format!("area={}\n", wrong_words(&question)).bytes());
            }
            answer
        });
        let lines = match answer {
            Ok(lines) => lines,
            Err(_) => b"panic\n".to_vec(),
        };
        out.write_all(&lines).expect("standard output");
        out.write_all(&[0]).expect("standard output");
        out.flush().expect("standard output");
    }
}
