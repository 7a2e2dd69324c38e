//! A smaller run that still shows a difference: calls, types, parts of terms and
//! numbers are dropped for as long as it does.
use generator::Case;
use oracle::language::{kind_of, Kind, Sort, CALLS, MANY};

/// How often a run may be tried.
const TRIES: usize = 20_000;

pub fn shrunk(mut case: Case, differs: &mut dyn FnMut(&Case) -> bool) -> Case {
    let mut tries = 0;
    let mut holds = |case: &Case| {
        tries += 1;
        tries <= TRIES && differs(case)
    };
    loop {
        let before = case.clone();
        pass(&mut case, &mut holds);
        for words in [[682 * 24, 2048 * 8, 4096 * 4], [60 * 24, 200 * 8, 16]] {
            let slices = [0, 1, 2].map(|i| case.slices[i].min(words[i]));
            let small = Case { slices, bytes: case.bytes.clone() };
            if small != case && holds(&small) {
                case = small;
            }
        }
        if case == before {
            return case;
        }
    }
}

/// Tries each smaller neighbour in turn, and goes on from the first that holds.
fn pass(case: &mut Case, holds: &mut dyn FnMut(&Case) -> bool) {
    let mut at = 0;
    let mut smaller = neighbours(&case.bytes);
    while let Some(bytes) = smaller.get(at) {
        let next = Case { slices: case.slices, bytes: bytes.clone() };
        let size = |bytes: &[u8]| (bytes.len(), bytes.iter().map(|b| u64::from(*b)).sum::<u64>());
        if size(&next.bytes) < size(&case.bytes) && holds(&next) {
            *case = next;
            smaller = neighbours(&case.bytes);
        } else {
            at += 1;
        }
    }
}

fn neighbours(bytes: &[u8]) -> Vec<Vec<u8>> {
    match read(bytes) {
        Some(calls) => by_form(bytes, &calls),
        None => by_bytes(bytes),
    }
}

/// The run without a part of its bytes, larger parts first.
fn by_bytes(bytes: &[u8]) -> Vec<Vec<u8>> {
    let mut out = Vec::new();
    let mut size = bytes.len();
    while size > 0 && out.len() < 4_000 {
        for from in (0..bytes.len()).step_by(size) {
            out.push(replaced(bytes, from, (from + size).min(bytes.len()), &[]));
        }
        size /= 2;
    }
    out
}

fn replaced(bytes: &[u8], from: usize, to: usize, by: &[u8]) -> Vec<u8> {
    [&bytes[..from], by, &bytes[to..]].concat()
}

fn with(bytes: &[u8], at: usize, byte: u8) -> Vec<u8> {
    replaced(bytes, at, at + 1, &[byte])
}

/// Where a call starts and ends, where its types and terms do, and where the count of
/// its many types stands, with the place of the first among the nodes.
struct Span {
    start: usize,
    end: usize,
    context: usize,
    count: Option<(usize, usize)>,
    nodes: Vec<Node>,
}

#[derive(Clone, Copy)]
struct Node {
    start: usize,
    interval: bool,
}

/// Where each call ends, of a run that can be read.
pub fn ends(bytes: &[u8]) -> Option<Vec<usize>> {
    Some(read(bytes)?.iter().map(|call| call.end).collect())
}

fn read(bytes: &[u8]) -> Option<Vec<Span>> {
    let mut out = Vec::new();
    let mut at = 2;
    while at < bytes.len() {
        let start = at;
        let context = usize::from(*bytes.get(at + 2)?);
        let terms = CALLS.get(usize::from(bytes[at]))?;
        at += 3;
        let mut nodes = Vec::new();
        for _ in 0..context + terms {
            nodes.push(Node { start: at, interval: false });
            at = end(bytes, at, false)?;
        }
        let mut count = None;
        if bytes[start] == MANY {
            count = Some((at, nodes.len()));
            let many = *bytes.get(at)?;
            at += 1;
            for _ in 0..many {
                nodes.push(Node { start: at, interval: false });
                at = end(bytes, at, false)?;
            }
        }
        out.push(Span { start, end: at, context, count, nodes });
    }
    Some(out)
}

/// The kind that a byte names where a term, or an interval, is to be.
fn kind(byte: u8, interval: bool) -> Option<&'static Kind> {
    let sort = if interval { Sort::Interval } else { Sort::Term };
    kind_of(byte.into()).filter(|kind| kind.sort == sort)
}

/// The bytes of a node's own, and whether each of its parts is an interval.
fn own(kind: &Kind) -> usize {
    1 + usize::from(kind.is_numbered())
}

fn inner(kind: &Kind) -> impl DoubleEndedIterator<Item = bool> + use<'_> {
    let nodes = kind.parts.iter().filter(|sort| **sort != Sort::Number);
    nodes.map(|sort| *sort == Sort::Interval)
}

fn end(bytes: &[u8], at: usize, interval: bool) -> Option<usize> {
    let (mut at, mut open) = (at, vec![interval]);
    while let Some(interval) = open.pop() {
        let kind = kind(*bytes.get(at)?, interval)?;
        open.extend(inner(kind).rev());
        at += own(kind);
    }
    (at <= bytes.len()).then_some(at)
}

fn by_form(bytes: &[u8], calls: &[Span]) -> Vec<Vec<u8>> {
    let mut out = Vec::new();
    // Halves of the calls first: a long run would take too many tries else.
    let mut size = calls.len().div_ceil(2);
    while size > 1 {
        for part in calls.chunks(size) {
            out.push(replaced(bytes, part[0].start, part[part.len() - 1].end, &[]));
        }
        size /= 2;
    }
    for call in calls {
        out.push(replaced(bytes, call.start, call.end, &[]));
    }
    if calls.len() > 64 {
        return out;
    }
    for call in calls {
        let mut fewer = |nodes: &[Node], count: usize| {
            for node in nodes {
                let to = end(bytes, node.start, false).unwrap();
                let mut fewer = replaced(bytes, node.start, to, &[]);
                fewer[count] -= 1;
                out.push(fewer);
            }
        };
        fewer(&call.nodes[..call.context], call.start + 2);
        if let Some((count, first)) = call.count {
            fewer(&call.nodes[first..], count);
        }
        for node in &call.nodes {
            parts(bytes, *node, &mut out);
        }
        for byte in [0, bytes[call.start + 1].saturating_sub(1)] {
            out.push(with(bytes, call.start + 1, byte));
        }
    }
    out
}

/// A node put for one of its parts, or by a leaf, or with a smaller number; then
/// the same of its parts.
fn parts(bytes: &[u8], node: Node, out: &mut Vec<Vec<u8>>) {
    let mut open = vec![node];
    while let Some(node) = open.pop() {
        let Node { start, interval } = node;
        let to = end(bytes, start, interval).unwrap();
        let kind = kind(bytes[start], interval).unwrap();
        let leaves: &[u8] = if interval { &[16, 17] } else { &[3, 4] };
        for leaf in leaves {
            out.push(replaced(bytes, start, to, &[*leaf]));
        }
        let mut at = start + own(kind);
        for part in inner(kind) {
            let past = end(bytes, at, part).unwrap();
            if part == interval {
                out.push(replaced(bytes, start, to, &bytes[at..past]));
            }
            open.push(Node { start: at, interval: part });
            at = past;
        }
        if kind.is_numbered() {
            let number = bytes[start + 1];
            out.push(with(bytes, start + 1, 0));
            out.push(with(bytes, start + 1, number.saturating_sub(1)));
        }
    }
}
