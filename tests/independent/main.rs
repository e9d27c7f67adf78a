//! The list program of paper 01, written a second time from the paper alone, by the plainest method: shortest lengths by Bellman
//! and Ford's rounds, the list by sorting, each route by its definition, the taken count by the taking rule as it is worded. It shares
//! nothing with the library, and the library's program must print the same bytes.
//!
//! rustc -O -o independent tests/independent/main.rs
//! independent [FOLDER]     prints the lists for the pack in FOLDER, or in the present folder

use std::collections::BTreeSet;
use std::io::Write;
use std::path::{Path, PathBuf};

const TEXT: usize = 65_536;
const NODES: i64 = 1_024;
const ARCS: i64 = 4_096;
const SITES: i64 = 128;
const WEIGHT: i64 = 1_000_000;
const COORDINATE: i64 = 200_000_000;
const PANEL: usize = 4;

/// A refusal's number and place.
struct Refusal(u32, usize);

// ---- lines, fields, numbers

fn lines(text: &[u8]) -> Vec<&[u8]> {
    let mut all: Vec<&[u8]> = text.split(|b| *b == b'\n').collect();
    if all.last() == Some(&&b""[..]) {
        all.pop();
    }
    all.into_iter().map(|line| line.strip_suffix(b"\r").unwrap_or(line)).collect()
}

fn fields(line: &[u8]) -> Vec<&[u8]> {
    line.split(|b| *b == b' ' || *b == b'\t').filter(|f| !f.is_empty()).collect()
}

fn number(field: &[u8]) -> Option<i64> {
    if field.is_empty() || field.len() > 9 || !field.iter().all(u8::is_ascii_digit) {
        return None;
    }
    Some(field.iter().fold(0, |value, digit| value * 10 + i64::from(digit - b'0')))
}

fn signed(field: &[u8]) -> Option<i64> {
    match field.strip_prefix(b"-") {
        Some(digits) => number(digits).map(|value| -value),
        None => number(field),
    }
}

// ---- the three texts

#[derive(Clone, Copy, PartialEq)]
enum Kind {
    Graph,
    Coordinates,
    Sites,
}

enum Said {
    Nothing,
    Problem(Vec<i64>),
    Data(Vec<i64>),
}

/// What a line says, or nothing where it is of no permitted form.
fn said(kind: Kind, line: &[u8]) -> Option<Said> {
    let fields = fields(line);
    if fields.is_empty() || fields[0] == b"c" {
        return Some(Said::Nothing);
    }
    let (problem, counts, letter): (&[&[u8]], usize, &[u8]) = match kind {
        Kind::Graph => (&[b"p", b"sp"], 2, b"a"),
        Kind::Coordinates => (&[b"p", b"aux", b"sp", b"co"], 1, b"v"),
        Kind::Sites => (&[b"p", b"aux", b"sp", b"ss"], 1, b"s"),
    };
    if fields[0] == b"p" {
        if !fields.starts_with(problem) || fields.len() != problem.len() + counts {
            return None;
        }
        let numbers: Option<Vec<i64>> = fields[problem.len()..].iter().map(|f| number(f)).collect();
        return numbers.map(Said::Problem);
    }
    if fields[0] != letter {
        return None;
    }
    let numbers: Option<Vec<i64>> = match kind {
        Kind::Graph if fields.len() == 4 => fields[1..].iter().map(|f| number(f)).collect(),
        Kind::Coordinates if fields.len() == 4 => vec![number(fields[1]), signed(fields[2]), signed(fields[3])].into_iter().collect(),
        Kind::Sites if fields.len() == 2 => fields[1..].iter().map(|f| number(f)).collect(),
        _ => None,
    };
    numbers.map(Said::Data)
}

/// N and the number of data lines to come, where the counts are within their limits.
fn counts(kind: Kind, given: i64, numbers: &[i64]) -> Option<(i64, usize)> {
    let (n, rows, most) = match kind {
        Kind::Graph => (numbers[0], numbers[1], ARCS),
        Kind::Coordinates => (numbers[0], numbers[0], NODES),
        Kind::Sites => (given, numbers[0], SITES),
    };
    let fits = (1..=NODES).contains(&n) && rows <= most && (kind == Kind::Graph || n == given);
    fits.then_some((n, rows as usize))
}

/// The number of the refusal of an entry, if there is one; earlier entries are given for repeated nodes.
fn fault(kind: Kind, n: i64, entry: &[i64], earlier: &[Vec<i64>]) -> Option<u32> {
    let nodes = if kind == Kind::Graph { &entry[..2] } else { &entry[..1] };
    if nodes.iter().any(|v| !(1..=n).contains(v)) {
        return Some(5);
    }
    if kind == Kind::Graph && !(1..=WEIGHT).contains(&entry[2]) {
        return Some(6);
    }
    if kind == Kind::Coordinates && entry[1..].iter().any(|z| z.abs() > COORDINATE) {
        return Some(6);
    }
    if kind != Kind::Graph && earlier.iter().any(|e| e[0] == entry[0]) {
        return Some(8);
    }
    None
}

/// A text read: N and the entries in the text's order. A graph text is handed no N.
fn read(kind: Kind, given: i64, text: &[u8]) -> Result<(i64, Vec<Vec<i64>>), Refusal> {
    if text.len() > TEXT {
        return Err(Refusal(1, 0));
    }
    let mut problem = None;
    let mut entries: Vec<Vec<i64>> = Vec::new();
    for (at, line) in lines(text).into_iter().enumerate() {
        let refuse = |number| Refusal(number, at + 1);
        match (said(kind, line).ok_or(refuse(2))?, problem) {
            (Said::Nothing, _) => {}
            (Said::Problem(_), Some(_)) | (Said::Data(_), None) => return Err(refuse(3)),
            (Said::Problem(numbers), None) => problem = Some(counts(kind, given, &numbers).ok_or(refuse(4))?),
            (Said::Data(entry), Some((n, rows))) => {
                if entries.len() == rows {
                    return Err(refuse(7));
                }
                if let Some(number) = fault(kind, n, &entry, &entries) {
                    return Err(refuse(number));
                }
                entries.push(entry);
            }
        }
    }
    let (n, rows) = problem.ok_or(Refusal(3, 0))?;
    if entries.len() < rows {
        return Err(Refusal(7, 0));
    }
    Ok((n, entries))
}

// ---- the search

struct Arc {
    tail: usize,
    head: usize,
    weight: u64,
}

/// Nodes are their numbers, 1 to n; entry 0 of points is not used.
struct Region {
    n: usize,
    arcs: Vec<Arc>,
    points: Vec<(i64, i64)>,
    sites: Vec<usize>,
    /// The straight line from each node to each site, in the order of the sites: the root of the squares, rounded down.
    lines: Vec<Vec<u64>>,
}

fn squares(a: (i64, i64), b: (i64, i64)) -> u64 {
    ((a.0 - b.0).pow(2) + (a.1 - b.1).pow(2)) as u64
}

/// The first arc that is shorter than the straight line. The other tests of a search have been made by the readers.
fn short_arc(region: &Region) -> Option<Refusal> {
    let short = |a: &Arc| a.weight * a.weight < squares(region.points[a.tail], region.points[a.head]);
    region.arcs.iter().position(short).map(|at| Refusal(10, at + 1))
}

/// Shortest lengths from the query; None where no walk leads.
fn shortest(region: &Region, query: usize) -> Vec<Option<u64>> {
    let mut length = vec![None; region.n + 1];
    length[query] = Some(0);
    loop {
        let mut moved = false;
        for a in &region.arcs {
            if let Some(far) = length[a.tail] {
                if length[a.head].is_none_or(|old| far + a.weight < old) {
                    length[a.head] = Some(far + a.weight);
                    moved = true;
                }
            }
        }
        if !moved {
            return length;
        }
    }
}

/// The route to a site that a walk reaches, by its definition.
fn route(region: &Region, length: &[Option<u64>], query: usize, site: usize) -> Vec<usize> {
    let mut walk = vec![site];
    let mut here = site;
    while here != query {
        let leads = |a: &&Arc| a.head == here && length[a.tail].is_some_and(|far| Some(far + a.weight) == length[here]);
        here = region.arcs.iter().filter(leads).map(|a| a.tail).min().expect("a reached node has a predecessor");
        walk.insert(0, here);
    }
    walk
}

/// The taking rule, to the count of nodes taken.
fn taken_count(region: &Region, query: usize, k: usize) -> usize {
    let mut best: Vec<Option<u64>> = vec![None; region.n + 1];
    let mut open = BTreeSet::from([query]);
    let mut taken = BTreeSet::new();
    let mut left: Vec<usize> = (0..region.sites.len()).collect();
    best[query] = Some(0);
    while region.sites.len() - left.len() < k && !left.is_empty() && !open.is_empty() {
        let total = |v: usize| best[v].unwrap() + left.iter().map(|j| region.lines[v][*j]).min().unwrap();
        let next = *open.iter().min_by_key(|v| (total(**v), region.sites.contains(v), **v)).unwrap();
        open.remove(&next);
        taken.insert(next);
        left.retain(|j| region.sites[*j] != next);
        let far = best[next].unwrap();
        for a in region.arcs.iter().filter(|a| a.tail == next && !taken.contains(&a.head)) {
            if best[a.head].is_none_or(|old| far + a.weight < old) {
                best[a.head] = Some(far + a.weight);
                open.insert(a.head);
            }
        }
    }
    taken.len()
}

/// The lines of one query.
fn answer(region: &Region, query: usize) -> String {
    let length = shortest(region, query);
    let mut reached: Vec<(u64, usize)> = region.sites.iter().filter_map(|s| length[*s].map(|far| (far, *s))).collect();
    reached.sort();
    reached.truncate(PANEL);
    let mut lines = format!("q {query} {} {}\n", reached.len(), taken_count(region, query, PANEL));
    for (rank, (far, site)) in reached.into_iter().enumerate() {
        lines += &format!("r {} {site} {far}", rank + 1);
        for v in route(region, &length, query, site) {
            lines += &format!(" {v}");
        }
        lines += "\n";
    }
    lines
}

// ---- the program

/// A file that can't be opened or read counts as an empty text.
fn text(folder: &Path, name: &str) -> Vec<u8> {
    std::fs::read(folder.join(name)).unwrap_or_default()
}

/// The region and the queries of a pack, the files read in the paper's order.
fn pack(folder: &Path) -> Result<(Region, Vec<usize>), Refusal> {
    let (n, graph) = read(Kind::Graph, 0, &text(folder, "map.gr"))?;
    let (_, coordinates) = read(Kind::Coordinates, n, &text(folder, "map.co"))?;
    let (_, sites) = read(Kind::Sites, n, &text(folder, "sites.ss"))?;
    let (_, queries) = read(Kind::Sites, n, &text(folder, "ask.ss"))?;
    let mut points = vec![(0, 0); n as usize + 1];
    for v in coordinates {
        points[v[0] as usize] = (v[1], v[2]);
    }
    let nodes = |entries: Vec<Vec<i64>>| entries.into_iter().map(|e| e[0] as usize).collect::<Vec<_>>();
    let sites = nodes(sites);
    let lines = points.iter().map(|p| sites.iter().map(|s| squares(*p, points[*s]).isqrt()).collect()).collect();
    let arcs = graph.into_iter().map(|a| Arc { tail: a[0] as usize, head: a[1] as usize, weight: a[2] as u64 }).collect();
    Ok((Region { n: n as usize, arcs, points, sites, lines }, nodes(queries)))
}

fn lists(folder: &Path, out: &mut String) -> Result<(), Refusal> {
    let (region, queries) = pack(folder)?;
    for query in queries {
        if let Some(refusal) = short_arc(&region) {
            return Err(refusal);
        }
        *out += &answer(&region, query);
    }
    Ok(())
}

fn main() {
    let folder = PathBuf::from(std::env::args_os().nth(1).unwrap_or(".".into()));
    let mut out = String::new();
    if let Err(Refusal(number, place)) = lists(&folder, &mut out) {
        out += &format!("x {number} {place}\n");
    }
    std::io::stdout().write_all(out.as_bytes()).expect("standard output can be written");
}
