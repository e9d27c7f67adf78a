//! The list program over the safe module: list [FOLDER] reads map.gr, map.co, sites.ss and ask.ss there (or where it is run), puts each
//! query through the panel call, and prints its list.

#[allow(dead_code)]
mod wickswarm;

use std::io::Read as _;
use std::path::Path;
use wickswarm::{Answer, Read, Refusal, Region, Rooms, ARCS_MOST, NODES_MOST, PANEL_K, SITES_MOST, TEXT_MOST};

/// The bytes of a file, one more than a text may have at most; none where it can't be opened or read.
fn load(folder: &Path, name: &str) -> Vec<u8> {
    let mut text = Vec::new();
    match std::fs::File::open(folder.join(name)) {
        Ok(file) => match file.take(TEXT_MOST as u64 + 1).read_to_end(&mut text) {
            Ok(_) => text,
            Err(_) => Vec::new(),
        },
        Err(_) => Vec::new(),
    }
}

fn counts(answer: Read) -> Result<(usize, usize), Refusal> {
    match answer {
        Read::Refused(refusal) => Err(refusal),
        Read::Accepted { nodes, rows } => Ok((nodes, rows)),
    }
}

fn list(folder: &Path) -> Result<(), Refusal> {
    let (mut tails, mut heads, mut weights) = ([0u16; ARCS_MOST], [0u16; ARCS_MOST], [0u32; ARCS_MOST]);
    let (mut xs, mut ys) = ([0i32; NODES_MOST], [0i32; NODES_MOST]);
    let (mut sites, mut asked) = ([0u16; SITES_MOST], [0u16; SITES_MOST]);
    let (n, m) = counts(wickswarm::read_graph(&load(folder, "map.gr"), &mut tails, &mut heads, &mut weights))?;
    counts(wickswarm::read_coordinates(&load(folder, "map.co"), n, &mut xs, &mut ys))?;
    let (_, s) = counts(wickswarm::read_sites(&load(folder, "sites.ss"), n, &mut sites))?;
    let (_, queries) = counts(wickswarm::read_sites(&load(folder, "ask.ss"), n, &mut asked))?;

    let region = Region { tails: &tails, heads: &heads, weights: &weights, xs: &xs, ys: &ys, sites: &sites, n, m, s };
    let mut work = [0u32; wickswarm::work_entries(NODES_MOST)];
    let (mut listed, mut lengths, mut ends) = ([0u16; PANEL_K], [0u32; PANEL_K], [0u16; PANEL_K]);
    let mut routes = [0u16; wickswarm::route_entries(NODES_MOST, PANEL_K)];
    for &query in &asked[..queries] {
        let mut rooms = Rooms { work: &mut work, listed: &mut listed, lengths: &mut lengths, ends: &mut ends, routes: &mut routes };
        let (count, taken) = match wickswarm::panel(&region, query as usize, &mut rooms) {
            Answer::Refused(refusal) => return Err(refusal),
            Answer::Listed { sites, taken } => (sites, taken),
        };
        println!("q {query} {count} {taken}");
        for rank in 1..=count {
            print!("r {rank} {} {}", listed[rank - 1], lengths[rank - 1]);
            for node in wickswarm::route(&routes, &ends[..count], rank) {
                print!(" {node}");
            }
            println!();
        }
    }
    Ok(())
}

fn main() {
    let folder = std::env::args_os().nth(1).unwrap_or_else(|| ".".into());
    if let Err(refusal) = list(Path::new(&folder)) {
        println!("x {} {}", refusal.number, refusal.place);
    }
}
