//! Wickswarm for a panel in Rust: a safe module over libpanel.a (`rt lib --cpu x86-64` in crates/panel), to be copied. Slices in, an enum out; it needs
//! neither std nor an allocator. What each call promises stands in include/wickswarm.h: a refused call leaves every lent slice as it was.

pub const TEXT_MOST: usize = 65_536;
pub const NODES_MOST: usize = 1_024;
pub const ARCS_MOST: usize = 4_096;
pub const SITES_MOST: usize = 128;
pub const PANEL_K: usize = 4;

/// The entries that the work memory of a search needs, and its routes, for n nodes and k sites. The three lists need k entries each.
pub const fn work_entries(n: usize) -> usize {
    4 * n
}

pub const fn route_entries(n: usize, k: usize) -> usize {
    k * n
}

/// A refusal: the paper's number, 1 to 13, and the place (a line or an entry, from 1; 0 where there is none).
#[derive(Clone, Copy, Debug, PartialEq, Eq)]
pub struct Refusal {
    pub number: u8,
    pub place: u32,
}

/// The answer of a reader: the counts are N, and how many entries were read.
#[derive(Clone, Copy, Debug, PartialEq, Eq)]
pub enum Read {
    Refused(Refusal),
    Accepted { nodes: usize, rows: usize },
}

/// The answer of a search: how many sites are listed, and how many nodes were taken.
#[derive(Clone, Copy, Debug, PartialEq, Eq)]
pub enum Answer {
    Refused(Refusal),
    Listed { sites: usize, taken: usize },
}

/// The tables of a region, with the counts of its nodes, arcs and sites.
#[derive(Clone, Copy)]
pub struct Region<'a> {
    pub tails: &'a [u16],
    pub heads: &'a [u16],
    pub weights: &'a [u32],
    pub xs: &'a [i32],
    pub ys: &'a [i32],
    pub sites: &'a [u16],
    pub n: usize,
    pub m: usize,
    pub s: usize,
}

/// What a search is lent to work in and to answer with.
pub struct Rooms<'a> {
    pub work: &'a mut [u32],
    pub listed: &'a mut [u16],
    pub lengths: &'a mut [u32],
    pub ends: &'a mut [u16],
    pub routes: &'a mut [u16],
}

mod calls {
    extern "C" {
        pub fn wick_read_graph(
            text: *const u8, text_len: usize,
            tails: *mut u16, tails_len: usize,
            heads: *mut u16, heads_len: usize,
            weights: *mut u32, weights_len: usize,
        ) -> u64;

        pub fn wick_read_coordinates(
            text: *const u8, text_len: usize, nodes: usize,
            xs: *mut i32, xs_len: usize,
            ys: *mut i32, ys_len: usize,
        ) -> u64;

        pub fn wick_read_sites(
            text: *const u8, text_len: usize, nodes: usize,
            sites: *mut u16, sites_len: usize,
        ) -> u64;

        pub fn wick_search(
            tails: *const u16, tails_len: usize,
            heads: *const u16, heads_len: usize,
            weights: *const u32, weights_len: usize,
            xs: *const i32, xs_len: usize,
            ys: *const i32, ys_len: usize,
            sites: *const u16, sites_len: usize,
            n: usize, m: usize, s: usize, query: usize, k: usize,
            work: *mut u32, work_len: usize,
            listed: *mut u16, listed_len: usize,
            lengths: *mut u32, lengths_len: usize,
            ends: *mut u16, ends_len: usize,
            routes: *mut u16, routes_len: usize,
        ) -> u64;

        pub fn wick_panel(
            tails: *const u16, tails_len: usize,
            heads: *const u16, heads_len: usize,
            weights: *const u32, weights_len: usize,
            xs: *const i32, xs_len: usize,
            ys: *const i32, ys_len: usize,
            sites: *const u16, sites_len: usize,
            n: usize, m: usize, s: usize, query: usize,
            work: *mut u32, work_len: usize,
            listed: *mut u16, listed_len: usize,
            lengths: *mut u32, lengths_len: usize,
            ends: *mut u16, ends_len: usize,
            routes: *mut u16, routes_len: usize,
        ) -> u64;

        pub fn wick_route(
            routes: *const u16, routes_len: usize,
            ends: *const u16, ends_len: usize,
            rank: usize,
        ) -> u64;
    }
}

// The parts of an answer's number: 8 bits above two fields of 28.
fn parts(code: u64) -> (u8, u32, u32) {
    const FIELD: u64 = (1 << 28) - 1;
    ((code >> 56) as u8, (code >> 28 & FIELD) as u32, (code & FIELD) as u32)
}

fn read(code: u64) -> Read {
    match parts(code) {
        (0, nodes, rows) => Read::Accepted { nodes: nodes as usize, rows: rows as usize },
        (number, place, _) => Read::Refused(Refusal { number, place }),
    }
}

fn answer(code: u64) -> Answer {
    match parts(code) {
        (0, sites, taken) => Answer::Listed { sites: sites as usize, taken: taken as usize },
        (number, place, _) => Answer::Refused(Refusal { number, place }),
    }
}

// Why each call below is safe: the header asks for pointers to as many entries as are told, with no overlap of what is written. A slice
// is that, and two `&mut` slices never overlap. Nothing else is asked of a caller, and nothing is kept after the call.

pub fn read_graph(text: &[u8], tails: &mut [u16], heads: &mut [u16], weights: &mut [u32]) -> Read {
    read(unsafe {
        calls::wick_read_graph(
            text.as_ptr(), text.len(),
            tails.as_mut_ptr(), tails.len(),
            heads.as_mut_ptr(), heads.len(),
            weights.as_mut_ptr(), weights.len(),
        )
    })
}

pub fn read_coordinates(text: &[u8], nodes: usize, xs: &mut [i32], ys: &mut [i32]) -> Read {
    read(unsafe {
        calls::wick_read_coordinates(
            text.as_ptr(), text.len(), nodes,
            xs.as_mut_ptr(), xs.len(),
            ys.as_mut_ptr(), ys.len(),
        )
    })
}

pub fn read_sites(text: &[u8], nodes: usize, sites: &mut [u16]) -> Read {
    read(unsafe { calls::wick_read_sites(text.as_ptr(), text.len(), nodes, sites.as_mut_ptr(), sites.len()) })
}

pub fn search(region: &Region, query: usize, k: usize, rooms: &mut Rooms) -> Answer {
    answer(unsafe {
        calls::wick_search(
            region.tails.as_ptr(), region.tails.len(),
            region.heads.as_ptr(), region.heads.len(),
            region.weights.as_ptr(), region.weights.len(),
            region.xs.as_ptr(), region.xs.len(),
            region.ys.as_ptr(), region.ys.len(),
            region.sites.as_ptr(), region.sites.len(),
            region.n, region.m, region.s, query, k,
            rooms.work.as_mut_ptr(), rooms.work.len(),
            rooms.listed.as_mut_ptr(), rooms.listed.len(),
            rooms.lengths.as_mut_ptr(), rooms.lengths.len(),
            rooms.ends.as_mut_ptr(), rooms.ends.len(),
            rooms.routes.as_mut_ptr(), rooms.routes.len(),
        )
    })
}

/// The panel call: a search with k = [`PANEL_K`].
pub fn panel(region: &Region, query: usize, rooms: &mut Rooms) -> Answer {
    answer(unsafe {
        calls::wick_panel(
            region.tails.as_ptr(), region.tails.len(),
            region.heads.as_ptr(), region.heads.len(),
            region.weights.as_ptr(), region.weights.len(),
            region.xs.as_ptr(), region.xs.len(),
            region.ys.as_ptr(), region.ys.len(),
            region.sites.as_ptr(), region.sites.len(),
            region.n, region.m, region.s, query,
            rooms.work.as_mut_ptr(), rooms.work.len(),
            rooms.listed.as_mut_ptr(), rooms.listed.len(),
            rooms.lengths.as_mut_ptr(), rooms.lengths.len(),
            rooms.ends.as_mut_ptr(), rooms.ends.len(),
            rooms.routes.as_mut_ptr(), rooms.routes.len(),
        )
    })
}

/// The route of a rank: the very stretch of the lent buffer where it was written. Lend the ends that are listed.
pub fn route<'a>(routes: &'a [u16], ends: &[u16], rank: usize) -> &'a [u16] {
    let (_, offset, size) = parts(unsafe { calls::wick_route(routes.as_ptr(), routes.len(), ends.as_ptr(), ends.len(), rank) });
    &routes[offset as usize..offset as usize + size as usize]
}
