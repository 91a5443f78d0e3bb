//! Prints the mean outdegree of an archive, and its farthest link: links BASE
//!
//!     rustc -O links.rs -L FOLDER -l static=webgraph -o links
use std::{env, fs, process::exit};

#[repr(C)]
#[derive(Default)]
struct Params {
    nodes: u64,
    arcs: u64,
    window: u64,
    chain: u64,
    interval: u64,
    zeta_and_codes: [u32; 7],
}

#[repr(C)]
#[derive(Default)]
struct Fault {
    which_field_kind: [u32; 3],
    page_at_found_stored: [u64; 4],
}

// The pointer of an empty slice is aligned and not null, as the library wants it.
extern "C" {
    fn wg_read_properties(text: *const u8, length: usize, params: *mut Params) -> u32;
    fn wg_read_lists(
        params: *const Params, graph: *const u8, length: usize, ends: *mut u64, nodes: usize, all: *mut u64,
        arcs: usize, fault: *mut Fault,
    ) -> u32;
}

fn accept(status: u32, fault: &Fault) {
    if status != 0 {
        let (which, page) = (fault.which_field_kind[0], fault.page_at_found_stored[0]);
        eprintln!("links: status {status}, kind of fault {which}, page {page}");
        exit(status as i32);
    }
}

fn main() -> Result<(), std::io::Error> {
    let base = env::args().nth(1).unwrap_or_else(|| {
        eprintln!("links: links BASE");
        exit(2)
    });
    let (text, graph) = (fs::read(format!("{base}.properties"))?, fs::read(format!("{base}.graph"))?);
    let (mut params, mut fault) = (Params::default(), Fault::default());
    accept(unsafe { wg_read_properties(text.as_ptr(), text.len(), &mut params) }, &fault);
    let (mut ends, mut all) = (vec![0; params.nodes as usize], vec![0; params.arcs as usize]);
    let (at, to) = (ends.as_mut_ptr(), all.as_mut_ptr());
    let status = unsafe {
        wg_read_lists(&params, graph.as_ptr(), graph.len(), at, ends.len(), to, all.len(), &mut fault)
    };
    accept(status, &fault);
    let (mut begin, mut farthest) = (0, (0, 0, 0));
    for (page, &end) in (0u64..).zip(&ends) {
        for &to in &all[begin as usize..end as usize] {
            if page.abs_diff(to) > farthest.0 {
                farthest = (page.abs_diff(to), page, to);
            }
        }
        begin = end;
    }
    let mean = if params.nodes == 0 { 0.0 } else { params.arcs as f64 / params.nodes as f64 };
    println!("{mean:.3} successors a page; the farthest link is from {} to {}", farthest.1, farthest.2);
    Ok(())
}
