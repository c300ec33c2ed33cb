//! Runs one period through the library, the one that docs/RULES.md prints in "The text and the program", and writes its flow sheet.
//!
//!     rustc examples/corridor.rs -L target/staticlib -l static=figwimple -o corridor-rs && ./corridor-rs

// As include/figwimple.h has it: a list is a pointer and its length.
#[rustfmt::skip]
extern "C" {
    fn figwimple_period(
        table: *const u32, table_length: usize, state: *mut u32, state_length: usize,
        demand: *const u32, demand_length: usize, sheet: *mut u32, sheet_length: usize) -> u64;
}

/// One period, or the number and the place of its refusal.
#[rustfmt::skip]
fn period(table: &[u32], state: &mut [u32], demand: &[u32], sheet: &mut [u32]) -> Result<(), (u32, u32)> {
    // SAFETY: every pointer and length come from one slice that is lent for the whole call, the mutable ones to this call alone. The
    // function takes every input, keeps no pointer, and reads and writes within the lengths: its proof says so.
    let word = unsafe {
        figwimple_period(
            table.as_ptr(), table.len(), state.as_mut_ptr(), state.len(),
            demand.as_ptr(), demand.len(), sheet.as_mut_ptr(), sheet.len())
    };
    match (word >> 32) as u32 & 255 { 0 => Ok(()), number => Err((number, word as u32)) }
}

const CELLS: usize = 2;

fn main() {
    // v, w, F, J, on-ramp number, x, c, off-ramp number, b and dropped capacity of each cell.
    let cell = [32768, 16384, 2000, 10000, 0, 0, 0, 0, 0, 2000];
    let table = [cell; CELLS].concat();
    // The entry queue, the cells' counts, the on-ramps' queues, the cells' modes in the period before; what comes to the entry and the
    // on-ramps, and to the off-ramps.
    let mut state = [500, 8000, 4000, 0, 0, 0, 0];
    let demand = [300, 0, 0, 0, 0];
    let mut sheet = [0; 4 * CELLS + 1];
    if let Err((number, place)) = period(&table, &mut state, &demand, &mut sheet) {
        eprintln!("refused with number {number} at place {place}");
        std::process::exit(1);
    }
    println!("k,i,n,f,s,r,mode");
    println!("1,0,{},{},0,0,0", state[0], sheet[0]);
    for i in 1..=CELLS {
        let [f, s, r, mode] = [sheet[i], sheet[CELLS + i], sheet[2 * CELLS + i], sheet[3 * CELLS + i]];
        println!("1,{i},{},{f},{s},{r},{mode}", state[i]);
    }
}
