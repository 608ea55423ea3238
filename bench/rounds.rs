//! What is timed of the hand-written side: growths, sees, waits and follows of a sheet's network, so many times.

use crate::closing::Bound;
use crate::growth::Store;
use crate::reader::{Network, read_sheet};
use crate::watch::{Recording, Reply, Watch};
use std::hint::black_box;

const ENTRIES: usize = 256;

/// Reads a sheet, makes rows for the most entries, and hands all to the work; 0 where the sheet is refused.
#[inline(always)]
fn with_rows<T: Bound>(sheet: &[u8], work: impl FnOnce(&Network, &mut [T], &mut [u8]) -> u64) -> u64 {
    let mut network = Network::smallest();
    if read_sheet(sheet, &mut network).is_err() {
        return 0;
    }
    work(&network, &mut [T::at_most(0); 100 * (ENTRIES + 1)], &mut [0; 8 * ENTRIES])
}

/// Grows the start so many times, and adds up the entries.
#[inline(never)]
pub fn grows<T: Bound>(sheet: &[u8], w: u64, rounds: u32) -> u64 {
    with_rows::<T>(sheet, |network, bounds, locations| {
        let mut store = Store { bounds, locations, network };
        store.begin();
        let mut entries = 0;
        for _ in 0..rounds {
            entries += black_box(&mut store).grow(false, w as i64, 1, ENTRIES).unwrap_or(0) as u64;
        }
        entries
    })
}

/// Sees channel 0 at `w` ticks from the start so many times, and adds up the entries.
#[inline(never)]
pub fn sees<T: Bound>(sheet: &[u8], w: u64, rounds: u32) -> u64 {
    with_rows::<T>(sheet, |network, bounds, locations| {
        let mut store = Store { bounds, locations, network };
        let mut entries = 0;
        for _ in 0..rounds {
            store.begin();
            entries += black_box(&mut store).see(0, w as i64, 1, ENTRIES).unwrap_or(0) as u64;
        }
        entries
    })
}

/// Opens a watch, waits one tick so many times, and closes it: the items.
#[inline(never)]
pub fn waits<T: Bound>(sheet: &[u8], waits: u32) -> u64 {
    with_rows::<T>(sheet, |network, bounds, locations| {
        let Some(mut watch) = Watch::open(network, bounds, locations, ENTRIES) else {
            return 0;
        };
        for _ in 0..waits {
            match black_box(&mut watch).wait(network, bounds, locations, 1) {
                Reply::Going => {}
                Reply::Ended(report) => return report.2,
                Reply::Refused(_) => break,
            }
        }
        watch.close().2
    })
}

/// Opens a watch and follows the recording, so many times, and adds up the items.
#[inline(never)]
pub fn follows<T: Bound>(sheet: &[u8], recording: &[u8], rounds: u32) -> u64 {
    with_rows::<T>(sheet, |network, bounds, locations| {
        let mut items = 0;
        for _ in 0..rounds {
            let Some(watch) = Watch::open(network, bounds, locations, ENTRIES) else {
                return 0;
            };
            items += black_box(watch).follow(network, bounds, locations, Recording { bytes: recording, at: 0 }).2;
        }
        items
    })
}
