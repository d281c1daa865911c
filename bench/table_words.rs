//! The plain program beside the table: fills a `Vec<AtomicU64>` of the table's size, makes the same
//! sequentially consistent steps for each record (a look at the count, an addition to it, eight stores of
//! a handing out, one store that sets it aside), and copies the words out.
use std::env;
use std::sync::atomic::{AtomicU64, Ordering::SeqCst};

fn main() {
    let records: u64 = env::args().nth(1).and_then(|word| word.parse().ok()).expect("a number");
    let control = 25;
    let blank = 0u64 << 44;
    let mut words: Vec<AtomicU64> = Vec::with_capacity((control + 8 * records) as usize);
    words.resize_with((control + 8 * records) as usize, || AtomicU64::new(blank));
    words[0].store(1, SeqCst);
    words[1].store(1, SeqCst);
    let own = 1u64 << 44;
    for field in 0..8 {
        words[control as usize + field].store(own, SeqCst);
    }
    for _ in 0..records {
        if words[0].load(SeqCst) >= records {
            break;
        }
        let drawn = words[0].fetch_add(1, SeqCst);
        if drawn >= records {
            break;
        }
        let row = (control + 8 * drawn) as usize;
        for field in 0..8 {
            words[row + field].store(own, SeqCst);
        }
        words[row + 1].store(own, SeqCst);
    }
    let copy: Vec<u64> = words.iter().map(|word| word.load(SeqCst)).collect();
    println!("drawn {}", copy[0]);
}
