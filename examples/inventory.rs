//! What players carry, with Rust's `std`: maps, strings and formats. `inventory.sh` compiles it.
use std::cell::RefCell;
use std::collections::BTreeMap;

const ITEMS: [&str; 6] = ["apple", "arrow", "bread", "coal", "diamond", "emerald"];

thread_local! {
    static COUNTS: RefCell<BTreeMap<&'static str, u64>> = RefCell::new(BTreeMap::new());
    static TEXT: RefCell<String> = RefCell::new(String::new());
}

/// So many more of an item; answers how many there are then. Traps where there is no such item.
#[no_mangle]
pub extern "C" fn add(item: u32, count: u64) -> u64 {
    COUNTS.with(|counts| {
        let mut counts = counts.borrow_mut();
        let held = counts.entry(ITEMS[item as usize]).or_insert(0);
        *held += count;
        *held
    })
}

/// Writes a line for each item that is held; answers how many bytes the text has.
#[no_mangle]
pub extern "C" fn list() -> u32 {
    COUNTS.with(|counts| {
        let lines: Vec<String> = counts.borrow().iter().map(|(item, count)| format!("{:>6} {}", count, item)).collect();
        TEXT.with(|text| {
            *text.borrow_mut() = lines.join("\n");
            text.borrow().len() as u32
        })
    })
}

/// Where the text stands in memory.
#[no_mangle]
pub extern "C" fn address() -> *const u8 {
    TEXT.with(|text| text.borrow().as_ptr())
}
