//! The walk of one frequency inside a cache.
//!
//! The cache's buckets are private, but the original derives `Debug` for the cache and all that it holds, so its text has
//! every slot, link and list. The walk is read from that text: the original stays unchanged, and the order of the lists of a
//! cache is compared all the same.

use crate::policy::lfu::LfuCache;

struct Entry {
    next: Option<usize>,
    last_epoch: u64,
    key: u64,
}

/// Key and epoch of each entry with the frequency, head first.
pub fn walk(cache: &LfuCache<u64, u64>, frequency: u64) -> Vec<(u64, u64)> {
    let text = format!("{cache:?}");
    let buckets = after(&text, "buckets: FrequencyBuckets {").expect("a cache has buckets");
    let slots = slots(buckets);
    let mut current = head(buckets, frequency);
    let mut entries = Vec::new();
    while let Some(slot) = current {
        let entry = slots[slot].as_ref().expect("a list holds bound slots");
        entries.push((entry.key, entry.last_epoch));
        current = entry.next;
    }
    entries
}

/// The entries in slot order, from `slots: [Some(Entry { .. }), None, ..]`.
fn slots(buckets: &str) -> Vec<Option<Entry>> {
    let mut rest = after(buckets, "slots: [").expect("an arena has slots");
    let mut slots = Vec::new();
    while !rest.starts_with(']') {
        if let Some(free) = rest.strip_prefix("None") {
            slots.push(None);
            rest = free;
        } else {
            slots.push(Some(Entry {
                next: link(rest, "next: "),
                last_epoch: number(rest, "last_epoch: "),
                key: number(rest, "key: "),
            }));
            rest = after(after(rest, "key: ").unwrap(), " })").unwrap();
        }
        rest = rest.strip_prefix(", ").unwrap_or(rest);
    }
    slots
}

/// The head of a list, from `buckets: {1: Bucket { head: .. }, ..}`; nothing when the frequency is not in use.
fn head(buckets: &str, frequency: u64) -> Option<usize> {
    let lists = after(buckets, " buckets: ").expect("the buckets have lists");
    [format!("{{{frequency}: Bucket "), format!(", {frequency}: Bucket ")]
        .iter()
        .find_map(|name| after(lists, name))
        .and_then(|list| link(list, "head: "))
}

/// A link after its name, `None` or `Some(SlotId { index: .., generation: .. })`.
fn link(text: &str, name: &str) -> Option<usize> {
    let link = after(text, name).expect("a link has its name");
    (!link.starts_with("None")).then(|| number(link, "index: ") as usize)
}

fn number(text: &str, name: &str) -> u64 {
    let digits = after(text, name).expect("a number has its name");
    let end = digits.find(|c: char| !c.is_ascii_digit()).unwrap_or(digits.len());
    digits[..end].parse().expect("a number of 64 bits")
}

fn after<'a>(text: &'a str, name: &str) -> Option<&'a str> {
    text.find(name).map(|place| &text[place + name.len()..])
}
