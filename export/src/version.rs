//! The V8 of a code cache: the hash in the cache's header, the name of a version by its hash, and the versions that have a table here.

use crate::tables::{Manifest, VersionTable};

/// The versions with a table, by hash, in the form of jscd's own manifest.
const MANIFEST: &str = include_str!("../tables/manifest.json");

/// The tables, by the names that the manifest has for them.
const TABLES: [(&str, &str); 2] = [
    ("v10_2.json", include_str!("../tables/v10_2.json")),
    ("v11_3.json", include_str!("../tables/v11_3.json")),
];

/// A table, and the node that has its V8.
pub struct Found {
    pub table: VersionTable,
    pub node: String,
}

/// The table of the V8 with this hash. Where there is none, the message names the version and those that have one.
pub fn table_of(hash: u32) -> Result<Found, String> {
    let manifest: Manifest =
        serde_json::from_str(MANIFEST).map_err(|e| format!("tables/manifest.json: {e}"))?;
    let Some(entry) = manifest.versions.iter().find(|entry| entry.hash == hash) else {
        let here: Vec<String> =
            manifest.versions.iter().map(|e| format!("{} ({})", e.v8, e.node)).collect();
        return Err(format!(
            "{}: no table for that version; there is one for V8 {}",
            spoken(hash),
            here.join(", ")
        ));
    };
    let Some((_, text)) = TABLES.iter().find(|(name, _)| *name == entry.table) else {
        return Err(format!("tables/manifest.json names {}, which is not there", entry.table));
    };
    let table = serde_json::from_str(text).map_err(|e| format!("tables/{}: {e}", entry.table))?;
    Ok(Found { table, node: entry.node.clone() })
}

fn spoken(hash: u32) -> String {
    match named(hash) {
        Some([a, b, c, d]) => format!("V8 {a}.{b}.{c}.{d} (version hash {hash:#010x})"),
        None => format!("version hash {hash:#010x}, of no V8 from 5.0 to 15.9"),
    }
}

/// V8's `Version::Hash`: its four numbers are mixed one by one and combined, up to V8 11 from the last to the first, from V8 12 on from
/// the first to the last.
pub fn hash(version: [u32; 4]) -> u32 {
    let all = if version[0] < 12 { version.into_iter().rev().collect() } else { version.to_vec() };
    all.into_iter().fold(0, combined) as u32
}

/// V8's `hash_value` of a 32-bit number and its `hash_combine`, on 64 bits.
fn combined(seed: u64, number: u32) -> u64 {
    const FACTOR: u64 = 0xc6a4_a793_5bd1_e995;
    let mut v = (!number).wrapping_add(number << 15);
    v ^= v >> 12;
    v = v.wrapping_add(v << 2);
    v ^= v >> 4;
    v = v.wrapping_mul(2_057);
    v ^= v >> 16;
    let mut mixed = (v as u64).wrapping_mul(FACTOR);
    mixed ^= mixed >> 47;
    (seed ^ mixed.wrapping_mul(FACTOR)).wrapping_mul(FACTOR)
}

/// The version that has this hash: minor numbers go to 9, builds were below 600 and patches below 100.
fn named(hash: u32) -> Option<[u32; 4]> {
    let builds = || (0..600).flat_map(|c| (0..100).map(move |d| (c, d)));
    // From the last number to the first: what the last two give is worked out once.
    for (c, d) in builds() {
        let low = combined(combined(0, d), c);
        for b in 0..10 {
            let low = combined(low, b);
            if let Some(a) = (5..12).find(|a| combined(low, *a) as u32 == hash) {
                return Some([a, b, c, d]);
            }
        }
    }
    for (a, b) in (12..16).flat_map(|a| (0..10).map(move |b| (a, b))) {
        let high = combined(combined(0, a), b);
        let found = builds().find(|(c, d)| combined(combined(high, *c), *d) as u32 == hash);
        if let Some((c, d)) = found {
            return Some([a, b, c, d]);
        }
    }
    None
}

#[cfg(test)]
mod tests {
    use super::*;

    /// Each version of the manifest has V8's hash, and a table that says the same version.
    #[test]
    fn the_manifest() {
        let manifest: Manifest = serde_json::from_str(MANIFEST).unwrap();
        assert_eq!(manifest.versions.len(), TABLES.len());
        for entry in &manifest.versions {
            let numbers: Vec<u32> = entry.v8.split('.').map(|n| n.parse().unwrap()).collect();
            assert_eq!(hash(numbers.try_into().unwrap()), entry.hash, "{}", entry.v8);
            assert_eq!(table_of(entry.hash).ok().unwrap().table.v8, entry.v8);
        }
    }

    /// A name is found for a version of either order, and none for a number that is no version's.
    #[test]
    fn names() {
        for version in [[10, 2, 154, 26], [9, 4, 146, 24], [12, 4, 254, 21]] {
            assert_eq!(named(hash(version)), Some(version));
        }
        assert_eq!(named(0), None);
        let message = table_of(hash([10, 2, 154, 4])).err().unwrap();
        assert!(message.starts_with("V8 10.2.154.4 (version hash 0x"), "{message}");
        let rest = "no table for that version; there is one for V8 10.2.154.26 (node 18), 11.3.244.8 (node 20)";
        assert!(message.ends_with(rest), "{message}");
        let message = table_of(0).err().unwrap();
        assert!(message.starts_with("version hash 0x00000000, of no V8 from 5.0"), "{message}");
    }
}
