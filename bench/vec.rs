// What the store does, as a plain Rust program over a Vec of structs.
pub const MAXIMUM: usize = 256;

#[derive(Clone, Copy, PartialEq, Eq, Debug)]
pub enum Key {
    String(u64),
    Symbol(u64),
}

#[derive(Clone, Copy)]
pub enum Value {
    Undefined,
    Integer32(i32),
    Function(u64),
}

#[derive(Clone, Copy)]
pub enum Kind {
    Data { value: Value, writable: bool },
    Accessor { get: Value, set: Value },
}

#[derive(Clone, Copy)]
pub struct Property {
    pub owner: u64,
    pub key: Key,
    pub kind: Kind,
    pub enumerable: bool,
    pub configurable: bool,
}

#[inline(never)]
pub fn find(properties: &[Property], owner: u64, key: Key) -> Option<usize> {
    properties.iter().position(|p| p.owner == owner && p.key == key)
}

#[inline(never)]
pub fn append(properties: &mut Vec<Property>, property: Property) -> bool {
    let added = properties.len() < MAXIMUM && find(properties, property.owner, property.key).is_none();
    if added {
        properties.push(property);
    }
    added
}

#[inline(never)]
pub fn remove(properties: &mut Vec<Property>, owner: u64, key: Key) {
    if let Some(i) = find(properties, owner, key) {
        properties.remove(i);
    }
}

// An array index: a decimal number up to 2^32 - 2 without a leading zero.
fn array_index(text: &[u16]) -> Option<u32> {
    if text.is_empty() || text.len() > 10 || (text[0] == 48 && text.len() > 1) {
        return None;
    }
    let mut n = 0u64;
    for unit in text {
        match unit {
            48..=57 => n = n * 10 + (unit - 48) as u64,
            _ => return None,
        }
    }
    if n < u32::MAX as u64 { Some(n as u32) } else { None }
}

// The keys, and what is kept between calls so that none allocates.
#[derive(Default)]
pub struct Listing {
    pub keys: Vec<Key>,
    indices: Vec<(u32, Key)>,
    strings: Vec<Key>,
    symbols: Vec<Key>,
}

#[inline(never)]
pub fn own_keys(properties: &[Property], strings: &[Vec<u16>], owner: u64, listing: &mut Listing) {
    listing.keys.clear();
    listing.indices.clear();
    listing.strings.clear();
    listing.symbols.clear();
    for p in properties.iter().filter(|p| p.owner == owner) {
        match p.key {
            Key::Symbol(_) => listing.symbols.push(p.key),
            Key::String(s) => match array_index(&strings[s as usize]) {
                Some(n) => listing.indices.push((n, p.key)),
                None => listing.strings.push(p.key),
            },
        }
    }
    listing.indices.sort_unstable_by_key(|(n, _)| *n);
    listing.keys.extend(listing.indices.iter().map(|(_, key)| *key));
    listing.keys.extend_from_slice(&listing.strings);
    listing.keys.extend_from_slice(&listing.symbols);
}
