//! The property page of an ordinary object, as text.
use super::descriptor::Descriptor;
use super::value::{Key, Value};
use super::world::{Object, World};

/// A line: the four columns with spaces on their right, one space between two, and a line feed.
fn line(key: &str, attributes: &str, first: &str, second: &str) -> String {
    format!("{key:<4} {attributes:<3} {first:<18} {second:<18}\n")
}

fn of_key(key: Key) -> String {
    match key {
        Key::String(n) => format!("s{n:03}"),
        Key::Symbol(n) => format!("y{n:03}"),
    }
}

fn of_attributes(d: &Descriptor) -> String {
    let mark = |is: Option<bool>, letter: char| if is == Some(true) { letter } else { '.' };
    let writable = if d.is_accessor() { '-' } else { mark(d.writable, 'w') };
    [mark(d.enumerable, 'e'), mark(d.configurable, 'c'), writable].iter().collect()
}

/// Nothing where there is no value.
fn of_value(v: Option<Value>) -> String {
    v.iter().flat_map(|v| v.bytes()).map(|b| format!("{b:02x}")).collect()
}

fn text(world: &World, o: usize) -> String {
    let property = |key: Key| {
        let d = world.ordinary(o).own(key).expect("an own key has a property");
        line(&of_key(key), &of_attributes(&d), &of_value(d.value.or(d.get)), &of_value(d.set))
    };
    line("key", "ecw", "value or get", "set") + &world.own_keys(o).into_iter().map(property).collect::<String>()
}

/// The page at the output's start: how many bytes it has. Else the number of the refusal, and the output stays.
pub fn page(world: &World, object: u64, output: &mut [u8]) -> Result<u64, u64> {
    let o = usize::try_from(object).map_err(|_| 2u64)?;
    if !world.is_live(object) {
        return Err(2);
    }
    let text = match world.object(o) {
        Object::Proxy { .. } => return Err(3),
        Object::Ordinary(_) => text(world, o),
    };
    output.get_mut(..text.len()).ok_or(11u64)?.copy_from_slice(text.as_bytes());
    Ok(text.len() as u64)
}
