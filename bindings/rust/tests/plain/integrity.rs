//! 7.3.15 SetIntegrityLevel and 7.3.16 TestIntegrityLevel.
use super::descriptor::Descriptor;
use super::methods::{Ends, Run, Stop};
use super::value::{Key, Value};

#[derive(Clone, Copy, PartialEq, Eq, Debug)]
pub enum Level {
    Sealed,
    Frozen,
}

impl Level {
    pub fn of(v: Value) -> Option<Level> {
        match v {
            Value::Integer32(0) => Some(Level::Sealed),
            Value::Integer32(1) => Some(Level::Frozen),
            _ => None,
        }
    }
}

impl Run {
    /// 7.3.8 DefinePropertyOrThrow
    fn define_property_or_throw(&mut self, o: usize, key: Key, d: &Descriptor) -> Ends<()> {
        if self.define_own_property(o, key, d)? {
            Ok(())
        } else {
            Err(Stop::TypeError(32))
        }
    }

    /// 7.3.15. The world changes as it goes.
    pub fn set_integrity_level(&mut self, o: usize, level: Level) -> Ends<bool> {
        if !self.prevent_extensions(o)? {
            return Ok(false); // 1, 2
        }
        let keys = self.own_property_keys(o)?; // 3
        let sealed = Descriptor { configurable: Some(false), ..Descriptor::default() };
        match level {
            Level::Sealed => {
                for key in keys {
                    self.define_property_or_throw(o, key, &sealed)?; // 4.a
                }
            }
            Level::Frozen => {
                for key in keys {
                    let Some(current) = self.get_own_property(o, key)? else { continue }; // 5.b.i
                    let d = if current.is_accessor() { sealed } else { Descriptor { writable: Some(false), ..sealed } };
                    self.define_property_or_throw(o, key, &d)?; // 5.b.ii
                }
            }
        }
        Ok(true) // 6
    }

    /// 7.3.16
    pub fn test_integrity_level(&mut self, o: usize, level: Level) -> Ends<bool> {
        if self.is_extensible(o)? {
            return Ok(false); // 1, 2
        }
        for key in self.own_property_keys(o)? {
            let Some(current) = self.get_own_property(o, key)? else { continue }; // 5.a
            if current.configurable == Some(true) {
                return Ok(false); // 5.b.i
            }
            if level == Level::Frozen && current.is_data() && current.writable == Some(true) {
                return Ok(false); // 5.b.ii
            }
        }
        Ok(true) // 6
    }
}
