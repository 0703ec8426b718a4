//! A store that owns its memory, and the calls on it.
use crate::descriptor::{Property, PropertyDescriptor};
use crate::lent::{self, ReportWords};
use crate::report::{Completion, Failure, Refusal, Report};
use crate::step::{sheet_bytes, Answer, IntegrityLevel, Step, Traps};
use crate::validation::{Validation, ValidationTest};
use crate::value::{FunctionId, ObjectId, PropertyKey, Prototype, StringId, Value};

/// How many words a store has.
pub const STORE_WORDS: usize = 1670;

/// How many 16-bit cells a table of strings has.
pub const STRING_CELLS: usize = 8449;

/// How many bytes of output hold the longest list of keys.
pub const OUTPUT_BYTES: usize = MAXIMUM_KEYS * Value::SIZE;

/// How many bytes a line of a page has, its line feed counted.
pub const PAGE_LINE_BYTES: usize = 47;

/// How many bytes hold the longest page: the names and a line for each property.
pub const PAGE_BYTES: usize = (1 + MAXIMUM_PROPERTIES) * PAGE_LINE_BYTES;

/// How many live objects a store can hold, functions and proxies included.
pub const MAXIMUM_OBJECTS: usize = 32;

/// How many properties the objects of a store can have between them.
pub const MAXIMUM_PROPERTIES: usize = 256;

/// How many strings a table can hold.
pub const MAXIMUM_STRINGS: usize = 256;

/// How many code units a string can have.
pub const MAXIMUM_UNITS: usize = 32;

/// How many answers a sheet can have.
pub const MAXIMUM_ANSWERS: usize = 64;

/// How many keys a list can have.
pub const MAXIMUM_KEYS: usize = 256;

/// How many calls of internal methods a step can make.
pub const MAXIMUM_CALLS: usize = 2048;

/// At most [`MAXIMUM_OBJECTS`] live objects with [`MAXIMUM_PROPERTIES`] properties between them, and [`MAXIMUM_STRINGS`] strings of at most
/// [`MAXIMUM_UNITS`] code units.
///
/// Two stores are equal if their memory is: the same calls from [`Store::new`] give equal stores.
///
/// ```
/// use demnyaluz::{PropertyDescriptor, Store};
///
/// let mut store = Store::new();
/// let visits = store.enter_string("visits")?;
/// let counts = store.make_object(None)?;
/// assert!(store.define_own_property(counts, visits, PropertyDescriptor::fixed(70_000), &[])?);
/// assert_eq!(store.get(counts, visits, counts, &[])?, 70_000.into());
/// assert!(!store.set(counts, visits, 4_464, counts, &[])?);
/// # Ok::<(), demnyaluz::Failure>(())
/// ```
#[derive(Clone, PartialEq, Eq, Hash)]
pub struct Store {
    words: Box<[u64]>,
    strings: Box<[u16]>,
}

impl Default for Store {
    fn default() -> Self {
        Store::new()
    }
}

impl std::fmt::Debug for Store {
    fn fmt(&self, f: &mut std::fmt::Formatter<'_>) -> std::fmt::Result {
        let (objects, properties, strings) = (self.object_count(), self.property_count(), self.string_count());
        f.debug_struct("Store").field("objects", &objects).field("properties", &properties).field("strings", &strings).finish()
    }
}

impl Store {
    /// A store with no object and no string.
    ///
    /// # Panics
    /// Where the archive that is linked has another [`STORE_WORDS`] or [`STRING_CELLS`].
    #[must_use]
    pub fn new() -> Self {
        let mut store = Store { words: vec![0; STORE_WORDS].into(), strings: vec![0; STRING_CELLS].into() };
        let made = lent::empty_store(&mut store.words) && lent::empty_strings(&mut store.strings);
        assert!(made, "the library's lengths");
        store
    }

    /// One step, whose traps, getters and setters take the answers in their order, all of them: an answer that is not read is
    /// [`Refusal::UnreadAnswers`]. Only a result changes the store, but for [`Step::SetIntegrityLevel`], of which a TypeError or a throw leaves what
    /// was changed before it.
    ///
    /// ```
    /// use demnyaluz::{Answer, Step, Store, Traps};
    ///
    /// let mut store = Store::new();
    /// let object = store.make_object(None)?;
    /// let proxy = store.make_proxy(object, Traps::IS_EXTENSIBLE)?;
    /// let report = store.step(&Step::IsExtensible { object: proxy }, &[Answer::Value(true.into())]);
    /// assert_eq!(report.to_string(), "true (1 answer, 2 calls)");
    /// # Ok::<(), demnyaluz::Failure>(())
    /// ```
    pub fn step(&mut self, step: &Step, answers: &[Answer]) -> Report {
        self.step_bytes(&step.to_bytes(), &sheet_bytes(answers), &mut [0; OUTPUT_BYTES])
    }

    /// One step as bytes. Keys are written to the output, [`Value::SIZE`] bytes each.
    ///
    /// ```
    /// use demnyaluz::{Step, Store};
    ///
    /// let mut store = Store::new();
    /// let step = Step::MakeObject { prototype: None }.to_bytes();
    /// assert_eq!(store.step_bytes(&step, &[0], &mut []).to_string(), "o0 (0 answers, 0 calls)");
    /// assert_eq!(store.step_bytes(&step[1..], &[0], &mut []).to_string(), "refused 1: a record is malformed");
    /// ```
    pub fn step_bytes(&mut self, step: &[u8], sheet: &[u8], output: &mut [u8]) -> Report {
        let words = lent::step(&mut self.words, &self.strings, step, sheet, output);
        Report::of_library(words, output)
    }

    /// A string is entered; an equal one keeps its number.
    ///
    /// # Errors
    /// [`Refusal::UnusablePart`] for a string of more than [`MAXIMUM_UNITS`] code units, and [`Refusal::StoreFull`].
    ///
    /// ```
    /// use demnyaluz::Store;
    ///
    /// let mut store = Store::new();
    /// let visits = store.enter_string("visits")?;
    /// assert_eq!(store.enter_string("visits")?, visits);
    /// assert_eq!(store.string(visits).as_deref(), Some("visits"));
    /// # Ok::<(), demnyaluz::Refusal>(())
    /// ```
    pub fn enter_string(&mut self, text: &str) -> Result<StringId, Refusal> {
        self.enter_units(&text.encode_utf16().collect::<Vec<u16>>())
    }

    /// A string is entered as its code units; an equal one keeps its number.
    ///
    /// # Errors
    /// As by [`Store::enter_string`].
    ///
    /// ```
    /// use demnyaluz::Store;
    ///
    /// let mut store = Store::new();
    /// let lone = store.enter_units(&[0xd800])?;
    /// assert_eq!(store.string_units(lone), Some(&[0xd800][..]));
    /// # Ok::<(), demnyaluz::Refusal>(())
    /// ```
    pub fn enter_units(&mut self, units: &[u16]) -> Result<StringId, Refusal> {
        let words = lent::enter_string(&mut self.strings, units);
        match Report::of_library(words, &[]).outcome {
            Ok(Completion::Value(Value::String(s))) => Ok(s),
            Err(Failure::Refused(r)) => Err(r),
            other => panic!("no string: {other:?}"),
        }
    }

    /// The code units of a string that was entered.
    #[must_use]
    pub fn string_units(&self, s: StringId) -> Option<&[u16]> {
        if u16::from(s.0) >= self.strings[0] {
            return None;
        }
        // a length before the code units
        let row = self.strings[1..].chunks_exact(1 + MAXIMUM_UNITS).nth(s.0.into())?;
        Some(&row[1..1 + usize::from(row[0])])
    }

    /// The text of a string that was entered; lone surrogates are replaced.
    #[must_use]
    pub fn string(&self, s: StringId) -> Option<String> {
        self.string_units(s).map(String::from_utf16_lossy)
    }

    /// How many objects there are, functions and proxies included: those made, without those released.
    #[must_use]
    pub fn object_count(&self) -> usize {
        // a bit for each live object
        self.words[3].count_ones() as usize
    }

    /// How many properties there are.
    #[must_use]
    pub fn property_count(&self) -> usize {
        self.words[1] as usize
    }

    /// How many strings were entered.
    #[must_use]
    pub fn string_count(&self) -> usize {
        self.strings[0].into()
    }

    /// The store's words: `include/demnyaluz.h` has the layout, which later versions may change.
    #[must_use]
    pub fn words(&self) -> &[u64] {
        &self.words
    }

    /// Makes an ordinary object; no prototype is null.
    ///
    /// # Errors
    /// A refusal.
    ///
    /// ```
    /// use demnyaluz::Store;
    ///
    /// let mut store = Store::new();
    /// let parent = store.make_object(None)?;
    /// let child = store.make_object(Some(parent.into()))?;
    /// assert_eq!(store.get_prototype_of(child, &[])?, Some(parent.into()));
    /// # Ok::<(), demnyaluz::Failure>(())
    /// ```
    pub fn make_object(&mut self, prototype: Option<Prototype>) -> Result<ObjectId, Failure> {
        self.step(&Step::MakeObject { prototype }, &[]).into_object()
    }

    /// Makes a function: an ordinary object that can be called; no prototype is null. It has no code: where it is called, as a getter or as a
    /// setter, the call takes the next answer.
    ///
    /// # Errors
    /// A refusal.
    ///
    /// ```
    /// use demnyaluz::{Answer, PropertyDescriptor, Store, SymbolId};
    ///
    /// let mut store = Store::new();
    /// let function = store.make_function(None)?;
    /// let object = store.make_object(Some(function.into()))?;
    /// // it has properties, as any object has
    /// assert!(store.set(function, SymbolId(0), 70_000, function, &[])?);
    /// assert_eq!(store.get(object, SymbolId(0), object, &[])?, 70_000.into());
    /// // and it is called
    /// let getter = PropertyDescriptor { get: Some(function.into()), ..PropertyDescriptor::default() };
    /// assert!(store.define_own_property(object, SymbolId(1), getter, &[])?);
    /// assert_eq!(store.get(object, SymbolId(1), object, &[Answer::Value(4_464.into())])?, 4_464.into());
    /// # Ok::<(), demnyaluz::Failure>(())
    /// ```
    pub fn make_function(&mut self, prototype: Option<Prototype>) -> Result<FunctionId, Failure> {
        self.step(&Step::MakeFunction { prototype }, &[]).into_function()
    }

    /// Makes a proxy.
    ///
    /// # Errors
    /// A refusal: [`Refusal::UnusablePart`] where the target is a function.
    ///
    /// ```
    /// use demnyaluz::{Answer, Store, Traps};
    ///
    /// let mut store = Store::new();
    /// let target = store.make_object(None)?;
    /// let proxy = store.make_proxy(target, Traps::HAS | Traps::GET)?;
    /// let key = store.enter_string("visits")?;
    /// assert!(store.has_property(proxy, key, &[Answer::Value(true.into())])?);
    /// # Ok::<(), demnyaluz::Failure>(())
    /// ```
    pub fn make_proxy(&mut self, target: impl Into<ObjectId>, traps: Traps) -> Result<ObjectId, Failure> {
        self.step(&Step::MakeProxy { target: target.into(), traps }, &[]).into_object()
    }

    /// Revokes a proxy; again is harmless.
    ///
    /// # Errors
    /// A refusal.
    ///
    /// ```
    /// use demnyaluz::{Failure, Message, Store, Traps};
    ///
    /// let mut store = Store::new();
    /// let target = store.make_object(None)?;
    /// let proxy = store.make_proxy(target, Traps::NONE)?;
    /// store.revoke(proxy)?;
    /// assert_eq!(store.is_extensible(proxy, &[]), Err(Failure::TypeError(Message::RevokedProxy)));
    /// # Ok::<(), Failure>(())
    /// ```
    pub fn revoke(&mut self, proxy: impl Into<ObjectId>) -> Result<(), Failure> {
        self.step(&Step::Revoke { proxy: proxy.into() }, &[]).into_boolean().map(|_| ())
    }

    /// Releases an object, a function or a proxy that no object names, and with it its properties. Its number counts as never made from then on. The
    /// next object made takes the number that was released longest ago or, with none released, the next unused one.
    ///
    /// # Errors
    /// A refusal: [`Refusal::StillNamed`] where a live object, itself included, has it as its prototype, as the value, getter or setter of a property
    /// or, where that is a proxy that is not revoked, as its target.
    ///
    /// ```
    /// use demnyaluz::{Failure, Refusal, Store, Traps};
    ///
    /// let mut store = Store::new();
    /// let (exhibit, other) = (store.make_object(None)?, store.make_object(None)?);
    /// let proxy = store.make_proxy(exhibit, Traps::NONE)?;
    /// assert_eq!(store.release(exhibit), Err(Failure::Refused(Refusal::StillNamed)));
    /// // a revoked proxy names nothing
    /// store.revoke(proxy)?;
    /// store.release(exhibit)?;
    /// assert_eq!(store.is_extensible(exhibit, &[]), Err(Failure::Refused(Refusal::ObjectNeverMade)));
    /// store.release(other)?;
    /// // the numbers are taken again, in the order in which they were released
    /// let next = [store.make_object(None)?, store.make_object(None)?, store.make_object(None)?];
    /// assert_eq!(next.map(|o| o.0), [exhibit.0, other.0, 3]);
    /// # Ok::<(), demnyaluz::Failure>(())
    /// ```
    pub fn release(&mut self, object: impl Into<ObjectId>) -> Result<(), Failure> {
        self.step(&Step::Release { object: object.into() }, &[]).into_boolean().map(|_| ())
    }

    /// \[\[GetPrototypeOf]]; none is null.
    ///
    /// # Errors
    /// A refusal, a TypeError or a thrown value.
    ///
    /// ```
    /// use demnyaluz::{Answer, Store, Traps};
    ///
    /// let mut store = Store::new();
    /// let object = store.make_object(None)?;
    /// assert_eq!(store.get_prototype_of(object, &[])?, None);
    /// let proxy = store.make_proxy(object, Traps::GET_PROTOTYPE_OF)?;
    /// assert_eq!(store.get_prototype_of(proxy, &[Answer::Value(object.into())])?, Some(object.into()));
    /// # Ok::<(), demnyaluz::Failure>(())
    /// ```
    pub fn get_prototype_of(&mut self, object: impl Into<ObjectId>, answers: &[Answer]) -> Result<Option<Prototype>, Failure> {
        self.step(&Step::GetPrototypeOf { object: object.into() }, answers).into_prototype()
    }

    /// \[\[SetPrototypeOf]]; none is null.
    ///
    /// # Errors
    /// A refusal, a TypeError or a thrown value.
    ///
    /// ```
    /// use demnyaluz::Store;
    ///
    /// let mut store = Store::new();
    /// let (first, second) = (store.make_object(None)?, store.make_object(None)?);
    /// assert!(store.set_prototype_of(first, Some(second.into()), &[])?);
    /// // no cycles
    /// assert!(!store.set_prototype_of(second, Some(first.into()), &[])?);
    /// # Ok::<(), demnyaluz::Failure>(())
    /// ```
    pub fn set_prototype_of(&mut self, object: impl Into<ObjectId>, prototype: Option<Prototype>, answers: &[Answer]) -> Result<bool, Failure> {
        self.step(&Step::SetPrototypeOf { object: object.into(), prototype }, answers).into_boolean()
    }

    /// \[\[IsExtensible]]
    ///
    /// # Errors
    /// A refusal, a TypeError or a thrown value.
    ///
    /// ```
    /// use demnyaluz::{Answer, Failure, Message, Store, Traps};
    ///
    /// let mut store = Store::new();
    /// let object = store.make_object(None)?;
    /// let proxy = store.make_proxy(object, Traps::IS_EXTENSIBLE)?;
    /// // the trap may not deny it
    /// let told = store.is_extensible(proxy, &[Answer::Value(false.into())]);
    /// assert_eq!(told, Err(Failure::TypeError(Message::UnexpectedExtensible)));
    /// # Ok::<(), demnyaluz::Failure>(())
    /// ```
    pub fn is_extensible(&mut self, object: impl Into<ObjectId>, answers: &[Answer]) -> Result<bool, Failure> {
        self.step(&Step::IsExtensible { object: object.into() }, answers).into_boolean()
    }

    /// \[\[PreventExtensions]]
    ///
    /// # Errors
    /// A refusal, a TypeError or a thrown value.
    ///
    /// ```
    /// use demnyaluz::{Store, SymbolId};
    ///
    /// let mut store = Store::new();
    /// let object = store.make_object(None)?;
    /// assert!(store.prevent_extensions(object, &[])?);
    /// assert!(!store.is_extensible(object, &[])?);
    /// assert!(!store.set(object, SymbolId(0), 1, object, &[])?);
    /// # Ok::<(), demnyaluz::Failure>(())
    /// ```
    pub fn prevent_extensions(&mut self, object: impl Into<ObjectId>, answers: &[Answer]) -> Result<bool, Failure> {
        self.step(&Step::PreventExtensions { object: object.into() }, answers).into_boolean()
    }

    /// \[\[GetOwnProperty]]; none is absent.
    ///
    /// # Errors
    /// A refusal, a TypeError or a thrown value.
    ///
    /// ```
    /// use demnyaluz::{Property, Store, SymbolId};
    ///
    /// let mut store = Store::new();
    /// let object = store.make_object(None)?;
    /// assert!(store.set(object, SymbolId(0), 5, object, &[])?);
    /// let plain = Property::Data { value: 5.into(), writable: true, enumerable: true, configurable: true };
    /// assert_eq!(store.get_own_property(object, SymbolId(0), &[])?, Some(plain));
    /// assert_eq!(store.get_own_property(object, SymbolId(1), &[])?, None);
    /// # Ok::<(), demnyaluz::Failure>(())
    /// ```
    pub fn get_own_property(
        &mut self,
        object: impl Into<ObjectId>,
        key: impl Into<PropertyKey>,
        answers: &[Answer],
    ) -> Result<Option<Property>, Failure> {
        self.step(&Step::GetOwnProperty { object: object.into(), key: key.into() }, answers).into_property()
    }

    /// \[\[DefineOwnProperty]]; where it rejects the descriptor, [`Store::failed_test`] says by which test.
    ///
    /// # Errors
    /// A refusal, a TypeError or a thrown value.
    ///
    /// ```
    /// use demnyaluz::{PropertyDescriptor, Store, SymbolId};
    ///
    /// let mut store = Store::new();
    /// let object = store.make_object(None)?;
    /// assert!(store.define_own_property(object, SymbolId(0), PropertyDescriptor::fixed(70_000), &[])?);
    /// assert!(!store.define_own_property(object, SymbolId(0), PropertyDescriptor::fixed(4_464), &[])?);
    /// # Ok::<(), demnyaluz::Failure>(())
    /// ```
    pub fn define_own_property(
        &mut self,
        object: impl Into<ObjectId>,
        key: impl Into<PropertyKey>,
        descriptor: PropertyDescriptor,
        answers: &[Answer],
    ) -> Result<bool, Failure> {
        self.step(&Step::DefineOwnProperty { object: object.into(), key: key.into(), descriptor }, answers).into_boolean()
    }

    /// \[\[HasProperty]]
    ///
    /// # Errors
    /// A refusal, a TypeError or a thrown value.
    ///
    /// ```
    /// use demnyaluz::{Store, SymbolId};
    ///
    /// let mut store = Store::new();
    /// let parent = store.make_object(None)?;
    /// let child = store.make_object(Some(parent.into()))?;
    /// assert!(store.set(parent, SymbolId(0), 5, parent, &[])?);
    /// assert!(store.has_property(child, SymbolId(0), &[])?);
    /// # Ok::<(), demnyaluz::Failure>(())
    /// ```
    pub fn has_property(&mut self, object: impl Into<ObjectId>, key: impl Into<PropertyKey>, answers: &[Answer]) -> Result<bool, Failure> {
        self.step(&Step::HasProperty { object: object.into(), key: key.into() }, answers).into_boolean()
    }

    /// \[\[Get]]
    ///
    /// # Errors
    /// A refusal, a TypeError or a thrown value.
    ///
    /// ```
    /// use demnyaluz::{Answer, PropertyDescriptor, Store, SymbolId};
    ///
    /// let mut store = Store::new();
    /// let (object, getter) = (store.make_object(None)?, store.make_function(None)?);
    /// let accessor = PropertyDescriptor { get: Some(getter.into()), ..PropertyDescriptor::default() };
    /// assert!(store.define_own_property(object, SymbolId(0), accessor, &[])?);
    /// // the getter takes the answer
    /// assert_eq!(store.get(object, SymbolId(0), object, &[Answer::Value(12.5.into())])?, 12.5.into());
    /// # Ok::<(), demnyaluz::Failure>(())
    /// ```
    pub fn get(
        &mut self,
        object: impl Into<ObjectId>,
        key: impl Into<PropertyKey>,
        receiver: impl Into<Value>,
        answers: &[Answer],
    ) -> Result<Value, Failure> {
        self.step(&Step::Get { object: object.into(), key: key.into(), receiver: receiver.into() }, answers).into_value()
    }

    /// \[\[Set]]
    ///
    /// # Errors
    /// A refusal, a TypeError or a thrown value.
    ///
    /// ```
    /// use demnyaluz::{Store, SymbolId};
    ///
    /// let mut store = Store::new();
    /// let parent = store.make_object(None)?;
    /// let child = store.make_object(Some(parent.into()))?;
    /// // the receiver gets the property
    /// assert!(store.set(parent, SymbolId(0), 5, child, &[])?);
    /// assert_eq!(store.own_property_keys(child, &[])?, [SymbolId(0).into()]);
    /// # Ok::<(), demnyaluz::Failure>(())
    /// ```
    pub fn set(
        &mut self,
        object: impl Into<ObjectId>,
        key: impl Into<PropertyKey>,
        value: impl Into<Value>,
        receiver: impl Into<Value>,
        answers: &[Answer],
    ) -> Result<bool, Failure> {
        self.step(&Step::Set { object: object.into(), key: key.into(), value: value.into(), receiver: receiver.into() }, answers).into_boolean()
    }

    /// \[\[Delete]]
    ///
    /// # Errors
    /// A refusal, a TypeError or a thrown value.
    ///
    /// ```
    /// use demnyaluz::{PropertyDescriptor, Store, SymbolId};
    ///
    /// let mut store = Store::new();
    /// let object = store.make_object(None)?;
    /// assert!(store.define_own_property(object, SymbolId(0), PropertyDescriptor::fixed(70_000), &[])?);
    /// assert!(!store.delete(object, SymbolId(0), &[])?);
    /// assert!(store.delete(object, SymbolId(1), &[])?);
    /// # Ok::<(), demnyaluz::Failure>(())
    /// ```
    pub fn delete(&mut self, object: impl Into<ObjectId>, key: impl Into<PropertyKey>, answers: &[Answer]) -> Result<bool, Failure> {
        self.step(&Step::Delete { object: object.into(), key: key.into() }, answers).into_boolean()
    }

    /// \[\[OwnPropertyKeys]]: array indices first, then the other strings, then symbols.
    ///
    /// # Errors
    /// A refusal, a TypeError or a thrown value.
    ///
    /// ```
    /// use demnyaluz::{PropertyKey, Store, SymbolId};
    ///
    /// let mut store = Store::new();
    /// let object = store.make_object(None)?;
    /// let keys: [PropertyKey; 3] = [store.enter_string("10")?.into(), store.enter_string("visits")?.into(), SymbolId(3).into()];
    /// for key in keys.into_iter().rev() {
    ///     assert!(store.set(object, key, 1, object, &[])?);
    /// }
    /// assert_eq!(store.own_property_keys(object, &[])?, keys);
    /// # Ok::<(), demnyaluz::Failure>(())
    /// ```
    pub fn own_property_keys(&mut self, object: impl Into<ObjectId>, answers: &[Answer]) -> Result<Vec<PropertyKey>, Failure> {
        self.step(&Step::OwnPropertyKeys { object: object.into() }, answers).into_keys()
    }

    /// Object.freeze: SetIntegrityLevel with the level frozen. The object is made non-extensible, and each of its own keys is defined anew, not
    /// configurable and, where it is data, not writable. False is the answer of \[\[PreventExtensions]].
    ///
    /// # Errors
    /// A refusal, a TypeError or a thrown value. A definition that is answered with false is [`Message::DefinitionRejected`](crate::Message).
    /// After a TypeError or a throw the store keeps what was changed before it; a refusal brings back the store from before.
    ///
    /// ```
    /// use demnyaluz::{Answer, Failure, Message, Property, Store, SymbolId, Traps};
    ///
    /// let mut store = Store::new();
    /// let object = store.make_object(None)?;
    /// assert!(store.set(object, SymbolId(0), 5, object, &[])?);
    /// assert!(store.set(object, SymbolId(1), 6, object, &[])?);
    /// let proxy = store.make_proxy(object, Traps::PREVENT_EXTENSIONS | Traps::DEFINE_PROPERTY)?;
    ///
    /// // the handler may not claim what is not so, and refusing it ends the freezing
    /// let told = store.freeze(proxy, &[Answer::Value(true.into())]);
    /// assert_eq!(told, Err(Failure::TypeError(Message::StillExtensible)));
    /// assert!(store.prevent_extensions(object, &[])?);
    /// let told = store.freeze(proxy, &[Answer::Value(true.into()), Answer::Value(false.into())]);
    /// assert_eq!(told, Err(Failure::TypeError(Message::DefinitionRejected)));
    ///
    /// assert!(store.freeze(object, &[])?);
    /// let fixed = Property::Data { value: 5.into(), writable: false, enumerable: true, configurable: false };
    /// assert_eq!(store.get_own_property(object, SymbolId(0), &[])?, Some(fixed));
    /// assert!(!store.set(object, SymbolId(1), 7, object, &[])?);
    /// # Ok::<(), demnyaluz::Failure>(())
    /// ```
    pub fn freeze(&mut self, object: impl Into<ObjectId>, answers: &[Answer]) -> Result<bool, Failure> {
        self.step(&Step::SetIntegrityLevel { object: object.into(), level: IntegrityLevel::Frozen }, answers).into_boolean()
    }

    /// Object.seal: SetIntegrityLevel with the level sealed. The object is made non-extensible, and each of its own keys is defined anew, not
    /// configurable. False is the answer of \[\[PreventExtensions]].
    ///
    /// # Errors
    /// As by [`Store::freeze`], and with the same store after them.
    ///
    /// ```
    /// use demnyaluz::{Store, SymbolId};
    ///
    /// let mut store = Store::new();
    /// let object = store.make_object(None)?;
    /// assert!(store.set(object, SymbolId(0), 5, object, &[])?);
    /// assert!(store.seal(object, &[])?);
    /// assert!(!store.delete(object, SymbolId(0), &[])?);
    /// assert!(!store.set(object, SymbolId(1), 5, object, &[])?);
    /// assert!(store.set(object, SymbolId(0), 6, object, &[])?);
    /// # Ok::<(), demnyaluz::Failure>(())
    /// ```
    pub fn seal(&mut self, object: impl Into<ObjectId>, answers: &[Answer]) -> Result<bool, Failure> {
        self.step(&Step::SetIntegrityLevel { object: object.into(), level: IntegrityLevel::Sealed }, answers).into_boolean()
    }

    /// Object.isFrozen: TestIntegrityLevel with the level frozen. Whether the object is not extensible, no own property configurable and no own
    /// data writable.
    ///
    /// # Errors
    /// A refusal, a TypeError or a thrown value.
    ///
    /// ```
    /// use demnyaluz::{Store, SymbolId};
    ///
    /// let mut store = Store::new();
    /// let object = store.make_object(None)?;
    /// assert!(!store.is_frozen(object, &[])?);
    /// // nothing is left to freeze
    /// assert!(store.prevent_extensions(object, &[])?);
    /// assert!(store.is_frozen(object, &[])?);
    /// # Ok::<(), demnyaluz::Failure>(())
    /// ```
    pub fn is_frozen(&mut self, object: impl Into<ObjectId>, answers: &[Answer]) -> Result<bool, Failure> {
        self.step(&Step::TestIntegrityLevel { object: object.into(), level: IntegrityLevel::Frozen }, answers).into_boolean()
    }

    /// Object.isSealed: TestIntegrityLevel with the level sealed. Whether the object is not extensible and no own property configurable.
    ///
    /// # Errors
    /// A refusal, a TypeError or a thrown value.
    ///
    /// ```
    /// use demnyaluz::{Store, SymbolId};
    ///
    /// let mut store = Store::new();
    /// let object = store.make_object(None)?;
    /// assert!(store.set(object, SymbolId(0), 5, object, &[])?);
    /// assert!(store.seal(object, &[])?);
    /// assert!(store.is_sealed(object, &[])?);
    /// assert!(!store.is_frozen(object, &[])?);
    /// # Ok::<(), demnyaluz::Failure>(())
    /// ```
    pub fn is_sealed(&mut self, object: impl Into<ObjectId>, answers: &[Answer]) -> Result<bool, Failure> {
        self.step(&Step::TestIntegrityLevel { object: object.into(), level: IntegrityLevel::Sealed }, answers).into_boolean()
    }

    /// The property page of an ordinary object or a function: a line of the columns' names, then a line for each own property, in the order of
    /// [`Store::own_property_keys`]. Every line has 46 characters and a line feed: four columns, one space between two.
    /// - `key`, 4: `s` for a string or `y` for a symbol, and its number in three decimal digits;
    /// - `ecw`, 3: `e`, `c` and `w` where the property is enumerable, configurable and writable, else a dot; a dash as an accessor's writable;
    /// - `value or get`, 18: [the bytes](Value::to_bytes) of the value or of the getter in lowercase hexadecimal;
    /// - `set`, 18: those of the setter, or spaces for data.
    ///
    /// # Errors
    /// [`Refusal::ObjectNeverMade`], and [`Refusal::UnusablePart`] for a proxy.
    ///
    /// ```
    /// use demnyaluz::{PropertyDescriptor, Store, SymbolId};
    ///
    /// let mut store = Store::new();
    /// let visits = store.enter_string("visits")?;
    /// let (counts, reader) = (store.make_object(None)?, store.make_function(None)?);
    /// let read = PropertyDescriptor { get: Some(reader.into()), configurable: Some(true), ..PropertyDescriptor::default() };
    /// assert!(store.define_own_property(counts, SymbolId(12), read, &[])?);
    /// assert!(store.define_own_property(counts, visits, PropertyDescriptor::fixed(70_000), &[])?);
    /// let page = [
    ///     "key  ecw value or get       set               \n",
    ///     "s000 e.. 037011010000000000                   \n",
    ///     "y012 .c- 080100000000000000 000000000000000000\n",
    /// ];
    /// assert_eq!(store.page(counts)?, page.concat());
    /// assert_eq!(store.page(reader)?, page[0]);
    /// # Ok::<(), demnyaluz::Failure>(())
    /// ```
    pub fn page(&self, object: impl Into<ObjectId>) -> Result<String, Refusal> {
        let mut page = vec![0; PAGE_BYTES];
        let length = lent::page(&self.words, &self.strings, object.into().0.into(), &mut page)?;
        page.truncate(length);
        Ok(String::from_utf8(page).expect("a page is ASCII"))
    }

    /// CompletePropertyDescriptor by itself. The store says which objects, functions and strings there are.
    ///
    /// # Errors
    /// [`Refusal::ObjectNeverMade`], [`Refusal::UnusablePart`] and [`Refusal::UnusableDescriptor`].
    ///
    /// ```
    /// use demnyaluz::{PropertyDescriptor, Store};
    ///
    /// let complete = Store::new().complete(&PropertyDescriptor { value: Some(1.into()), ..PropertyDescriptor::default() })?;
    /// assert_eq!(PropertyDescriptor::from(complete), PropertyDescriptor::data(1, false, false, false));
    /// # Ok::<(), demnyaluz::Refusal>(())
    /// ```
    pub fn complete(&self, descriptor: &PropertyDescriptor) -> Result<Property, Refusal> {
        present(lent::complete(&self.words, &self.strings, &descriptor.to_bytes()))
    }

    /// ValidateAndApplyPropertyDescriptor by itself: whether it accepts, else the first test that fails, and the property after it. No current
    /// descriptor is an absent property.
    ///
    /// # Errors
    /// Those of [`Store::complete`], and [`Refusal::IncompleteCurrent`].
    ///
    /// ```
    /// use demnyaluz::{PropertyDescriptor, Store, ValidationTest};
    ///
    /// let current = PropertyDescriptor::fixed(70_000);
    /// let told = Store::new().validate(true, &PropertyDescriptor::fixed(4_464), Some(&current))?;
    /// assert!(!told.accepted);
    /// assert_eq!(told.failed, Some(ValidationTest::Value));
    /// assert_eq!(told.property.map(PropertyDescriptor::from), Some(current));
    /// # Ok::<(), demnyaluz::Refusal>(())
    /// ```
    pub fn validate(&self, extensible: bool, descriptor: &PropertyDescriptor, current: Option<&PropertyDescriptor>) -> Result<Validation, Refusal> {
        let current = current.map(PropertyDescriptor::to_bytes);
        let current = current.as_ref().map_or(&[][..], |c| c);
        let told = lent::validate(&self.words, &self.strings, extensible, &descriptor.to_bytes(), current);
        Ok(Validation { accepted: told.accepted, failed: ValidationTest::from_number(told.test), property: refused_or(told.report)? })
    }

    /// Merges a descriptor into a current one of its kind, by itself.
    ///
    /// # Errors
    /// Those of [`Store::validate`], and [`Refusal::DifferentKinds`].
    ///
    /// ```
    /// use demnyaluz::{PropertyDescriptor, Store};
    ///
    /// let value = PropertyDescriptor { value: Some(4_464.into()), ..PropertyDescriptor::default() };
    /// let merged = Store::new().merge(&PropertyDescriptor::fixed(70_000), &value)?;
    /// assert_eq!(PropertyDescriptor::from(merged), PropertyDescriptor::fixed(4_464));
    /// # Ok::<(), demnyaluz::Refusal>(())
    /// ```
    pub fn merge(&self, current: &PropertyDescriptor, descriptor: &PropertyDescriptor) -> Result<Property, Refusal> {
        present(lent::merge(&self.words, &self.strings, &current.to_bytes(), &descriptor.to_bytes()))
    }
}

/// The property of a report that makes no call.
fn refused_or(words: ReportWords) -> Result<Option<Property>, Refusal> {
    Report::of_library(words, &[]).into_property().map_err(|f| match f {
        Failure::Refused(r) => r,
        other => panic!("no refusal: {other}"),
    })
}

fn present(words: ReportWords) -> Result<Property, Refusal> {
    Ok(refused_or(words)?.expect("a property"))
}
