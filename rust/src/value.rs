//! Nested values whose clones share memory part by part.

use crate::error::Error;
use crate::proved::ecow_nested as proved;
use crate::shim::alloc::Global;
use crate::shim::granted;
use crate::shim::vec::with_capacity;
use crate::string::{EcoString, SmallText};
use alloc::string::String;
use alloc::vec::Vec;
use core::fmt::{self, Debug};

pub use proved::Kind;

/// How deep a value may nest. A thread with a stack of 512 KiB drops and compares such a value, in debug builds too.
pub const MAX_DEPTH: usize = proved::MAX_DEPTH as usize;

/// A step into a value: to an item by its index, or to a field by its name.
#[derive(Clone, Copy, Debug, PartialEq, Eq, Hash)]
pub enum Step<'a> {
    /// The item of a list, or the value of a field, at an index.
    Index(usize),
    /// The value of the field of a name.
    Field(&'a str),
}

from! {
    [] usize => Step<'_>: |index| Step::Index(index);
    ['a] &'a str => Step<'a>: |name| Step::Field(name);
}

/// Nothing, a truth value, a number, a text, a list of values, or fields by name in order.
///
/// It takes 24 bytes. Parts go in and out as clones, which share memory: a change of what lies deep copies the lists on the
/// way that are shared, and what lies beside the way stays shared. A value nests at most [`MAX_DEPTH`] deep, which any
/// thread drops.
///
/// ```
/// use ecow::{Error, Kind, Value};
///
/// # fn main() -> Result<(), Error> {
/// let mut first = Value::new_fields();
/// first.set_field("name", "Ada")?;
/// first.set_field("scores", [3, 5])?;
/// let second = first.clone();
/// first.update_path(&["scores".into(), 1.into()], |score| {
///     *score = Value::from(score.number()? + 1);
///     Ok(())
/// })?;
/// assert_eq!(format!("{first:?}"), r#"{"name": "Ada", "scores": [3, 6]}"#);
/// assert_eq!(second.get_path(&["scores".into(), 1.into()])?.number(), Ok(5));
/// assert_eq!(second.get_field("name")?.number(), Err(Error::Kind));
/// assert_eq!(second.kind(), Kind::Fields);
/// # Ok(())
/// # }
/// ```
pub struct Value(proved::Value);

impl Value {
    /// The value nothing.
    ///
    ///     assert_eq!(ecow::Value::new().kind(), ecow::Kind::Nothing);
    #[must_use]
    pub const fn new() -> Self {
        Value(proved::Value::Nothing)
    }

    /// A list of no items.
    ///
    ///     assert_eq!(ecow::Value::new_list().kind(), ecow::Kind::List);
    #[must_use]
    pub const fn new_list() -> Self {
        Value(proved::Value::new_list(Global))
    }

    /// A value with no fields.
    ///
    ///     assert_eq!(ecow::Value::new_fields().kind(), ecow::Kind::Fields);
    #[must_use]
    pub const fn new_fields() -> Self {
        Value(proved::Value::new_fields(Global))
    }

    /// A value that shares this one's memory. Takes constant time.
    /// # Errors
    /// `Error::Memory` past 2^63 - 1 owners.
    ///
    ///     assert_eq!(ecow::Value::from(7).try_clone(), Ok(7.into()));
    pub fn try_clone(&self) -> Result<Self, Error> {
        Ok(Value(self.0.try_clone()?))
    }

    /// How deep the value nests: 0 if it has no parts, otherwise one more than its deepest part. Calls that put a part
    /// in answer `Error::Depth` if that part has [`MAX_DEPTH`] itself.
    ///
    ///     assert_eq!(ecow::Value::from([1, 2]).depth(), 1);
    #[must_use]
    pub fn depth(&self) -> usize {
        self.0.depth() as usize
    }

    /// What the value is.
    ///
    ///     assert_eq!(ecow::Value::from("a").kind(), ecow::Kind::Text);
    #[must_use]
    pub fn kind(&self) -> Kind {
        self.0.kind()
    }

    /// The truth value.
    /// # Errors
    /// `Error::Kind` for another kind.
    ///
    ///     assert_eq!(ecow::Value::from(true).truth(), Ok(true));
    pub fn truth(&self) -> Result<bool, Error> {
        self.0.truth().ok_or(Error::Kind)
    }

    /// The number.
    /// # Errors
    /// `Error::Kind` for another kind.
    ///
    ///     assert_eq!(ecow::Value::from(7).number(), Ok(7));
    pub fn number(&self) -> Result<i64, Error> {
        self.0.number().ok_or(Error::Kind)
    }

    /// The floating-point number.
    /// # Errors
    /// `Error::Kind` for another kind.
    ///
    ///     assert_eq!(ecow::Value::from(0.5).real(), Ok(0.5));
    pub fn real(&self) -> Result<f64, Error> {
        self.0.real().ok_or(Error::Kind)
    }

    /// A clone of the text.
    /// # Errors
    /// `Error::Kind` for another kind.
    ///
    ///     assert_eq!(ecow::Value::from("a").text(), Ok("a".into()));
    pub fn text(&self) -> Result<EcoString, Error> {
        self.0.text().cloned().map(SmallText).ok_or(Error::Kind)
    }

    /// Whether there are no items and no fields.
    ///
    ///     assert!(ecow::Value::new_list().is_empty());
    #[must_use]
    pub fn is_empty(&self) -> bool {
        self.len() == 0
    }

    /// The number of a list's items, or of fields; 0 for another kind.
    ///
    ///     assert_eq!(ecow::Value::from([1, 2]).len(), 2);
    #[must_use]
    pub fn len(&self) -> usize {
        self.0.len().unwrap_or(0)
    }

    /// A clone of a list's item, or of a field's value, at `index`.
    /// # Errors
    /// `Error::Kind` for another kind; `Error::Index` from the end on.
    ///
    ///     assert_eq!(ecow::Value::from([1, 2]).get(1), Ok(2.into()));
    pub fn get(&self, index: usize) -> Result<Self, Error> {
        Ok(Value(self.0.part(index)?.clone()))
    }

    /// Replaces the item at `index` of a list. A shared list is copied first.
    /// # Errors
    /// `Error::Kind` for another kind; `Error::Index` from the end on; `Error::Depth`, `Error::Memory`.
    ///
    ///     assert_eq!(ecow::Value::from([1, 2]).set(1, 7), Ok(()));
    pub fn set(&mut self, index: usize, item: impl Into<Self>) -> Result<(), Error> {
        Ok(self.0.set(index, item.into().0)?)
    }

    /// Appends an item to a list. A shared list is copied first.
    /// # Errors
    /// `Error::Kind` for another kind; `Error::Depth`, `Error::Memory`.
    ///
    ///     assert_eq!(ecow::Value::new_list().push(1), Ok(()));
    pub fn push(&mut self, item: impl Into<Self>) -> Result<(), Error> {
        Ok(self.0.push(item.into().0)?)
    }

    /// Takes the last item of a list. A shared list is copied first.
    /// # Errors
    /// `Error::Kind` for another kind; `Error::Index` if there is no item; `Error::Memory`.
    ///
    ///     assert_eq!(ecow::Value::from([1, 2]).pop(), Ok(2.into()));
    pub fn pop(&mut self) -> Result<Self, Error> {
        Ok(Value(self.0.pop()?))
    }

    /// Inserts an item at `index` of a list. A shared list is copied first.
    /// # Errors
    /// `Error::Kind` for another kind; `Error::Index` past the end; `Error::Depth`, `Error::Memory`.
    ///
    ///     assert_eq!(ecow::Value::from([1, 2]).insert(0, 7), Ok(()));
    pub fn insert(&mut self, index: usize, item: impl Into<Self>) -> Result<(), Error> {
        Ok(self.0.insert(index, item.into().0)?)
    }

    /// Takes the item at `index` of a list. A shared list is copied first.
    /// # Errors
    /// `Error::Kind` for another kind; `Error::Index` from the end on; `Error::Memory`.
    ///
    ///     assert_eq!(ecow::Value::from([1, 2]).remove(0), Ok(1.into()));
    pub fn remove(&mut self, index: usize) -> Result<Self, Error> {
        Ok(Value(self.0.remove(index)?))
    }

    /// Keeps the first `len` items of a list, or all if there are fewer. Of a shared list those that stay are copied.
    /// # Errors
    /// `Error::Kind` for another kind; `Error::Memory`.
    ///
    ///     assert_eq!(ecow::Value::from([1, 2]).truncate(1), Ok(()));
    pub fn truncate(&mut self, len: usize) -> Result<(), Error> {
        Ok(self.0.truncate(len)?)
    }

    /// A clone of the value of the field with that name.
    /// # Errors
    /// `Error::Kind` for another kind; `Error::Index` if there is no such field.
    ///
    ///     assert_eq!(ecow::Value::new_fields().get_field("a"), Err(ecow::Error::Index));
    pub fn get_field(&self, name: &str) -> Result<Self, Error> {
        Ok(Value(self.0.field(name)?.clone()))
    }

    /// Replaces the value of the field with that name, or appends a field if there is none. Copies shared fields first.
    /// # Errors
    /// `Error::Kind` for another kind; `Error::Depth`, `Error::Memory`.
    ///
    ///     assert_eq!(ecow::Value::new_fields().set_field("a", 1), Ok(()));
    pub fn set_field(&mut self, name: &str, item: impl Into<Self>) -> Result<(), Error> {
        Ok(self.0.set_field(name, item.into().0)?)
    }

    /// Appends a field, without looking for the name. If a name is there twice, calls by that name mean the first.
    /// # Errors
    /// As [`set_field`](Self::set_field).
    ///
    ///     assert_eq!(ecow::Value::new_fields().push_field("a", 1), Ok(()));
    pub fn push_field(&mut self, name: &str, item: impl Into<Self>) -> Result<(), Error> {
        Ok(self.0.push_field(name, item.into().0)?)
    }

    /// Takes out the field with that name, and returns its value. Shared fields are copied first.
    /// # Errors
    /// `Error::Kind` for another kind; `Error::Index` if there is no such field; `Error::Memory`.
    ///
    ///     assert!(ecow::Value::new_fields().remove_field("a").is_err());
    pub fn remove_field(&mut self, name: &str) -> Result<Self, Error> {
        Ok(Value(self.0.remove_field(name)?))
    }

    /// A clone of the name of the field at `index`.
    /// # Errors
    /// `Error::Kind` for another kind; `Error::Index` from the end on.
    ///
    ///     assert!(ecow::Value::new_fields().field_name(0).is_err());
    pub fn field_name(&self, index: usize) -> Result<EcoString, Error> {
        Ok(SmallText(self.0.name(index)?.clone()))
    }

    /// Clones of a list's items, or of the fields' values, in order; none for another kind.
    ///
    ///     assert!(ecow::Value::from([1, 2]).items().eq([1.into(), 2.into()]));
    #[must_use]
    pub fn items(&self) -> impl DoubleEndedIterator<Item = Value> + ExactSizeIterator + Clone + '_ {
        (0..self.len()).map(|index| granted(self.get(index)))
    }

    /// Clones of the fields' names and values, in order; none for another kind.
    ///
    ///     assert_eq!(ecow::Value::new_fields().fields().count(), 0);
    pub fn fields(&self) -> impl Iterator<Item = (EcoString, Value)> + '_ {
        self.items().enumerate().filter_map(|(index, item)| Some((self.field_name(index).ok()?, item)))
    }

    /// A clone of the value at the end of a path. A path without steps leads to the value itself.
    /// # Errors
    /// `Error::Kind` or `Error::Index` for a step that leads nowhere.
    ///
    ///     assert_eq!(ecow::Value::from([1, 2]).get_path(&[1.into()]), Ok(2.into()));
    pub fn get_path(&self, path: &[Step<'_>]) -> Result<Self, Error> {
        path.iter().try_fold(self.try_clone()?, |value, &step| value.at(step))
    }

    /// Replaces the value at the end of a path, or appends a field if the last step names none. Shared lists on the
    /// path are copied.
    /// # Errors
    /// `Error::Kind` or `Error::Index` for a step that leads nowhere; `Error::Depth`, `Error::Memory`.
    ///
    ///     assert_eq!(ecow::Value::from([1, 2]).set_path(&[1.into()], 7), Ok(()));
    pub fn set_path(&mut self, path: &[Step<'_>], item: impl Into<Self>) -> Result<(), Error> {
        let item = item.into();
        if path.len() + item.depth() > MAX_DEPTH {
            return Err(Error::Depth);
        }
        let Some((&last, way)) = path.split_last() else {
            *self = item;
            return Ok(());
        };
        self.update_path(way, |value| value.put(last, item))
    }

    /// Changes the value at the end of a path, and returns what `change` returns. Shared lists on the path are copied.
    /// # Errors
    /// Those of `change`, whose edits stay then; `Error::Kind` or `Error::Index` for a step that leads nowhere;
    /// `Error::Memory`; `Error::Depth` if what it leaves would nest too deep, and is replaced by nothing.
    ///
    ///     assert_eq!(ecow::Value::from([[1], [2]]).update_path(&[1.into()], |list| list.push(7)), Ok(()));
    pub fn update_path<R>(
        &mut self,
        path: &[Step<'_>],
        change: impl FnOnce(&mut Self) -> Result<R, Error>,
    ) -> Result<R, Error> {
        self.update_below(0, path, change)
    }

    /// Does the same so many steps deep in another value.
    fn update_below<R>(
        &mut self,
        above: usize,
        path: &[Step<'_>],
        change: impl FnOnce(&mut Self) -> Result<R, Error>,
    ) -> Result<R, Error> {
        let Some((&step, rest)) = path.split_first() else {
            return change(self);
        };
        let mut taken = Taken::new(self, step, above + 1)?;
        let answer = taken.part.update_below(above + 1, rest, change);
        if taken.is_too_deep() { Err(Error::Depth) } else { answer }
    }

    /// What lies one step into the value.
    fn at(&self, step: Step<'_>) -> Result<Self, Error> {
        match step {
            Step::Index(index) => self.get(index),
            Step::Field(name) => self.get_field(name),
        }
    }

    /// Exchanges what lies one step into the value and another one.
    fn swap(&mut self, step: Step<'_>, other: &mut Self) -> Result<(), Error> {
        match step {
            Step::Index(index) if self.kind() == Kind::Fields => {
                let name = self.field_name(index)?;
                self.swap(Step::Field(&name), other)
            }
            Step::Index(index) => Ok(self.0.swap(index, &mut other.0)?),
            Step::Field(name) => Ok(self.0.swap_field(name, &mut other.0)?),
        }
    }

    /// Puts a value one step into this one.
    fn put(&mut self, step: Step<'_>, mut item: Self) -> Result<(), Error> {
        match step {
            Step::Index(_) => self.swap(step, &mut item),
            Step::Field(name) => self.set_field(name, item),
        }
    }
}

/// A part that is taken out of a value, which has nothing in its place: so the part isn't shared by the value, and a change
/// of it copies nothing. It goes back when this is dropped.
struct Taken<'a> {
    whole: &'a mut Value,
    step: Step<'a>,
    part: Value,
    /// How many steps lead to it.
    steps: usize,
}

impl<'a> Taken<'a> {
    fn new(whole: &'a mut Value, step: Step<'a>, steps: usize) -> Result<Self, Error> {
        let mut part = Value::new();
        whole.swap(step, &mut part)?;
        Ok(Self { whole, step, part, steps })
    }

    fn is_too_deep(&self) -> bool {
        self.steps + self.part.depth() > MAX_DEPTH
    }
}

impl Drop for Taken<'_> {
    fn drop(&mut self) {
        // The way isn't shared since nothing was put there, so this asks for no memory.
        if !self.is_too_deep() {
            granted(self.whole.swap(self.step, &mut self.part));
        }
    }
}

impl Clone for Value {
    /// A value that shares this one's memory. It takes the same time however large the value is.
    fn clone(&self) -> Self {
        Value(self.0.clone())
    }
}

impl Default for Value {
    fn default() -> Self {
        Self::new()
    }
}

impl Debug for Value {
    /// Prints the value as JSON has it, except that a text is escaped as a `str` is by `Debug`, and that infinity and NaN
    /// are printed too.
    fn fmt(&self, f: &mut fmt::Formatter<'_>) -> fmt::Result {
        match &self.0 {
            proved::Value::Nothing => f.write_str("null"),
            proved::Value::Truth(truth) => truth.fmt(f),
            proved::Value::Number(number) => number.fmt(f),
            proved::Value::Real(real) => real.fmt(f),
            proved::Value::Text(text) => text.fmt(f),
            proved::Value::List(_) => f.debug_list().entries(self.items()).finish(),
            proved::Value::Fields(_) => f.debug_map().entries(self.fields()).finish(),
        }
    }
}

impl Eq for Value {}

impl PartialEq for Value {
    /// Whether both are of one kind and hold the same, items and fields in order. A NaN equals each NaN, so that a value
    /// equals its clones. Two parts that were found equal aren't compared again: the time grows with the number of
    /// different pairs of parts, however often each pair occurs.
    fn eq(&self, other: &Self) -> bool {
        EqualPairs::default().compare(&self.0, &other.0)
    }
}

/// Pairs of lists and of fields, by their addresses, that one comparison has found equal. A pair has one place, and may
/// take it from another pair. The more pairs are found, the more places are made.
#[derive(Default)]
struct EqualPairs {
    places: Vec<(usize, usize)>,
    /// How many pairs were found after the places were made.
    found: usize,
}

impl EqualPairs {
    /// Whether both are equal, as the proved `equals` says. It compares what is small itself.
    #[allow(clippy::inline_always, reason = "a call would take as long as the comparison of a number")]
    #[inline(always)]
    fn compare(&mut self, left: &proved::Value, right: &proved::Value) -> bool {
        if left.depth() > 1 || left.len().unwrap_or(0) >= 16 {
            self.compare_once(left, right)
        } else {
            left.equals(right)
        }
    }

    /// The same for a value with many parts, or with parts that have parts.
    fn compare_once(&mut self, left: &proved::Value, right: &proved::Value) -> bool {
        let pair = (address(left), address(right));
        if pair.0 == pair.1 || self.is_noted(pair) {
            return true;
        }
        match (left, right) {
            (proved::Value::List(list), proved::Value::List(other)) if list.depth > 1 => {
                if list.items.len() != other.items.len() {
                    return false;
                }
                for (item, other) in list.items.as_slice().iter().zip(other.items.as_slice()) {
                    if !self.compare(item, other) {
                        return false;
                    }
                }
            }
            (proved::Value::Fields(fields), proved::Value::Fields(other)) if fields.depth > 1 => {
                if fields.items.len() != other.items.len() {
                    return false;
                }
                let fields = fields.items.entries.as_slice().iter().filter_map(|entry| entry.field.as_ref());
                let others = other.items.entries.as_slice().iter().filter_map(|entry| entry.field.as_ref());
                for (field, other) in fields.zip(others) {
                    if field.name != other.name || !self.compare(&field.value, &other.value) {
                        return false;
                    }
                }
            }
            _ if !left.equals(right) => return false,
            _ => {}
        }
        self.note(pair);
        true
    }

    /// Whether it was noted that a pair is equal. Another pair may have taken its place since.
    #[inline]
    fn is_noted(&self, pair: (usize, usize)) -> bool {
        self.places.get(self.place_of(pair)) == Some(&pair)
    }

    /// Notes that a pair is equal. If memory for more places is refused, their number stays.
    fn note(&mut self, pair: (usize, usize)) {
        self.found += 1;
        let len = self.places.len().max(32);
        if self.found > 16 * len {
            self.found = 0;
            if let Ok(mut places) = with_capacity(Global, 2 * len) {
                places.resize(2 * len, (0, 0));
                self.places = places;
            }
        }
        let index = self.place_of(pair);
        if let Some(place) = self.places.get_mut(index) {
            *place = pair;
        }
    }

    /// The index of the place of a pair. While there are no places, it is past their end.
    fn place_of(&self, (left, right): (usize, usize)) -> usize {
        let mixed = (left ^ right.wrapping_mul(3)).wrapping_mul(0x9E37_79B9_7F4A_7C15);
        (mixed ^ mixed >> 32) & self.places.len().wrapping_sub(1)
    }
}

/// The address of a list's items, or of fields; 0 for another kind.
fn address(value: &proved::Value) -> usize {
    value.part(0).map_or(0, |part| core::ptr::from_ref(part).addr())
}

// A text has the string's memory, and a value that of the other.
from! {
    [] bool => Value: |truth| Value(proved::Value::Truth(truth));
    [] i64 => Value: |number| Value(proved::Value::Number(number));
    [] f64 => Value: |real| Value(proved::Value::Real(real));
    [] EcoString => Value: |text| Value(proved::Value::Text(text.0));
    [] &EcoString => Value: |text| text.clone().into();
    [] &str => Value: |text| EcoString::from(text).into();
    [] String => Value: |text| EcoString::from(text).into();
    [] &Value => Value: |value| value.clone();
    [T: Into<Value>, const N: usize] [T; N] => Value: |items| items.into_iter().map(T::into).collect();
    [T: Into<Value>] Vec<T> => Value: |items| items.into_iter().map(T::into).collect();
}

impl FromIterator<Value> for Value {
    /// A list of the values.
    fn from_iter<I: IntoIterator<Item = Value>>(items: I) -> Self {
        let items = items.into_iter().map(|item| item.0).collect::<crate::EcoVec<_>>();
        Value(granted(proved::Value::from_items(items.0)))
    }
}

impl<N: AsRef<str>> FromIterator<(N, Value)> for Value {
    /// Fields of the names and values. The last value of a name is kept, in the place of the first.
    fn from_iter<I: IntoIterator<Item = (N, Value)>>(items: I) -> Self {
        let mut fields = Self::new_fields();
        for (name, item) in items {
            granted(fields.set_field(name.as_ref(), item));
        }
        fields
    }
}
