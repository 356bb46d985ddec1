//! A stand-in for `Context`: it holds one value, and says whether one was put there.

use std::any::Any;
use std::cell::RefCell;
use std::rc::Rc;

use crate::Rect;

#[derive(Clone, Copy, Debug, PartialEq, Eq)]
pub struct Id;

#[derive(Default)]
pub struct Data {
    held: Option<Box<dyn Any>>,
    inserted: bool,
}

impl Data {
    pub fn get_temp<T: 'static + Clone>(&mut self, _id: Id) -> Option<T> {
        self.held.as_ref()?.downcast_ref().cloned()
    }

    pub fn insert_temp<T: 'static>(&mut self, _id: Id, value: T) {
        self.held = Some(Box::new(value));
        self.inserted = true;
    }

    /// Whether a value was put there since the last time this was asked.
    pub fn take_inserted(&mut self) -> bool {
        std::mem::take(&mut self.inserted)
    }
}

#[derive(Clone, Default)]
pub struct Context(Rc<RefCell<Data>>);

impl Context {
    pub fn data_mut<R>(&self, call: impl FnOnce(&mut Data) -> R) -> R {
        call(&mut self.0.borrow_mut())
    }

    pub fn check_for_id_clash(&self, _id: Id, _rect: Rect, _what: &str) {}

    pub fn request_repaint(&self) {}
}
