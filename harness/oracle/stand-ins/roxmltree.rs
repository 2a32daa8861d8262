//! Stand-in for the crate roxmltree: the string type of an attribute's value.

use std::marker::PhantomData;

#[derive(Clone)]
pub struct StringStorage<'input>(String, PhantomData<&'input ()>);

impl StringStorage<'_> {
    pub fn new(s: String) -> Self {
        StringStorage(s, PhantomData)
    }
    pub fn as_str(&self) -> &str {
        &self.0
    }
}

impl std::fmt::Display for StringStorage<'_> {
    fn fmt(&self, f: &mut std::fmt::Formatter) -> std::fmt::Result {
        f.write_str(&self.0)
    }
}
