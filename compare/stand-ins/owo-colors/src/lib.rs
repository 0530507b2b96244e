//! Stands in for owo-colors: colours that change nothing.
pub trait OwoColorize {
    fn green(&self) -> &Self {
        self
    }
    fn bright_red(&self) -> &Self {
        self
    }
    fn bright_yellow(&self) -> &Self {
        self
    }
}

impl<T: ?Sized> OwoColorize for T {}
