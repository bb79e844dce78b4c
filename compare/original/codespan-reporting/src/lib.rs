//! A stand-in: the names with which the compared error file builds its reports.

pub mod diagnostic {
    use std::ops::Range;

    pub struct Diagnostic<F> {
        pub message: String,
        pub labels: Vec<Label<F>>,
    }

    impl<F> Diagnostic<F> {
        pub fn error() -> Self {
            Diagnostic { message: String::new(), labels: Vec::new() }
        }

        pub fn with_message(mut self, message: impl Into<String>) -> Self {
            self.message = message.into();
            self
        }

        pub fn with_labels(mut self, mut labels: Vec<Label<F>>) -> Self {
            self.labels.append(&mut labels);
            self
        }
    }

    pub struct Label<F> {
        pub file: F,
        pub range: Range<usize>,
        pub message: String,
    }

    impl<F> Label<F> {
        pub fn primary(file: F, range: impl Into<Range<usize>>) -> Self {
            Label { file, range: range.into(), message: String::new() }
        }

        pub fn with_message(mut self, message: impl Into<String>) -> Self {
            self.message = message.into();
            self
        }
    }
}
