//! A list of answers, as text.

/// One list: every line an answer.
pub struct List {
    pub name: String,
    pub text: String,
}

impl List {
    pub fn new(name: impl Into<String>) -> Self {
        List {
            name: name.into(),
            text: String::new(),
        }
    }

    pub fn add(&mut self, numbers: &[u64]) {
        for (at, number) in numbers.iter().enumerate() {
            if at > 0 {
                self.text.push(' ');
            }
            self.text.push_str(&number.to_string());
        }
        self.text.push('\n');
    }
}
