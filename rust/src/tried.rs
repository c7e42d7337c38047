//! Wrong ones that the comparison has to find.

/// A wrong one: its mistake, and what it does.
pub struct Wrong<F> {
    pub name: &'static str,
    pub does: F,
}

/// The wrong ones of a kind, each with the number of inputs after which it differed.
pub struct Tried<F> {
    kind: &'static str,
    all: Vec<(Wrong<F>, Option<usize>)>,
}

impl<F> Tried<F> {
    /// Wrong ones that haven't been tried.
    pub fn new(kind: &'static str, all: Vec<Wrong<F>>) -> Self {
        let untried = |wrong| (wrong, None);
        Tried {
            kind,
            all: all.into_iter().map(untried).collect(),
        }
    }

    /// Tries those that haven't differed before.
    pub fn try_on(&mut self, inputs: usize, mut differs: impl FnMut(&F) -> bool) {
        for (wrong, differed) in &mut self.all {
            if differed.is_none() && differs(&wrong.does) {
                *differed = Some(inputs);
            }
        }
    }

    /// Prints after how many inputs each differed.
    pub fn print(&self) {
        for (Wrong { name, .. }, differed) in &self.all {
            if let Some(inputs) = differed {
                println!("wrong {} {name}: differed after {inputs} inputs", self.kind);
            }
        }
    }

    /// The first that never differed, in words.
    pub fn never_differed(&self) -> Option<String> {
        let (wrong, _) = self.all.iter().find(|(_, differed)| differed.is_none())?;
        Some(format!("wrong {} {} never differed", self.kind, wrong.name))
    }
}

#[cfg(test)]
mod tests {
    use super::*;

    #[test]
    fn each_has_to_differ_once() {
        let wrong = |name, does| Wrong { name, does };
        let mut tried = Tried::new("number", vec![wrong("three", 3), wrong("four", 4)]);
        tried.try_on(1, |&number| number > 3);
        let missing = Some("wrong number three never differed".to_string());
        assert_eq!(tried.never_differed(), missing);
        tried.try_on(2, |&number| number < 4);
        assert_eq!(tried.never_differed(), None);
        assert_eq!((tried.all[0].1, tried.all[1].1), (Some(2), Some(1)));
        tried.try_on(3, |_| panic!("both have differed"));
    }
}
