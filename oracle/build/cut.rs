//! Cuts by text: every anchor must stand in its text exactly once, or the build stops.

/// Ends the build with a message.
pub fn fail(message: &str) -> ! {
    eprintln!("oracle: {message}");
    std::process::exit(1);
}

/// A text, and the name by which messages call it.
pub struct Source {
    pub name: String,
    pub text: String,
}

impl Source {
    /// The one place where `anchor` stands.
    fn place(&self, anchor: &str) -> usize {
        let mut places = self.text.match_indices(anchor).map(|(at, _)| at);
        match (places.next(), places.next()) {
            (Some(at), None) => at,
            (None, _) => fail(&format!(
                "{}: this text is nowhere, and is wanted once:\n{anchor}",
                self.name
            )),
            (Some(_), Some(_)) => fail(&format!(
                "{}: this text stands more than once, and is wanted once:\n{anchor}",
                self.name
            )),
        }
    }

    /// The beginning of the one line that holds `anchor`.
    fn line(&self, anchor: &str) -> usize {
        let at = self.place(anchor);
        self.text[..at].rfind('\n').map_or(0, |end| end + 1)
    }

    /// The lines from that of `from` up to that of `to`, the latter left out.
    pub fn lines(&self, from: &str, to: &str) -> Source {
        let (start, end) = (self.line(from), self.line(to));
        if start >= end {
            fail(&format!("{}: out of order:\n{from}\n{to}", self.name));
        }
        Source {
            name: format!("{}, from `{}`", self.name, from.trim()),
            text: self.text[start..end].to_string(),
        }
    }

    /// The text between the one place of `before` and the next `after`.
    pub fn inside(&self, before: &str, after: &str) -> Source {
        let start = self.place(before) + before.len();
        let Some(length) = self.text[start..].find(after) else {
            fail(&format!("{}: no `{after}` after `{before}`", self.name));
        };
        Source {
            name: format!("{}, after `{}`", self.name, before.trim()),
            text: self.text[start..start + length].to_string(),
        }
    }

    /// The same text with the one `old` replaced.
    pub fn replaced(mut self, old: &str, new: &str) -> Source {
        let at = self.place(old);
        self.text.replace_range(at..at + old.len(), new);
        self
    }

    /// A template with `part` in the place of each of its marks `/*@name*/`, of which there is one
    /// at least.
    pub fn filled(mut self, name: &str, part: &Source) -> Source {
        let mark = format!("/*@{name}*/");
        if !self.text.contains(&mark) {
            fail(&format!("{}: no mark {mark}", self.name));
        }
        self.text = self.text.replace(&mark, part.text.trim());
        self
    }
}
