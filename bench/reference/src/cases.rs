//! Files of cases: a case is `case NAME`, a line for each argument, `answer ..` and the lines behind it, with an empty line
//! between two. Bytes are hexadecimal, `-` for none.

/// A case's name, its arguments by their names, and what is expected: the answer, and the lines behind it.
pub struct Case {
    pub name: String,
    pub arguments: Vec<(String, String)>,
    pub expected: String,
}

pub fn cases(text: &str) -> Vec<Case> {
    let case = |block: &str| {
        let (arguments, expected) = block.split_once("\nanswer ").expect("an answer in each case");
        let mut arguments = arguments.lines().map(|line| line.split_once(' ').expect("a word and a value"));
        let (_, name) = arguments.next().expect("a name in each case");
        let arguments = arguments.map(|(word, value)| (word.to_string(), value.to_string())).collect();
        Case { name: name.to_string(), arguments, expected: expected.trim_end().to_string() }
    };
    text.split("\n\n").filter(|block| !block.trim().is_empty()).map(|block| case(block.trim_start())).collect()
}

impl Case {
    pub fn argument(&self, name: &str) -> &str {
        let argument = self.arguments.iter().find(|(word, _)| word == name);
        &argument.unwrap_or_else(|| panic!("no {name} in {}", self.name)).1
    }

    pub fn book(&self) -> Vec<u8> {
        let digits = self.argument("book");
        let byte = |at: usize| u8::from_str_radix(&digits[at..at + 2], 16).expect("two digits a byte");
        if digits == "-" {
            Vec::new()
        } else {
            (0..digits.len()).step_by(2).map(byte).collect()
        }
    }
}
