// docs/REFUSALS.md as the test reads it: the refusals' numbers, and the order of every call.
use std::collections::HashMap;

pub struct Call {
    /// The call's name on the page.
    pub name: String,
    /// Its functions, as the page has them.
    pub functions: String,
    /// Its refusals in order; a name may stand there twice.
    pub order: Vec<String>,
}

pub struct Page {
    pub numbers: HashMap<String, u8>,
    pub calls: Vec<Call>,
}

fn cells(row: &str) -> Vec<String> {
    row.trim().trim_matches('|').split('|').map(|cell| cell.trim().to_string()).collect()
}

impl Page {
    /// Rows `| NUMBER | NAME | ..` are refusals; those after `| call | functions | order |` are calls.
    pub fn read(text: &str) -> Page {
        let (mut page, mut within) = (Page { numbers: HashMap::new(), calls: Vec::new() }, false);
        for row in text.lines() {
            let cell = cells(row);
            if !row.starts_with('|') {
                within = false;
            } else if cell == ["call", "functions", "order"] {
                within = true;
            } else if within && !row.starts_with("|-") {
                let order = cell[2].split(", ").map(str::to_string).collect();
                page.calls.push(Call { name: cell[0].clone(), functions: cell[1].clone(), order });
            } else if let (Ok(number), true) = (cell[0].parse(), cell.len() > 2) {
                page.numbers.insert(cell[1].clone(), number);
            }
        }
        page
    }

    /// The order of a call, by its name, or by a function of it.
    pub fn order(&self, name: &str) -> Vec<String> {
        let quoted = format!("`{name}`");
        let found = self.calls.iter().find(|call| call.name == name || call.functions.contains(&quoted));
        found.map(|call| call.order.clone()).unwrap_or_else(|| panic!("the page has no order of {name}"))
    }

    /// The doors for C that the page names.
    pub fn doors(&self) -> impl Iterator<Item = &str> {
        self.calls.iter().flat_map(|call| call.functions.split('`').filter(|name| name.starts_with("chess_")))
    }

    pub fn number(&self, refusal: &str) -> u8 {
        *self.numbers.get(refusal).unwrap_or_else(|| panic!("the page has no number of {refusal}"))
    }
}
