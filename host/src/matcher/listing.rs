//! What the listing program prints for what it reads from standard input.

use super::limits::*;
use super::readings;
use super::sheet;
use super::text;

pub fn listing(input: &[u8]) -> String {
    let mut lines = input.split(|&byte| byte == b'\n');
    let expression = lines.next().unwrap_or_default();
    let name = lines.next().unwrap_or_default();
    let made = match text::sheet_of(expression) {
        Ok(made) => made,
        Err(refusal) => return format!("refused {} at {}\n", refusal.number, refusal.place),
    };
    match sheet::read(&made) {
        Ok(tree) => {
            let counts = format!("leaves {} nodes {}\n", tree.leaves(), tree.nodes().len());
            counts + &readings_listed(&tree, name)
        }
        // No text makes such a sheet; a name refusal prints the same shape.
        Err(number) => format!("refused {}\n", number),
    }
}

fn readings_listed(tree: &sheet::Tree, name: &[u8]) -> String {
    if name.len() > NAME_MOST {
        return format!("refused {}\n", NAME_LONG);
    }
    let found = readings::few(tree, name, LISTED_MOST + 1);
    let listed = found.iter().take(LISTED_MOST);
    let mut printed: String = listed.map(|reading| line(reading) + "\n").collect();
    if found.len() > LISTED_MOST {
        printed += "more\n";
    } else {
        printed += &format!("end {}\n", found.len());
    }
    printed
}

fn line(reading: &[u8]) -> String {
    if reading.is_empty() {
        return "-".to_string();
    }
    let positions: Vec<String> = reading.iter().map(u8::to_string).collect();
    positions.join(",")
}
