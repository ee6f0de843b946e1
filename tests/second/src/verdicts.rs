//! Reads what `hosts verdicts` of tests/hosts writes, and compares its verdicts with those of `tables`.
//!
//! The tables come first, a line a part, with the verdict on them. Then a line for each cell: its
//! part, its number, and a digit for each way of damage. Then the tables again, and `end`.

use std::collections::BTreeSet;
use std::fmt;

use crate::tables::{Coordinator, Tables, Ticket};

/// In how many ways each cell is damaged.
const WAYS: usize = 9;
/// Lines of the tables with their verdict.
const TABLE_LINES: usize = 7;

#[derive(Debug, PartialEq, Eq)]
pub struct Comparison {
    pub cells: usize,
    pub all_cells: usize,
    pub sound: usize,
    pub damaged: usize,
    pub differences: Vec<String>,
}

impl fmt::Display for Comparison {
    fn fmt(&self, out: &mut fmt::Formatter) -> fmt::Result {
        for difference in self.differences.iter().take(10) {
            writeln!(out, "{difference}")?;
        }
        write!(
            out,
            "{} verdicts on {} of {} cells compared, {} sound, {} not sound, {} differ",
            self.sound + self.damaged,
            self.cells,
            self.all_cells,
            self.sound,
            self.damaged,
            self.differences.len()
        )
    }
}

/// The numbers of a line that begins with this word.
fn numbers(line: &str, name: &str) -> Result<Vec<u64>, String> {
    let mut words = line.split(' ');
    if words.next() != Some(name) {
        return Err(format!("a line of {name} is missing"));
    }
    words.map(|word| word.parse().map_err(|_| format!("{name}: no number: {word}"))).collect()
}

fn narrow(numbers: Vec<u64>) -> Result<Vec<u32>, String> {
    numbers.into_iter().map(|n| u32::try_from(n).map_err(|_| format!("too large: {n}"))).collect()
}

fn read_ticket(fields: &[u64]) -> Result<Ticket, String> {
    let small = narrow(vec![fields[0], fields[3], fields[4]])?;
    let (version, rest, held) = (small[0], small[1], small[2]);
    Ok(Ticket { version, low: fields[1], high: fields[2], rest, held })
}

/// The tables of seven lines, which must be sound by both programs.
fn read_tables(lines: &[&str]) -> Result<Tables, String> {
    let fields = numbers(lines[4], "tickets")?;
    let coordinator = narrow(numbers(lines[5], "coordinator")?)?;
    if fields.len() != 80 || coordinator.len() != 3 {
        return Err("the tickets or the coordinator have another length".to_string());
    }
    let tables = Tables {
        keys: numbers(lines[0], "keys")?,
        values: numbers(lines[1], "values")?,
        rows: narrow(numbers(lines[2], "rows")?)?,
        buckets: narrow(numbers(lines[3], "buckets")?)?,
        tickets: fields.chunks(5).map(read_ticket).collect::<Result<_, _>>()?,
        coordinator: Coordinator {
            counter: coordinator[0],
            ranges: coordinator[1],
            due: coordinator[2],
        },
    };
    if lines[6] != "sound 1" {
        return Err("the tables are not sound to begin with".to_string());
    }
    match tables.check() {
        Ok(()) => Ok(tables),
        Err(condition) => Err(format!("the tables are not sound to begin with: {condition:?}")),
    }
}

fn damaged(way: usize, old: u64, last: u64) -> u64 {
    match way {
        0 => 0,
        1 => 1,
        2 => old.wrapping_add(1) & last,
        3 => old.wrapping_sub(1) & last,
        4 => 64,
        5 => 65,
        6 => 66,
        7 => 4_294_967_295,
        _ => old.wrapping_add(97) & last,
    }
}

fn hurt(cell: &mut u32, way: usize) {
    *cell = damaged(way, u64::from(*cell), u64::from(u32::MAX)) as u32;
}

fn hurt_wide(cell: &mut u64, way: usize) {
    *cell = damaged(way, *cell, u64::MAX);
}

fn hurt_ticket(ticket: &mut Ticket, field: usize, way: usize) {
    match field {
        0 => hurt(&mut ticket.version, way),
        1 => hurt_wide(&mut ticket.low, way),
        2 => hurt_wide(&mut ticket.high, way),
        3 => hurt(&mut ticket.rest, way),
        _ => hurt(&mut ticket.held, way),
    }
}

fn parts(tables: &Tables) -> [(&'static str, usize); 6] {
    [
        ("rows", tables.rows.len()),
        ("keys", tables.keys.len()),
        ("values", tables.values.len()),
        ("buckets", tables.buckets.len()),
        ("tickets", 5 * tables.tickets.len()),
        ("coordinator", 3),
    ]
}

fn hurt_tables(tables: &mut Tables, part: &str, cell: usize, way: usize) {
    match part {
        "rows" => hurt(&mut tables.rows[cell], way),
        "keys" => hurt_wide(&mut tables.keys[cell], way),
        "values" => hurt_wide(&mut tables.values[cell], way),
        "buckets" => hurt(&mut tables.buckets[cell], way),
        "tickets" => hurt_ticket(&mut tables.tickets[cell / 5], cell % 5, way),
        _ => match cell {
            0 => hurt(&mut tables.coordinator.counter, way),
            1 => hurt(&mut tables.coordinator.ranges, way),
            _ => hurt(&mut tables.coordinator.due, way),
        },
    }
}

/// The part, the cell and the verdicts of a line.
fn read_cell<'a>(line: &'a str, tables: &Tables) -> Result<(&'a str, usize, &'a [u8]), String> {
    let words: Vec<&str> = line.split(' ').collect();
    let &[part, cell, verdicts] = words.as_slice() else {
        return Err(format!("no line of a cell: {line}"));
    };
    let size = parts(tables).iter().find(|known| known.0 == part).map(|known| known.1);
    let size = size.ok_or_else(|| format!("no part: {part}"))?;
    let cell = cell.parse().ok().filter(|&cell: &usize| cell < size);
    let cell = cell.ok_or_else(|| format!("no cell: {line}"))?;
    let is_digits = verdicts.len() == WAYS && verdicts.bytes().all(|b| b == b'0' || b == b'1');
    if !is_digits {
        return Err(format!("no verdicts: {line}"));
    }
    Ok((part, cell, verdicts.as_bytes()))
}

/// Compares every verdict of what `hosts verdicts` wrote.
pub fn compare(text: &str) -> Result<Comparison, String> {
    let lines: Vec<&str> = text.lines().collect();
    if lines.len() <= 2 * TABLE_LINES || lines.last() != Some(&"end") {
        return Err("the text is not whole".to_string());
    }
    let cells_end = lines.len() - 1 - TABLE_LINES;
    let tables = read_tables(&lines[..TABLE_LINES])?;
    if read_tables(&lines[cells_end..lines.len() - 1])? != tables {
        return Err("the tables are not as before afterwards".to_string());
    }
    let mut seen = BTreeSet::new();
    let mut found = Comparison {
        cells: 0,
        all_cells: parts(&tables).iter().map(|part| part.1).sum(),
        sound: 0,
        damaged: 0,
        differences: Vec::new(),
    };
    for line in &lines[TABLE_LINES..cells_end] {
        let (part, cell, verdicts) = read_cell(line, &tables)?;
        if !seen.insert((part, cell)) {
            return Err(format!("the cell comes twice: {line}"));
        }
        found.cells += 1;
        for (way, &verdict) in verdicts.iter().enumerate() {
            let mut other = tables.clone();
            hurt_tables(&mut other, part, cell, way);
            let checked = other.check();
            match verdict {
                b'1' => found.sound += 1,
                _ => found.damaged += 1,
            }
            if checked.is_ok() != (verdict == b'1') {
                let told = format!("{part} {cell} way {way}: the library says {}", verdict == b'1');
                found.differences.push(format!("{told}, this check {checked:?}"));
            }
        }
    }
    Ok(found)
}
