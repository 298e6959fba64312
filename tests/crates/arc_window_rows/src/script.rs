//! The file of rows, read line by line.
use crate::run::{KINDS, Kind, LAYOUTS, Row, Under, run_named};
use bstr::BStr;
use std::alloc::{AllocError, Global};
use std::io;
use std::sync::Wait;

/// Where the reading of a file stands.
#[derive(Drop)]
pub struct Script<'a> {
    kinds: Vec<(&'static str, Kind)>,
    layouts: Vec<(&'static str, Under)>,
    rows: Vec<Row<'a>>,
    /// How many rows there were.
    pub read: u64,
    /// How many answers were as they are to be.
    pub passed: u64,
    /// How many weren't, or weren't read.
    pub failed: u64,
}

/// The entries of a table with these names, parted by spaces; `all` is each of them. Nothing where
/// one has another name.
fn named<T: Copy + Drop>(
    alloc: Global,
    table: &'static [(&'static str, T)],
    names: &str,
) -> Result<Option<Vec<(&'static str, T)>>, AllocError> {
    let mut found = Vec::new(alloc);
    for name in names.split(' ') {
        let before = found.len();
        for entry in table {
            if name == "all" || entry.0 == name {
                found.push((entry.0, entry.1))?;
            }
        }
        if found.len() == before {
            return Ok(None);
        }
    }
    Ok(Some(found))
}

impl<'a> Script<'a> {
    /// Nothing is read yet, and rows are of no kind.
    pub fn new(alloc: Global) -> Script<'a> {
        Script {
            kinds: Vec::new(alloc),
            layouts: Vec::new(alloc),
            rows: Vec::new(alloc),
            read: 0,
            passed: 0,
            failed: 0,
        }
    }

    /// Reads a line.
    pub fn line<R: Wait + Print>(
        &mut self,
        rt: &R,
        alloc: Global,
        number: usize,
        line: &'a str,
    ) -> io::Result<()> {
        if line.starts_with('#') {
            return Ok(());
        }
        if let Some(names) = line.strip_prefix("kinds: ") {
            self.end_run(rt, alloc)?;
            let Some(kinds) = named(alloc, KINDS, names)? else {
                return self.bad(rt, number, line);
            };
            self.kinds = kinds;
            return Ok(());
        }
        if let Some(names) = line.strip_prefix("layouts: ") {
            self.end_run(rt, alloc)?;
            let Some(layouts) = named(alloc, LAYOUTS, names)? else {
                return self.bad(rt, number, line);
            };
            self.layouts = layouts;
            return Ok(());
        }
        if line.is_empty() {
            return self.end_run(rt, alloc);
        }
        match line.split_once(" => ") {
            Some((line, wanted)) => {
                self.read = self.read.saturating_add(1);
                self.rows.push(Row {
                    number,
                    line,
                    wanted,
                })?;
                Ok(())
            }
            None => self.bad(rt, number, line),
        }
    }

    /// A line that is neither a row nor a heading nor a comment.
    fn bad<R: Print>(&mut self, rt: &R, number: usize, line: &str) -> io::Result<()> {
        self.failed = self.failed.saturating_add(1);
        println!(rt; "stdin:{number}: no row: {line}")
    }

    /// Runs the rows since the last run, under each pair of a kind and a layout.
    pub fn end_run<R: Wait + Print>(&mut self, rt: &R, alloc: Global) -> io::Result<()> {
        for (kind_name, kind) in &self.kinds {
            for (layout_name, layout) in &self.layouts {
                match run_named(rt, alloc, *kind, *layout, &self.rows)? {
                    None => self.passed = self.passed.saturating_add(self.rows.len() as u64),
                    Some((at, found)) => {
                        self.failed = self.failed.saturating_add(1);
                        if let Some(row) = self.rows.get(at) {
                            let found = BStr::new(&found);
                            println!(rt;
                                "stdin:{}: {kind_name} {layout_name}: {}: wanted {}, got {found}",
                                row.number, row.line, row.wanted
                            )?;
                        }
                    }
                }
            }
        }
        self.rows.clear();
        Ok(())
    }
}
