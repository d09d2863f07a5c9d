//! A sheet as a tree of lines by the table: what generators, rewordings and the search for a smallest difference work on.

use super::table::{row_of, Class, Field, Row};

/// A line with what stands below it.
#[derive(Debug, Clone)]
pub struct Line {
    pub row: &'static Row,
    pub fields: Vec<String>,
    pub children: Vec<Line>,
}

impl Line {
    /// A line of a known word.
    pub fn new(word: &str, fields: &[&str], children: Vec<Line>) -> Self {
        Line {
            row: row_of(word).unwrap_or_else(|| panic!("no such word: {word}")),
            fields: fields.iter().map(|f| f.to_string()).collect(),
            children,
        }
    }

    pub fn is_expr(&self) -> bool {
        self.row.class == Class::Expr
    }

    /// How many lines.
    pub fn size(&self) -> usize {
        1 + self.children.iter().map(Line::size).sum::<usize>()
    }

    /// The nesting of expressions.
    pub fn depth(&self) -> usize {
        let inner = self.children.iter().map(Line::depth).max().unwrap_or(0);
        inner + usize::from(self.is_expr())
    }

    fn write(&self, text: &mut Vec<u8>) {
        text.extend_from_slice(self.row.word.as_bytes());
        for field in &self.fields {
            text.push(b',');
            text.extend_from_slice(field.as_bytes());
        }
        text.push(b'\n');
        for child in &self.children {
            child.write(text);
        }
    }

    /// The place of the count among the fields.
    pub fn count_field(&self) -> Option<usize> {
        self.row.fields.iter().position(|f| *f == Field::Count)
    }

    /// This line and all below it, in order.
    pub fn visit<'a>(&'a self, see: &mut impl FnMut(&'a Line)) {
        see(self);
        for child in &self.children {
            child.visit(see);
        }
    }

    /// This line and all below it, in order.
    pub fn visit_mut(&mut self, see: &mut impl FnMut(&mut Line)) {
        see(self);
        for child in &mut self.children {
            child.visit_mut(see);
        }
    }
}

/// Hexadecimal digits of a name.
pub fn hex(name: impl AsRef<[u8]>) -> String {
    name.as_ref().iter().map(|b| format!("{b:02x}")).collect()
}

/// A whole sheet.
#[derive(Debug, Clone, Default)]
pub struct Tree {
    pub bindings: Vec<(u32, char)>,
    pub clauses: Vec<Line>,
}

impl Tree {
    /// A sheet that returns these expressions.
    pub fn returning(exprs: Vec<Line>) -> Self {
        let count = exprs.len().to_string();
        let projections = exprs
            .into_iter()
            .map(|e| Line::new("pro", &["-"], vec![e]))
            .collect();
        Tree {
            bindings: Vec::new(),
            clauses: vec![Line::new("ret", &["0", &count], projections)],
        }
    }

    pub fn text(&self) -> Vec<u8> {
        let mut text = b"cyrs,1\n".to_vec();
        for (v, kind) in &self.bindings {
            text.extend_from_slice(format!("b,{v},{kind}\n").as_bytes());
        }
        for clause in &self.clauses {
            clause.write(&mut text);
        }
        text.extend_from_slice(b"end\n");
        text
    }

    pub fn visit<'a>(&'a self, see: &mut impl FnMut(&'a Line)) {
        for clause in &self.clauses {
            clause.visit(see);
        }
    }

    pub fn visit_mut(&mut self, see: &mut impl FnMut(&mut Line)) {
        for clause in &mut self.clauses {
            clause.visit_mut(see);
        }
    }

    /// The tree of a sheet that is free of causes 3, 4 and 5.
    pub fn parse(sheet: &[u8]) -> Option<Tree> {
        if crate::sheet::read_sheet(sheet).is_err() {
            return None;
        }
        let text = std::str::from_utf8(sheet).ok()?;
        let mut lines = text.lines().skip(1).peekable();
        let mut tree = Tree::default();
        while let Some(line) = lines.peek().and_then(|l| l.strip_prefix("b,")) {
            let (v, kind) = line.split_once(',')?;
            tree.bindings.push((v.parse().ok()?, kind.chars().next()?));
            lines.next();
        }
        while *lines.peek()? != "end" {
            tree.clauses.push(parse_line(&mut lines)?);
        }
        Some(tree)
    }
}

fn parse_line<'a>(lines: &mut impl Iterator<Item = &'a str>) -> Option<Line> {
    let mut parts = lines.next()?.split(',');
    let row = row_of(parts.next()?)?;
    let fields: Vec<String> = parts.map(str::to_string).collect();
    let mut children = Vec::new();
    for _ in row.children(&fields) {
        children.push(parse_line(lines)?);
    }
    Some(Line {
        row,
        fields,
        children,
    })
}
