//! Byte forms: which bytes are a type, an environment, a formula, and what tree they spell. Reading stops at the first fault, in
//! stream order; at one record its own form (kind, body, operator, name, count) is looked at before the limits, and both before its children.

/// The first fault: its number (3 environment, 4 formula, 5 limit) and its place.
#[derive(Debug, Clone, Copy, PartialEq, Eq)]
pub struct Fault {
    pub number: u32,
    pub place: usize,
}

type Read<T> = Result<T, Fault>;

/// Deepest record, the root (or an environment's entry) being 0.
pub const DEPTH: usize = 64;
/// Most slots.
pub const SLOTS: usize = 1_024;
/// Most declarations open at once.
pub const OPEN: usize = 64;

#[derive(Debug, Clone, PartialEq, Eq)]
pub enum Ty {
    Bool,
    Int,
    Given(u16),
    Pow(Box<Ty>),
    Prod(Box<Ty>, Box<Ty>),
}

/// A spelled type, or none for 4F.
pub type Spelled = Option<Ty>;

/// An expression record at its place.
#[derive(Debug)]
pub struct Expr {
    pub at: usize,
    pub kind: ExprKind,
}

#[derive(Debug)]
pub enum ExprKind {
    Free(u16),
    Bound(u16),
    Literal,
    Atomic(u8),
    Extension(Vec<Expr>),
    Bool(Box<Pred>),
    Binary(u8, Box<Expr>, Box<Expr>),
    Associative(u8, Vec<Expr>),
    Unary(u8, Box<Expr>),
    Quantified(u8, Vec<Decl>, Box<Pred>, Box<Expr>),
    /// The spelled type's record has a place of its own.
    Ascription(Box<Expr>, usize, Spelled),
    Explicit(Ty, Box<Expr>),
}

impl Expr {
    /// The place that a parent speaks of: for a 0C, the place of the expression inside.
    pub fn place(&self) -> usize {
        match &self.kind {
            ExprKind::Explicit(_, inner) => inner.at,
            _ => self.at,
        }
    }
}

#[derive(Debug)]
pub struct Decl {
    pub at: usize,
    pub kind: DeclKind,
}

#[derive(Debug)]
pub enum DeclKind {
    Plain,
    Typed(Ty),
    Annotated(Spelled),
}

#[derive(Debug)]
pub struct Pred {
    pub at: usize,
    pub kind: PredKind,
}

#[derive(Debug)]
pub enum PredKind {
    Literal,
    Variable,
    Relational(u8, Expr, Expr),
    Binary(Box<Pred>, Box<Pred>),
    Associative(Vec<Pred>),
    Not(Box<Pred>),
    Quantified(Vec<Decl>, Box<Pred>),
    Simple(Expr),
    Multiple(Vec<Expr>),
    Application(Vec<Expr>),
}

/// A target of an assignment: a free name at its place.
#[derive(Debug)]
pub struct Target {
    pub at: usize,
    pub name: u16,
}

#[derive(Debug)]
pub enum Formula {
    Expr(Expr),
    Pred(Pred),
    Equal(Vec<(Target, Expr)>),
    Member(Vec<Target>, Expr),
    /// The last is the assignment's own place.
    Such(Vec<Target>, Vec<Decl>, Pred, usize),
}

/// What a record counts towards beside its depth.
enum Owns {
    Nothing,
    Slot,
    Declaration,
}

struct Reader<'a> {
    bytes: &'a [u8],
    at: usize,
    names: u32,
    /// The number of a malformed record: 3 in an environment, 4 elsewhere.
    malformed: u32,
    slots: usize,
    open: usize,
}

impl<'a> Reader<'a> {
    fn new(bytes: &'a [u8], names: u32, malformed: u32) -> Reader<'a> {
        Reader { bytes, at: 0, names, malformed, slots: 0, open: 0 }
    }

    fn bad<T>(&self, place: usize) -> Read<T> {
        Err(Fault { number: self.malformed, place })
    }

    /// The kind byte of the record that is due here. A record with no byte at all is missing: its place is the length.
    fn kind(&mut self) -> Read<u8> {
        match self.bytes.get(self.at) {
            Some(&kind) => {
                self.at += 1;
                Ok(kind)
            }
            None => self.bad(self.bytes.len()),
        }
    }

    /// A byte of the body of the record at `place`, which is cut where there is none.
    fn byte(&mut self, place: usize) -> Read<u8> {
        match self.bytes.get(self.at) {
            Some(&byte) => {
                self.at += 1;
                Ok(byte)
            }
            None => self.bad(place),
        }
    }

    fn two(&mut self, place: usize) -> Read<u16> {
        Ok(u16::from_le_bytes([self.byte(place)?, self.byte(place)?]))
    }

    fn name(&mut self, place: usize) -> Read<u16> {
        let name = self.two(place)?;
        if u32::from(name) < self.names {
            Ok(name)
        } else {
            self.bad(place)
        }
    }

    /// An operator up to the last of its family.
    fn operator(&mut self, place: usize, last: u8) -> Read<u8> {
        let op = self.byte(place)?;
        if op <= last {
            Ok(op)
        } else {
            self.bad(place)
        }
    }

    fn count(&mut self, place: usize, least: u16) -> Read<u16> {
        let count = self.two(place)?;
        if count >= least {
            Ok(count)
        } else {
            self.bad(place)
        }
    }

    /// A 1-byte count, at least 1.
    fn small_count(&mut self, place: usize) -> Read<u8> {
        let count = self.byte(place)?;
        if count >= 1 {
            Ok(count)
        } else {
            self.bad(place)
        }
    }

    /// The limits, once the record's own form is good.
    fn limits(&mut self, place: usize, depth: usize, owns: Owns) -> Read<()> {
        let (slots, open) = match owns {
            Owns::Nothing => (0, 0),
            Owns::Slot => (1, 0),
            Owns::Declaration => (1, 1),
        };
        self.slots += slots;
        self.open += open;
        if depth > DEPTH || self.slots > SLOTS || self.open > OPEN {
            return Err(Fault { number: 5, place });
        }
        Ok(())
    }

    /// A type record, or 4F where that may stand.
    fn spelled(&mut self, depth: usize, or_none: bool) -> Read<Spelled> {
        let place = self.at;
        let kind = self.kind()?;
        let mut given = 0;
        match kind {
            0x40 | 0x41 | 0x43 | 0x44 => {}
            0x42 => given = self.name(place)?,
            0x4F if or_none => {}
            _ => return self.bad(place),
        }
        self.limits(place, depth, Owns::Nothing)?;
        Ok(match kind {
            0x40 => Some(Ty::Bool),
            0x41 => Some(Ty::Int),
            0x42 => Some(Ty::Given(given)),
            0x43 => Some(Ty::Pow(Box::new(self.ty(depth + 1)?))),
            0x44 => {
                let left = self.ty(depth + 1)?;
                let right = self.ty(depth + 1)?;
                Some(Ty::Prod(Box::new(left), Box::new(right)))
            }
            _ => None,
        })
    }

    fn ty(&mut self, depth: usize) -> Read<Ty> {
        Ok(self.spelled(depth, false)?.expect("4F was refused"))
    }

    fn expr(&mut self, depth: usize) -> Read<Expr> {
        self.expr_or(depth, true)
    }

    /// An expression; 0C only where it may stand.
    fn expr_or(&mut self, depth: usize, explicit: bool) -> Read<Expr> {
        let at = self.at;
        let kind = self.kind()?;
        let kind = match kind {
            0x01 => {
                let name = self.name(at)?;
                self.limits(at, depth, Owns::Slot)?;
                ExprKind::Free(name)
            }
            0x02 => {
                let index = self.two(at)?;
                self.limits(at, depth, Owns::Slot)?;
                ExprKind::Bound(index)
            }
            0x03 => {
                self.limits(at, depth, Owns::Slot)?;
                ExprKind::Literal
            }
            0x04 => {
                let op = self.operator(at, 11)?;
                self.limits(at, depth, Owns::Slot)?;
                ExprKind::Atomic(op)
            }
            0x05 => {
                let count = self.count(at, 1)?;
                self.limits(at, depth, Owns::Slot)?;
                ExprKind::Extension(self.exprs(count, depth + 1)?)
            }
            0x06 => {
                self.limits(at, depth, Owns::Slot)?;
                ExprKind::Bool(Box::new(self.pred(depth + 1)?))
            }
            0x07 => {
                let op = self.operator(at, 26)?;
                self.limits(at, depth, Owns::Slot)?;
                let left = self.expr(depth + 1)?;
                let right = self.expr(depth + 1)?;
                ExprKind::Binary(op, Box::new(left), Box::new(right))
            }
            0x08 => {
                let op = self.operator(at, 6)?;
                let count = self.count(at, 2)?;
                self.limits(at, depth, Owns::Slot)?;
                ExprKind::Associative(op, self.exprs(count, depth + 1)?)
            }
            0x09 => {
                let op = self.operator(at, 10)?;
                self.limits(at, depth, Owns::Slot)?;
                ExprKind::Unary(op, Box::new(self.expr(depth + 1)?))
            }
            0x0A => {
                let op = self.operator(at, 2)?;
                let count = self.small_count(at)?;
                self.limits(at, depth, Owns::Slot)?;
                let decls = self.decls(count, depth + 1)?;
                let pred = self.pred(depth + 1)?;
                let value = self.expr(depth + 1)?;
                self.open -= decls.len();
                ExprKind::Quantified(op, decls, Box::new(pred), Box::new(value))
            }
            0x0B => {
                self.limits(at, depth, Owns::Slot)?;
                let inner = self.expr(depth + 1)?;
                let place = self.at;
                let spelled = self.spelled(depth + 1, true)?;
                ExprKind::Ascription(Box::new(inner), place, spelled)
            }
            0x0C if explicit => {
                self.limits(at, depth, Owns::Nothing)?;
                let ty = self.ty(depth + 1)?;
                ExprKind::Explicit(ty, Box::new(self.expr_or(depth + 1, false)?))
            }
            _ => return self.bad(at),
        };
        Ok(Expr { at, kind })
    }

    fn exprs(&mut self, count: u16, depth: usize) -> Read<Vec<Expr>> {
        (0..count).map(|_| self.expr(depth)).collect()
    }

    fn decls(&mut self, count: u8, depth: usize) -> Read<Vec<Decl>> {
        (0..count).map(|_| self.decl(depth)).collect()
    }

    /// A declaration is open from its own record to the end of its binder.
    fn decl(&mut self, depth: usize) -> Read<Decl> {
        let at = self.at;
        let kind = self.kind()?;
        if !(0x10..=0x12).contains(&kind) {
            return self.bad(at);
        }
        self.limits(at, depth, Owns::Declaration)?;
        let kind = match kind {
            0x10 => DeclKind::Plain,
            0x11 => DeclKind::Typed(self.ty(depth + 1)?),
            _ => DeclKind::Annotated(self.spelled(depth + 1, true)?),
        };
        Ok(Decl { at, kind })
    }

    fn pred(&mut self, depth: usize) -> Read<Pred> {
        let at = self.at;
        let kind = match self.kind()? {
            0x20 => {
                self.limits(at, depth, Owns::Nothing)?;
                PredKind::Literal
            }
            0x21 => {
                self.limits(at, depth, Owns::Nothing)?;
                PredKind::Variable
            }
            0x22 => {
                let op = self.operator(at, 11)?;
                self.limits(at, depth, Owns::Nothing)?;
                let left = self.expr(depth + 1)?;
                let right = self.expr(depth + 1)?;
                PredKind::Relational(op, left, right)
            }
            0x23 => {
                self.limits(at, depth, Owns::Nothing)?;
                let left = self.pred(depth + 1)?;
                let right = self.pred(depth + 1)?;
                PredKind::Binary(Box::new(left), Box::new(right))
            }
            0x24 => {
                let count = self.count(at, 2)?;
                self.limits(at, depth, Owns::Nothing)?;
                PredKind::Associative((0..count).map(|_| self.pred(depth + 1)).collect::<Read<_>>()?)
            }
            0x25 => {
                self.limits(at, depth, Owns::Nothing)?;
                PredKind::Not(Box::new(self.pred(depth + 1)?))
            }
            0x26 => {
                let count = self.small_count(at)?;
                self.limits(at, depth, Owns::Nothing)?;
                let decls = self.decls(count, depth + 1)?;
                let pred = self.pred(depth + 1)?;
                self.open -= decls.len();
                PredKind::Quantified(decls, Box::new(pred))
            }
            0x27 => {
                self.limits(at, depth, Owns::Nothing)?;
                PredKind::Simple(self.expr(depth + 1)?)
            }
            0x28 => {
                let count = self.count(at, 1)?;
                self.limits(at, depth, Owns::Nothing)?;
                PredKind::Multiple(self.exprs(count, depth + 1)?)
            }
            0x29 => {
                let count = self.count(at, 0)?;
                self.limits(at, depth, Owns::Nothing)?;
                PredKind::Application(self.exprs(count, depth + 1)?)
            }
            _ => return self.bad(at),
        };
        Ok(Pred { at, kind })
    }

    fn target(&mut self, depth: usize) -> Read<Target> {
        let at = self.at;
        if self.kind()? != 0x01 {
            return self.bad(at);
        }
        let name = self.name(at)?;
        self.limits(at, depth, Owns::Slot)?;
        Ok(Target { at, name })
    }

    fn targets(&mut self, count: u8, depth: usize) -> Read<Vec<Target>> {
        (0..count).map(|_| self.target(depth)).collect()
    }

    /// The root, at depth 0.
    fn root(&mut self) -> Read<Formula> {
        let Some(&kind) = self.bytes.first() else { return self.bad(0) };
        match kind {
            0x20..=0x29 => Ok(Formula::Pred(self.pred(0)?)),
            0x30..=0x32 => {
                self.at = 1;
                let count = self.small_count(0)?;
                match kind {
                    0x30 => {
                        let pair = |reader: &mut Self| Ok((reader.target(1)?, reader.expr(1)?));
                        Ok(Formula::Equal((0..count).map(|_| pair(self)).collect::<Read<_>>()?))
                    }
                    0x31 => {
                        let targets = self.targets(count, 1)?;
                        Ok(Formula::Member(targets, self.expr(1)?))
                    }
                    _ => {
                        let targets = self.targets(count, 1)?;
                        let decls = self.decls(count, 1)?;
                        let pred = self.pred(1)?;
                        Ok(Formula::Such(targets, decls, pred, 0))
                    }
                }
            }
            _ => Ok(Formula::Expr(self.expr(0)?)),
        }
    }

    /// Nothing may be left over.
    fn end(&self) -> Read<()> {
        if self.at == self.bytes.len() {
            Ok(())
        } else {
            self.bad(self.at)
        }
    }
}

/// The formula that the bytes spell.
pub fn formula(bytes: &[u8], names: u32) -> Result<Formula, Fault> {
    let mut reader = Reader::new(bytes, names, 4);
    let formula = reader.root()?;
    reader.end()?;
    Ok(formula)
}

/// The environment that the bytes spell, in order.
pub fn environment(bytes: &[u8], names: u32) -> Result<Vec<(u16, Ty)>, Fault> {
    let mut reader = Reader::new(bytes, names, 3);
    let mut entries: Vec<(u16, Ty)> = Vec::new();
    while reader.at < bytes.len() {
        let place = reader.at;
        if reader.kind()? != 0x50 {
            return reader.bad(place);
        }
        let name = reader.name(place)?;
        if entries.iter().any(|(other, _)| *other == name) {
            return reader.bad(place);
        }
        let ty = reader.ty(1)?;
        entries.push((name, ty));
    }
    Ok(entries)
}

/// The type that the bytes spell on their own, the root at depth 0.
pub fn type_record(bytes: &[u8], names: u32) -> Result<Ty, Fault> {
    let mut reader = Reader::new(bytes, names, 4);
    let ty = reader.ty(0)?;
    reader.end()?;
    Ok(ty)
}
