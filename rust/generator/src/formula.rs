//! Formulas under environments. A plan gives every name a type; a formula is then made from the type that is wanted at each
//! place, and, as the style has it, here and there from another type, or from none.

use crate::web::web;
use crate::{damage, Case, Rng, Ty};

/// How a case is made.
#[derive(Debug, Clone, Copy, PartialEq, Eq, Hash, PartialOrd, Ord)]
pub enum Style {
    /// By plan throughout: typable or ambiguous.
    Planned,
    /// By plan, with breaks: a clash or two.
    Broken,
    /// Any record under any other.
    Wild,
    /// Equalities and memberships over many names without a type.
    Web,
    /// One of the others, its bytes damaged.
    Damaged,
    /// Bytes of the record kinds, in any order.
    Bytes,
}

pub const STYLES: [Style; 6] = [Style::Planned, Style::Broken, Style::Wild, Style::Web, Style::Damaged, Style::Bytes];

/// A case of a style.
pub fn case(rng: &mut Rng, style: Style) -> Case {
    let most = if style == Style::Web { 40 } else { 6 };
    let names = 1 + rng.below(most) as u16;
    let fuel = match rng.below(12) {
        0..=3 => 1 + rng.below(6),
        4..=8 => 6 + rng.below(20),
        9 | 10 => 20 + rng.below(40),
        _ => 60 + rng.below(120),
    };
    case_sized(rng, style, names, fuel)
}

/// A case of a style with so many names and about so many records.
pub fn case_sized(rng: &mut Rng, style: Style, names: u16, fuel: usize) -> Case {
    let (breaks, wild) = match style {
        Style::Planned => (0, 0),
        Style::Broken => (1 + rng.below(12) as u32, rng.below(8) as u32),
        Style::Wild => (0, 100),
        Style::Web => return web(rng, names, fuel),
        Style::Damaged => (rng.below(6) as u32, rng.below(10) as u32),
        Style::Bytes => return bytes(rng, names),
    };
    let givens = rng.below(usize::from(names) + 1) as u16;
    let mut maker = Maker { out: Vec::new(), plan: Vec::new(), bound: Vec::new(), givens, fuel: fuel as i64, breaks, wild, rng };
    for name in 0..names {
        let ty = if name < givens { Ty::pow(Ty::Given(name)) } else { Ty::any(maker.rng, 3, givens) };
        maker.plan.push(ty);
    }
    maker.root();
    let formula = std::mem::take(&mut maker.out);
    maker.environment();
    let Maker { out: mut environment, rng, .. } = maker;
    let mut formula = formula;
    let mut names = u32::from(names);
    if style == Style::Damaged {
        match rng.below(6) {
            0 => damage(rng, &mut environment),
            1 => names = rng.below(names as usize + 1) as u32,
            _ => damage(rng, &mut formula),
        }
    }
    Case { formula, environment, names }
}

/// Bytes that look like records.
fn bytes(rng: &mut Rng, names: u16) -> Case {
    const LIKELY: [u8; 36] = [
        1, 2, 3, 4, 5, 6, 7, 8, 9, 10, 11, 12, 0x10, 0x11, 0x12, 0x20, 0x21, 0x22, 0x23, 0x24, 0x25, 0x26, 0x27, 0x28,
        0x29, 0x30, 0x31, 0x32, 0x40, 0x41, 0x42, 0x43, 0x44, 0x4F, 0, 0,
    ];
    let mut some = |most: usize, first: &[u8]| {
        let mut bytes: Vec<u8> = first.to_vec();
        for _ in 0..rng.below(most) {
            let byte = if rng.chance(90) { *rng.pick(&LIKELY) } else { rng.byte() };
            bytes.push(byte);
        }
        bytes
    };
    let formula = some(24, &[]);
    let environment = some(8, &[0x50, 0, 0]);
    let environment = if rng.chance(60) { Vec::new() } else { environment };
    Case { formula, environment, names: u32::from(names) }
}

struct Maker<'r> {
    rng: &'r mut Rng,
    out: Vec<u8>,
    /// Every name's planned type; names below `givens` are given sets.
    plan: Vec<Ty>,
    givens: u16,
    /// Planned types of the open declarations, the last declared last.
    bound: Vec<Ty>,
    /// Records left to spend.
    fuel: i64,
    /// How often, in 100 records, another type than the planned one is made.
    breaks: u32,
    /// How often, in 100 records, any record is made.
    wild: u32,
}

/// Deepest record made by plan.
const DEEP: usize = 40;

impl Maker<'_> {
    fn op(&mut self, kind: u8, op: u8) {
        self.out.extend([kind, op]);
    }

    fn any_type(&mut self) -> Ty {
        let (levels, givens) = (self.rng.below(4), self.givens);
        Ty::any(self.rng, levels, givens)
    }

    fn name(&mut self) -> u16 {
        self.rng.below(self.plan.len()) as u16
    }

    fn put(&mut self, ty: &Ty) {
        ty.put(&mut self.out);
    }

    /// The environment: some of the plan, in any order, rarely another type.
    fn environment(&mut self) {
        let held = *self.rng.pick(&[0, 30, 50, 80, 100]);
        let mut order: Vec<u16> = (0..self.plan.len() as u16).collect();
        for i in (1..order.len()).rev() {
            order.swap(i, self.rng.below(i + 1));
        }
        for name in order {
            if self.rng.chance(held) {
                let mut ty = self.plan[usize::from(name)].clone();
                if self.rng.chance(self.breaks.min(20)) {
                    ty = self.any_type();
                }
                self.out.push(0x50);
                self.out.extend(name.to_le_bytes());
                self.put(&ty);
            }
        }
    }

    fn root(&mut self) {
        match self.rng.below(10) {
            0..=1 => {
                let ty = self.any_type();
                self.expression(&ty, 0);
            }
            2..=7 => self.predicate(0),
            _ => self.assignment(),
        }
    }

    fn assignment(&mut self) {
        let count = 1 + self.rng.below(3);
        let kind = 0x30 + self.rng.below(3) as u8;
        self.op(kind, count as u8);
        let targets: Vec<u16> = (0..count).map(|_| self.name()).collect();
        let planned = |maker: &Self, name: u16| maker.plan[usize::from(name)].clone();
        match kind {
            0x30 => {
                for name in targets {
                    self.free(name);
                    let ty = planned(self, name);
                    self.expression(&ty, 1);
                }
            }
            0x31 => {
                let mut element: Option<Ty> = None;
                for name in targets {
                    self.free(name);
                    let ty = planned(self, name);
                    element = Some(match element {
                        None => ty,
                        Some(before) => Ty::prod(before, ty),
                    });
                }
                let set = Ty::pow(element.expect("at least one target"));
                self.expression(&set, 1);
            }
            _ => {
                for name in &targets {
                    self.free(*name);
                }
                for name in targets {
                    let ty = planned(self, name);
                    self.declaration(&ty);
                    self.bound.push(ty);
                }
                self.predicate(1);
                self.bound.clear();
            }
        }
    }

    fn free(&mut self, name: u16) {
        self.out.push(0x01);
        self.out.extend(name.to_le_bytes());
    }

    fn declaration(&mut self, ty: &Ty) {
        match self.rng.below(10) {
            0..=5 => self.out.push(0x10),
            6 | 7 => {
                self.out.push(0x11);
                self.spelled(ty);
            }
            _ => {
                self.out.push(0x12);
                if self.rng.chance(10) {
                    self.out.push(0x4F);
                } else {
                    self.spelled(ty);
                }
            }
        }
    }

    /// The type's record, or rarely another's.
    fn spelled(&mut self, ty: &Ty) {
        if self.rng.chance(self.breaks) {
            let other = self.any_type();
            self.put(&other);
        } else {
            self.put(ty);
        }
    }

    /// One to three declarations, opened.
    fn declarations(&mut self) -> Vec<Ty> {
        let count = match self.rng.below(12) {
            0..=6 => 1,
            7..=9 => 2,
            _ => 3,
        };
        self.out.push(count as u8);
        let types: Vec<Ty> = (0..count).map(|_| self.any_type()).collect();
        for ty in &types {
            self.declaration(ty);
        }
        types
    }

    fn predicate(&mut self, depth: usize) {
        self.fuel -= 1;
        if self.fuel <= 0 || depth > DEEP {
            self.out.push(0x20 + self.rng.below(2) as u8);
            return;
        }
        match self.rng.below(24) {
            0 => self.out.push(0x20 + self.rng.below(2) as u8),
            1..=10 => {
                let op = self.rng.below(12) as u8;
                self.op(0x22, op);
                let (left, right) = match op {
                    0 | 1 => {
                        let ty = self.any_type();
                        (ty.clone(), ty)
                    }
                    2..=5 => (Ty::Int, Ty::Int),
                    6 | 7 => {
                        let ty = self.any_type();
                        (ty.clone(), Ty::pow(ty))
                    }
                    _ => {
                        let ty = Ty::pow(self.any_type());
                        (ty.clone(), ty)
                    }
                };
                self.expression(&left, depth + 1);
                self.expression(&right, depth + 1);
            }
            11 | 12 => {
                self.out.push(0x23);
                self.predicate(depth + 1);
                self.predicate(depth + 1);
            }
            13 | 14 => {
                let count = 2 + self.rng.below(3) as u16;
                self.out.push(0x24);
                self.out.extend(count.to_le_bytes());
                for _ in 0..count {
                    self.predicate(depth + 1);
                }
            }
            15 => {
                self.out.push(0x25);
                self.predicate(depth + 1);
            }
            16..=18 => {
                self.out.push(0x26);
                let types = self.declarations();
                self.under(types, |maker| maker.predicate(depth + 1));
            }
            19 => {
                self.out.push(0x27);
                let ty = Ty::pow(self.any_type());
                self.expression(&ty, depth + 1);
            }
            20..=22 => {
                let count = 1 + self.rng.below(3) as u16;
                self.out.push(0x28);
                self.out.extend(count.to_le_bytes());
                let ty = Ty::pow(self.any_type());
                for _ in 0..count {
                    self.expression(&ty, depth + 1);
                }
            }
            _ => {
                if self.breaks + self.wild == 0 || self.rng.chance(50) {
                    self.out.push(0x21);
                    return;
                }
                let count = self.rng.below(3) as u16;
                self.out.push(0x29);
                self.out.extend(count.to_le_bytes());
                for _ in 0..count {
                    let ty = self.any_type();
                    self.expression(&ty, depth + 1);
                }
            }
        }
    }

    fn under(&mut self, types: Vec<Ty>, part: impl FnOnce(&mut Self)) {
        let before = self.bound.len();
        self.bound.extend(types);
        part(self);
        self.bound.truncate(before);
    }

    /// An expression of the type by plan.
    fn expression(&mut self, ty: &Ty, depth: usize) {
        if self.rng.chance(3) {
            self.out.push(0x0C);
            self.spelled(ty);
            self.bare(ty, depth + 1);
        } else {
            self.bare(ty, depth);
        }
    }

    /// An expression that is no 0C.
    fn bare(&mut self, ty: &Ty, depth: usize) {
        self.fuel -= 1;
        if self.rng.chance(self.wild) {
            return self.any_record(depth);
        }
        if self.rng.chance(self.breaks) {
            let other = self.any_type();
            return self.made(&other, depth);
        }
        self.made(ty, depth)
    }

    fn made(&mut self, ty: &Ty, depth: usize) {
        if self.fuel <= 0 || depth > DEEP || self.rng.chance(30) {
            return self.leaf(ty);
        }
        let next = depth + 1;
        match self.rng.below(20) {
            0 => {
                self.out.push(0x0B);
                self.expression(ty, next);
                if self.breaks > 0 && self.rng.chance(8) {
                    self.out.push(0x4F);
                } else {
                    self.spelled(ty);
                }
                return;
            }
            1 | 2 => {
                // An application of a function.
                let from = self.any_type();
                self.op(0x07, 25);
                self.expression(&Ty::relation(from.clone(), ty.clone()), next);
                self.expression(&from, next);
                return;
            }
            _ => {}
        }
        match ty {
            Ty::Bool => {
                if self.rng.chance(60) {
                    self.out.push(0x06);
                    self.predicate(next);
                } else {
                    self.leaf(ty);
                }
            }
            Ty::Int => self.integer(next),
            Ty::Given(_) => self.leaf(ty),
            Ty::Prod(left, right) => {
                self.op(0x07, 0);
                self.expression(left, next);
                self.expression(right, next);
            }
            Ty::Pow(base) => self.set(ty, base, next),
        }
    }

    fn integer(&mut self, next: usize) {
        match self.rng.below(8) {
            0 | 1 => {
                let op = 21 + self.rng.below(4) as u8;
                self.op(0x07, op);
                self.expression(&Ty::Int, next);
                self.expression(&Ty::Int, next);
            }
            2 | 3 => {
                let op = 5 + self.rng.below(2) as u8;
                self.some(op, &[Ty::Int], next);
            }
            4 => {
                self.op(0x09, 10);
                self.expression(&Ty::Int, next);
            }
            5 => {
                self.op(0x09, 0);
                let ty = Ty::pow(self.any_type());
                self.expression(&ty, next);
            }
            6 => {
                let op = 7 + self.rng.below(2) as u8;
                self.op(0x09, op);
                self.expression(&Ty::pow(Ty::Int), next);
            }
            _ => self.leaf(&Ty::Int),
        }
    }

    /// An associative record: one type for all children, or one for each.
    fn some(&mut self, op: u8, types: &[Ty], next: usize) {
        let count = if types.len() > 1 { types.len() } else { 2 + self.rng.below(3) };
        self.op(0x08, op);
        self.out.extend((count as u16).to_le_bytes());
        for i in 0..count {
            let ty = types[i.min(types.len() - 1)].clone();
            self.expression(&ty, next);
        }
    }

    fn set(&mut self, ty: &Ty, base: &Ty, next: usize) {
        loop {
            match self.rng.below(24) {
                0 => return self.leaf(ty),
                1..=3 => {
                    let count = 1 + self.rng.below(3) as u16;
                    self.out.push(0x05);
                    self.out.extend(count.to_le_bytes());
                    for _ in 0..count {
                        self.expression(base, next);
                    }
                    return;
                }
                4 => {
                    let op = self.rng.below(2) as u8;
                    return self.some(op, &[ty.clone()], next);
                }
                5 => {
                    self.op(0x07, 12);
                    self.expression(ty, next);
                    self.expression(ty, next);
                    return;
                }
                6 | 7 => {
                    let op = self.rng.below(3) as u8;
                    self.op(0x0A, op);
                    let types = self.declarations();
                    let value = if op == 2 { base.clone() } else { ty.clone() };
                    self.under(types, |maker| {
                        maker.predicate(next);
                        maker.expression(&value, next);
                    });
                    return;
                }
                8 => {
                    let op = 3 + self.rng.below(2) as u8;
                    self.op(0x09, op);
                    self.expression(&Ty::pow(ty.clone()), next);
                    return;
                }
                9 => {
                    let op = 5 + self.rng.below(2) as u8;
                    let other = self.any_type();
                    self.op(0x09, op);
                    let child = if op == 5 { Ty::relation(base.clone(), other) } else { Ty::relation(other, base.clone()) };
                    self.expression(&child, next);
                    return;
                }
                10 => {
                    let from = self.any_type();
                    self.op(0x07, 26);
                    self.expression(&Ty::relation(from.clone(), base.clone()), next);
                    self.expression(&Ty::pow(from), next);
                    return;
                }
                11 if *base == Ty::Int => {
                    self.op(0x07, 20);
                    self.expression(&Ty::Int, next);
                    self.expression(&Ty::Int, next);
                    return;
                }
                12..=16 => {
                    if let Ty::Pow(inner) = base {
                        if let (Ty::Prod(left, right), true) = (inner.as_ref(), self.rng.chance(70)) {
                            let op = 1 + self.rng.below(11) as u8;
                            self.op(0x07, op);
                            self.expression(&Ty::pow((**left).clone()), next);
                            self.expression(&Ty::pow((**right).clone()), next);
                        } else {
                            let op = 1 + self.rng.below(2) as u8;
                            self.op(0x09, op);
                            self.expression(base, next);
                        }
                        return;
                    }
                    if let Ty::Prod(left, right) = base {
                        return self.relation(ty, left, right, next);
                    }
                }
                _ => {
                    if let Ty::Prod(left, right) = base {
                        return self.relation(ty, left, right, next);
                    }
                }
            }
        }
    }

    fn relation(&mut self, ty: &Ty, left: &Ty, right: &Ty, next: usize) {
        match self.rng.below(10) {
            0 => {
                self.op(0x07, 13);
                self.expression(&Ty::pow(left.clone()), next);
                self.expression(&Ty::pow(right.clone()), next);
            }
            1 => {
                let op = 16 + self.rng.below(2) as u8;
                self.op(0x07, op);
                self.expression(&Ty::pow(left.clone()), next);
                self.expression(ty, next);
            }
            2 => {
                let op = 18 + self.rng.below(2) as u8;
                self.op(0x07, op);
                self.expression(ty, next);
                self.expression(&Ty::pow(right.clone()), next);
            }
            3 => {
                self.op(0x09, 9);
                self.expression(&Ty::relation(right.clone(), left.clone()), next);
            }
            4 => self.some(2, &[ty.clone()], next),
            5 | 6 => {
                // A composition through one or two types between.
                let mut ends = vec![left.clone()];
                for _ in 0..=self.rng.below(2) {
                    let between = self.any_type();
                    ends.push(between);
                }
                ends.push(right.clone());
                let forward: Vec<Ty> = ends.windows(2).map(|w| Ty::relation(w[0].clone(), w[1].clone())).collect();
                if self.rng.chance(50) {
                    self.some(3, &forward, next);
                } else {
                    let backward: Vec<Ty> = forward.into_iter().rev().collect();
                    self.some(4, &backward, next);
                }
            }
            7 | 8 => match (left, right) {
                (_, Ty::Prod(b, c)) if self.rng.chance(50) || !matches!(left, Ty::Prod(..)) => {
                    self.op(0x07, 14);
                    self.expression(&Ty::relation(left.clone(), (**b).clone()), next);
                    self.expression(&Ty::relation(left.clone(), (**c).clone()), next);
                }
                (Ty::Prod(a, c), Ty::Prod(b, d)) => {
                    self.op(0x07, 15);
                    self.expression(&Ty::relation((**a).clone(), (**b).clone()), next);
                    self.expression(&Ty::relation((**c).clone(), (**d).clone()), next);
                }
                _ => self.leaf(ty),
            },
            _ => self.leaf(ty),
        }
    }

    /// A record without children that has the type; where there is none, a function applied.
    fn leaf(&mut self, ty: &Ty) {
        let mut names: Vec<Vec<u8>> = Vec::new();
        for (name, planned) in self.plan.iter().enumerate() {
            if planned == ty {
                names.push(vec![0x01, name as u8, (name >> 8) as u8]);
            }
        }
        for (index, planned) in self.bound.iter().rev().enumerate() {
            if planned == ty {
                names.push(vec![0x02, index as u8, (index >> 8) as u8]);
            }
        }
        let mut atoms: Vec<Vec<u8>> = Vec::new();
        match ty {
            Ty::Int => atoms.push(vec![0x03]),
            Ty::Bool => atoms.extend([vec![0x04, 4], vec![0x04, 5]]),
            Ty::Pow(base) => {
                atoms.push(vec![0x04, 8]);
                match &**base {
                    Ty::Int => atoms.extend((0..3).map(|op| vec![0x04, op])),
                    Ty::Bool => atoms.extend([vec![0x04, 3], vec![0x04, 3]]),
                    Ty::Prod(left, right) => {
                        if left == right {
                            atoms.push(vec![0x04, 9]);
                            if **left == Ty::Int {
                                atoms.extend([vec![0x04, 6], vec![0x04, 7]]);
                            }
                        }
                        if let Ty::Prod(a, b) = &**left {
                            if a == right {
                                atoms.push(vec![0x04, 10]);
                            }
                            if b == right {
                                atoms.push(vec![0x04, 11]);
                            }
                        }
                    }
                    _ => {}
                }
            }
            _ => {}
        }
        let choice = if !names.is_empty() && (atoms.is_empty() || self.rng.chance(60)) { names } else { atoms };
        if choice.is_empty() {
            // ∅ applied to a literal, with the type that makes it fit.
            self.op(0x07, 25);
            self.out.push(0x0C);
            self.put(&Ty::relation(Ty::Int, ty.clone()));
            self.out.extend([0x04, 8, 0x03]);
            return;
        }
        let leaf = self.rng.pick(&choice).clone();
        self.out.extend(leaf);
    }

    /// Any record, its children made for any type.
    fn any_record(&mut self, depth: usize) {
        let next = depth + 1;
        if self.fuel <= 0 || depth > DEEP {
            return match self.rng.below(6) {
                0 | 1 => {
                    let name = self.name();
                    self.free(name);
                }
                2 => {
                    let index = self.rng.below(self.bound.len() + 2) as u16;
                    self.out.push(0x02);
                    self.out.extend(index.to_le_bytes());
                }
                3 => self.out.push(0x03),
                _ => {
                    let op = self.rng.below(12) as u8;
                    self.op(0x04, op);
                }
            };
        }
        let ty = self.any_type();
        match self.rng.below(20) {
            0 | 1 => {
                let name = self.name();
                self.free(name);
            }
            2 => {
                let index = self.rng.below(self.bound.len() + 2) as u16;
                self.out.push(0x02);
                self.out.extend(index.to_le_bytes());
            }
            3 => self.out.push(0x03),
            4 | 5 => {
                let op = self.rng.below(12) as u8;
                self.op(0x04, op);
            }
            6 => {
                let count = 1 + self.rng.below(3) as u16;
                self.out.push(0x05);
                self.out.extend(count.to_le_bytes());
                for _ in 0..count {
                    self.expression(&ty, next);
                }
            }
            7 => {
                self.out.push(0x06);
                self.predicate(next);
            }
            8..=11 => {
                let op = self.rng.below(27) as u8;
                let other = self.any_type();
                self.op(0x07, op);
                self.expression(&ty, next);
                self.expression(&other, next);
            }
            12 | 13 => {
                let op = self.rng.below(7) as u8;
                self.some(op, &[ty], next);
            }
            14..=16 => {
                let op = self.rng.below(11) as u8;
                self.op(0x09, op);
                self.expression(&ty, next);
            }
            17 | 18 => {
                let op = self.rng.below(3) as u8;
                self.op(0x0A, op);
                let types = self.declarations();
                self.under(types, |maker| {
                    maker.predicate(next);
                    maker.expression(&ty, next);
                });
            }
            _ => {
                self.out.push(0x0B);
                self.expression(&ty, next);
                if self.rng.chance(15) {
                    self.out.push(0x4F);
                } else {
                    let spelled = self.any_type();
                    self.put(&spelled);
                }
            }
        }
    }
}
