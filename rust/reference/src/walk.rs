//! The walk over a formula, and its finish. It makes nodes, compares and lists problems in the order of the bought checker, and never
//! looks at what a comparison answered.

use crate::arena::{Arena, Clash, Ref, Stop};
use crate::form::{Decl, DeclKind, Expr, ExprKind, Formula, Pred, PredKind, Spelled, Target, Ty};

type Walked<T> = Result<T, Stop>;

/// Problem numbers.
const TYPES_DO_NOT_MATCH: u8 = 0;
const CIRCULARITY: u8 = 1;
const UNTYPED_EXPRESSION: u8 = 2;
const UNTYPED_IDENTIFIER: u8 = 3;
const DANGLING_BOUND_IDENTIFIER: u8 = 4;
const UNCHECKABLE_APPLICATION: u8 = 5;

/// No name: every problem but an untyped identifier.
const NO_NAME: u16 = 0xFFFF;

pub enum Verdict {
    Typed,
    Problems,
}

/// A free name that the environment lacks, as first met.
struct Met {
    name: u16,
    node: Ref,
    place: usize,
}

pub struct Walk<'a> {
    pub arena: Arena,
    environment: &'a [(u16, Ty)],
    /// Environment types already lifted, by name.
    lifted: Vec<(u16, Ref)>,
    met: Vec<Met>,
    /// The open declarations, the last declared last.
    bound: Vec<Ref>,
    /// Every slot's node and place, in stream order.
    slots: Vec<(Ref, usize)>,
    /// The 60 entries.
    pub problems: Vec<u8>,
}

impl<'a> Walk<'a> {
    pub fn new(environment: &'a [(u16, Ty)], capacity: usize, budget: u64) -> Walk<'a> {
        Walk {
            arena: Arena::new(capacity, budget),
            environment,
            lifted: Vec::new(),
            met: Vec::new(),
            bound: Vec::new(),
            slots: Vec::new(),
            problems: Vec::new(),
        }
    }

    /// Walks the formula and tests what is left unknown: names first, slots only where the list of problems is still empty.
    pub fn check(&mut self, formula: &Formula) -> Walked<Verdict> {
        self.formula(formula)?;
        for i in 0..self.met.len() {
            if !self.arena.solved(self.met[i].node)? {
                let Met { name, place, .. } = self.met[i];
                self.problem(UNTYPED_IDENTIFIER, place, name);
            }
        }
        if self.problems.is_empty() {
            for i in 0..self.slots.len() {
                let (node, place) = self.slots[i];
                if !self.arena.solved(node)? {
                    self.problem(UNTYPED_EXPRESSION, place, NO_NAME);
                }
            }
        }
        Ok(if self.problems.is_empty() { Verdict::Typed } else { Verdict::Problems })
    }

    /// The 50 and 51 entries of a typed formula, or none where they are longer than the room.
    pub fn typing(&self, room: usize) -> Option<Vec<u8>> {
        let mut out = Vec::new();
        for Met { name, node, .. } in &self.met {
            out.push(0x50);
            out.extend(name.to_le_bytes());
            self.arena.put_type(*node, room, &mut out);
        }
        for (node, place) in &self.slots {
            out.push(0x51);
            out.extend((*place as u32).to_le_bytes());
            self.arena.put_type(*node, room, &mut out);
            if out.len() > room {
                break;
            }
        }
        (out.len() <= room).then_some(out)
    }

    fn problem(&mut self, problem: u8, place: usize, name: u16) {
        self.problems.extend([0x60, problem]);
        self.problems.extend((place as u32).to_le_bytes());
        self.problems.extend(name.to_le_bytes());
    }

    /// Compares two references; a clash lists its problem at the place.
    fn expect(&mut self, a: Ref, b: Ref, place: usize) -> Walked<()> {
        match self.arena.unify(a, b)? {
            Ok(()) => {}
            Err(Clash::Mismatch) => self.problem(TYPES_DO_NOT_MATCH, place, NO_NAME),
            Err(Clash::Circular) => self.problem(CIRCULARITY, place, NO_NAME),
        }
        Ok(())
    }

    fn held(&self, name: u16) -> Option<&'a Ty> {
        self.environment.iter().find(|(n, _)| *n == name).map(|(_, ty)| ty)
    }

    /// A name that the environment lacks: one unknown, made where it is first met.
    fn met(&mut self, name: u16, place: usize) -> Walked<Ref> {
        if let Some(met) = self.met.iter().find(|met| met.name == name) {
            return Ok(met.node);
        }
        let node = self.arena.fresh()?;
        self.met.push(Met { name, node, place });
        Ok(node)
    }

    fn free(&mut self, name: u16, place: usize) -> Walked<Ref> {
        let Some(ty) = self.held(name) else { return self.met(name, place) };
        if let Some((_, node)) = self.lifted.iter().find(|(n, _)| *n == name) {
            return Ok(*node);
        }
        let node = self.arena.lift(ty)?;
        self.lifted.push((name, node));
        Ok(node)
    }

    /// Each occurrence of a given name that the environment lacks, left to right: the name has type ℙ(itself).
    fn note(&mut self, ty: &Ty, place: usize) -> Walked<()> {
        match ty {
            Ty::Bool | Ty::Int => Ok(()),
            Ty::Given(name) => {
                if self.held(*name).is_some() {
                    return Ok(());
                }
                let node = self.met(*name, place)?;
                let given = self.arena.lift(ty)?;
                let set = self.arena.pow(given)?;
                self.expect(node, set, place)
            }
            Ty::Pow(base) => self.note(base, place),
            Ty::Prod(left, right) => {
                self.note(left, place)?;
                self.note(right, place)
            }
        }
    }

    /// A type compared with a node.
    fn typed(&mut self, node: Ref, ty: &Ty, place: usize) -> Walked<()> {
        let lifted = self.arena.lift(ty)?;
        self.expect(node, lifted, place)
    }

    /// The declarations' nodes, in order; they are not open yet.
    fn declare(&mut self, decls: &[Decl]) -> Walked<Vec<Ref>> {
        let mut nodes = Vec::new();
        for decl in decls {
            self.arena.pay()?;
            let node = self.arena.fresh()?;
            self.slots.push((node, decl.at));
            match &decl.kind {
                DeclKind::Plain | DeclKind::Annotated(None) => {}
                DeclKind::Typed(ty) => self.typed(node, ty, decl.at)?,
                DeclKind::Annotated(Some(ty)) => {
                    self.note(ty, decl.at)?;
                    self.typed(node, ty, decl.at)?;
                }
            }
            nodes.push(node);
        }
        Ok(nodes)
    }

    fn formula(&mut self, formula: &Formula) -> Walked<()> {
        match formula {
            Formula::Expr(e) => {
                self.expr(e)?;
            }
            Formula::Pred(p) => self.pred(p)?,
            Formula::Equal(pairs) => {
                self.arena.pay()?;
                for (target, value) in pairs {
                    let t = self.target(target)?;
                    let v = self.expr(value)?;
                    self.expect(v, t, value.place())?;
                }
            }
            Formula::Member(targets, set) => {
                self.arena.pay()?;
                let mut element = None;
                for target in targets {
                    let t = self.target(target)?;
                    element = Some(match element {
                        None => t,
                        Some(before) => self.arena.prod(before, t)?,
                    });
                }
                let expected = self.arena.pow(element.expect("at least one target"))?;
                let s = self.expr(set)?;
                self.expect(s, expected, set.place())?;
            }
            Formula::Such(targets, decls, pred, at) => {
                self.arena.pay()?;
                let mut nodes = Vec::new();
                for target in targets {
                    nodes.push(self.target(target)?);
                }
                let declared = self.declare(decls)?;
                for (declared, target) in declared.iter().zip(&nodes) {
                    self.expect(*declared, *target, *at)?;
                }
                self.under(&declared, |walk| walk.pred(pred))?;
            }
        }
        Ok(())
    }

    fn target(&mut self, target: &Target) -> Walked<Ref> {
        self.arena.pay()?;
        let node = self.free(target.name, target.at)?;
        self.slots.push((node, target.at));
        Ok(node)
    }

    /// A part walked with declarations open.
    fn under<T>(&mut self, declared: &[Ref], part: impl FnOnce(&mut Self) -> Walked<T>) -> Walked<T> {
        let before = self.bound.len();
        self.bound.extend(declared);
        let result = part(self);
        self.bound.truncate(before);
        result
    }

    fn expr(&mut self, e: &Expr) -> Walked<Ref> {
        self.arena.pay()?;
        if let ExprKind::Explicit(ty, inner) = &e.kind {
            let node = self.expr(inner)?;
            self.typed(node, ty, inner.at)?;
            return Ok(node);
        }
        let slot = self.slots.len();
        self.slots.push((0, e.at));
        let node = self.inner(e)?;
        self.slots[slot].0 = node;
        Ok(node)
    }

    fn inner(&mut self, e: &Expr) -> Walked<Ref> {
        match &e.kind {
            ExprKind::Free(name) => self.free(*name, e.at),
            ExprKind::Bound(index) => {
                let index = usize::from(*index);
                if index < self.bound.len() {
                    Ok(self.bound[self.bound.len() - 1 - index])
                } else {
                    self.problem(DANGLING_BOUND_IDENTIFIER, e.at, NO_NAME);
                    self.arena.fresh()
                }
            }
            ExprKind::Literal => self.arena.int(),
            ExprKind::Atomic(op) => self.atomic(*op),
            ExprKind::Extension(members) => {
                let alpha = self.arena.fresh()?;
                self.all(members, alpha)?;
                self.arena.pow(alpha)
            }
            ExprKind::Bool(pred) => {
                self.pred(pred)?;
                self.arena.bool()
            }
            ExprKind::Binary(op, left, right) => {
                let l = self.expr(left)?;
                let r = self.expr(right)?;
                self.binary(*op, l, r, e.at)
            }
            ExprKind::Associative(op, children) => self.associative(*op, children),
            ExprKind::Unary(op, child) => {
                let c = self.expr(child)?;
                self.unary(*op, c, child.place())
            }
            ExprKind::Quantified(op, decls, pred, value) => {
                let declared = self.declare(decls)?;
                let v = self.under(&declared, |walk| {
                    walk.pred(pred)?;
                    walk.expr(value)
                })?;
                match op {
                    // quantified union, intersection
                    0 | 1 => {
                        let alpha = self.arena.fresh()?;
                        let set = self.arena.pow(alpha)?;
                        self.expect(v, set, value.place())?;
                        Ok(set)
                    }
                    // comprehension
                    _ => self.arena.pow(v),
                }
            }
            ExprKind::Ascription(inner, place, spelled) => {
                let node = self.expr(inner)?;
                self.ascribed(node, spelled, *place, e.at)?;
                Ok(node)
            }
            ExprKind::Explicit(..) => unreachable!("an explicit type owns no slot"),
        }
    }

    fn ascribed(&mut self, node: Ref, spelled: &Spelled, type_place: usize, at: usize) -> Walked<()> {
        match spelled {
            Some(ty) => {
                self.note(ty, type_place)?;
                self.typed(node, ty, at)
            }
            None => {
                self.problem(TYPES_DO_NOT_MATCH, type_place, NO_NAME);
                Ok(())
            }
        }
    }

    /// Walks the children, each compared with the same node at its place.
    fn all(&mut self, children: &[Expr], node: Ref) -> Walked<()> {
        for child in children {
            let c = self.expr(child)?;
            self.expect(c, node, child.place())?;
        }
        Ok(())
    }

    fn atomic(&mut self, op: u8) -> Walked<Ref> {
        let a = &mut self.arena;
        match op {
            // ℤ, ℕ, ℕ1
            0..=2 => {
                let int = a.int()?;
                a.pow(int)
            }
            // BOOL
            3 => {
                let boolean = a.bool()?;
                a.pow(boolean)
            }
            // TRUE, FALSE
            4 | 5 => a.bool(),
            // pred, succ
            6 | 7 => {
                let left = a.int()?;
                let right = a.int()?;
                a.relation(left, right)
            }
            // ∅
            8 => {
                let alpha = a.fresh()?;
                a.pow(alpha)
            }
            // id
            9 => {
                let alpha = a.fresh()?;
                a.relation(alpha, alpha)
            }
            // prj1, prj2
            _ => {
                let alpha = a.fresh()?;
                let beta = a.fresh()?;
                let pair = a.prod(alpha, beta)?;
                a.relation(pair, if op == 10 { alpha } else { beta })
            }
        }
    }

    fn binary(&mut self, op: u8, l: Ref, r: Ref, at: usize) -> Walked<Ref> {
        match op {
            // ↦
            0 => self.arena.prod(l, r),
            // the relation family, then ×
            1..=11 | 13 => {
                let alpha = self.arena.fresh()?;
                let beta = self.arena.fresh()?;
                let left = self.arena.pow(alpha)?;
                let right = self.arena.pow(beta)?;
                self.expect(l, left, at)?;
                self.expect(r, right, at)?;
                let relation = self.arena.relation(alpha, beta)?;
                if op == 13 {
                    Ok(relation)
                } else {
                    self.arena.pow(relation)
                }
            }
            // ∖
            12 => {
                let alpha = self.arena.fresh()?;
                let set = self.arena.pow(alpha)?;
                self.expect(l, set, at)?;
                self.expect(r, set, at)?;
                Ok(set)
            }
            // ⊗
            14 => {
                let alpha = self.arena.fresh()?;
                let beta = self.arena.fresh()?;
                let gamma = self.arena.fresh()?;
                let left = self.arena.relation(alpha, beta)?;
                let right = self.arena.relation(alpha, gamma)?;
                self.expect(l, left, at)?;
                self.expect(r, right, at)?;
                let pair = self.arena.prod(beta, gamma)?;
                self.arena.relation(alpha, pair)
            }
            // ∥
            15 => {
                let alpha = self.arena.fresh()?;
                let beta = self.arena.fresh()?;
                let gamma = self.arena.fresh()?;
                let delta = self.arena.fresh()?;
                let left = self.arena.relation(alpha, beta)?;
                let right = self.arena.relation(gamma, delta)?;
                self.expect(l, left, at)?;
                self.expect(r, right, at)?;
                let sources = self.arena.prod(alpha, gamma)?;
                let targets = self.arena.prod(beta, delta)?;
                self.arena.relation(sources, targets)
            }
            // ◁, ⩤
            16 | 17 => {
                let alpha = self.arena.fresh()?;
                let beta = self.arena.fresh()?;
                let set = self.arena.pow(alpha)?;
                let relation = self.arena.relation(alpha, beta)?;
                self.expect(l, set, at)?;
                self.expect(r, relation, at)?;
                Ok(relation)
            }
            // ▷, ⩥
            18 | 19 => {
                let alpha = self.arena.fresh()?;
                let beta = self.arena.fresh()?;
                let relation = self.arena.relation(alpha, beta)?;
                let set = self.arena.pow(beta)?;
                self.expect(l, relation, at)?;
                self.expect(r, set, at)?;
                Ok(relation)
            }
            // ‥, then −, ÷, mod, ^
            20..=24 => {
                let int = self.arena.int()?;
                self.expect(l, int, at)?;
                self.expect(r, int, at)?;
                if op == 20 {
                    self.arena.pow(int)
                } else {
                    Ok(int)
                }
            }
            // application
            25 => {
                let alpha = self.arena.fresh()?;
                let beta = self.arena.fresh()?;
                let relation = self.arena.relation(alpha, beta)?;
                self.expect(l, relation, at)?;
                self.expect(r, alpha, at)?;
                Ok(beta)
            }
            // image
            _ => {
                let alpha = self.arena.fresh()?;
                let beta = self.arena.fresh()?;
                let relation = self.arena.relation(alpha, beta)?;
                let set = self.arena.pow(alpha)?;
                self.expect(l, relation, at)?;
                self.expect(r, set, at)?;
                self.arena.pow(beta)
            }
        }
    }

    fn associative(&mut self, op: u8, children: &[Expr]) -> Walked<Ref> {
        match op {
            // ∪, ∩
            0 | 1 => {
                let alpha = self.arena.fresh()?;
                let set = self.arena.pow(alpha)?;
                self.all(children, set)?;
                Ok(set)
            }
            // override
            2 => {
                let alpha = self.arena.fresh()?;
                let beta = self.arena.fresh()?;
                let relation = self.arena.relation(alpha, beta)?;
                self.all(children, relation)?;
                Ok(relation)
            }
            // forward and backward composition: each child's far end is the next one's near end
            3 | 4 => {
                let first = self.arena.fresh()?;
                let mut near = first;
                for child in children {
                    let far = self.arena.fresh()?;
                    let relation = if op == 3 { self.arena.relation(near, far)? } else { self.arena.relation(far, near)? };
                    let c = self.expr(child)?;
                    self.expect(c, relation, child.place())?;
                    near = far;
                }
                if op == 3 {
                    self.arena.relation(first, near)
                } else {
                    self.arena.relation(near, first)
                }
            }
            // +, ∗
            _ => {
                let int = self.arena.int()?;
                self.all(children, int)?;
                Ok(int)
            }
        }
    }

    fn unary(&mut self, op: u8, c: Ref, place: usize) -> Walked<Ref> {
        match op {
            // card, then ℙ, ℙ1
            0..=2 => {
                let alpha = self.arena.fresh()?;
                let set = self.arena.pow(alpha)?;
                self.expect(c, set, place)?;
                if op == 0 {
                    self.arena.int()
                } else {
                    self.arena.pow(set)
                }
            }
            // union, inter
            3 | 4 => {
                let alpha = self.arena.fresh()?;
                let set = self.arena.pow(alpha)?;
                let family = self.arena.pow(set)?;
                self.expect(c, family, place)?;
                Ok(set)
            }
            // dom, ran, converse
            5 | 6 | 9 => {
                let alpha = self.arena.fresh()?;
                let beta = self.arena.fresh()?;
                let relation = self.arena.relation(alpha, beta)?;
                self.expect(c, relation, place)?;
                match op {
                    5 => self.arena.pow(alpha),
                    6 => self.arena.pow(beta),
                    _ => self.arena.relation(beta, alpha),
                }
            }
            // min, max
            7 | 8 => {
                let int = self.arena.int()?;
                let set = self.arena.pow(int)?;
                self.expect(c, set, place)?;
                Ok(int)
            }
            // unary minus
            _ => {
                let int = self.arena.int()?;
                self.expect(c, int, place)?;
                Ok(int)
            }
        }
    }

    fn pred(&mut self, p: &Pred) -> Walked<()> {
        self.arena.pay()?;
        match &p.kind {
            PredKind::Literal | PredKind::Variable => Ok(()),
            PredKind::Relational(op, left, right) => {
                let l = self.expr(left)?;
                let r = self.expr(right)?;
                self.relational(*op, l, r, left.place(), right.place(), p.at)
            }
            PredKind::Binary(left, right) => {
                self.pred(left)?;
                self.pred(right)
            }
            PredKind::Associative(children) => children.iter().try_for_each(|child| self.pred(child)),
            PredKind::Not(child) => self.pred(child),
            PredKind::Quantified(decls, body) => {
                let declared = self.declare(decls)?;
                self.under(&declared, |walk| walk.pred(body))
            }
            PredKind::Simple(child) => {
                let c = self.expr(child)?;
                let alpha = self.arena.fresh()?;
                let set = self.arena.pow(alpha)?;
                self.expect(c, set, child.place())
            }
            PredKind::Multiple(children) => {
                let alpha = self.arena.fresh()?;
                let set = self.arena.pow(alpha)?;
                self.all(children, set)
            }
            PredKind::Application(arguments) => {
                for argument in arguments {
                    self.expr(argument)?;
                }
                self.problem(UNCHECKABLE_APPLICATION, p.at, NO_NAME);
                Ok(())
            }
        }
    }

    fn relational(&mut self, op: u8, l: Ref, r: Ref, left: usize, right: usize, at: usize) -> Walked<()> {
        match op {
            // =, ≠
            0 | 1 => self.expect(l, r, at),
            // <, ≤, >, ≥
            2..=5 => {
                let int = self.arena.int()?;
                self.expect(l, int, left)?;
                self.expect(r, int, right)
            }
            // ∈, ∉: the set stands on the left of the comparison
            6 | 7 => {
                let set = self.arena.pow(l)?;
                self.expect(r, set, at)
            }
            // ⊂, ⊄, ⊆, ⊈
            _ => {
                let alpha = self.arena.fresh()?;
                let set = self.arena.pow(alpha)?;
                self.expect(l, set, left)?;
                self.expect(r, set, right)?;
                self.expect(l, r, at)
            }
        }
    }
}
