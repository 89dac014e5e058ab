//! Stand-in: the walk over components that erases their spans. Formulas have no part in it.

use super::{Component, Context, Machine, Span};

pub trait VisitMut: Sized {
    fn visit_optional_span(&mut self, _span: &mut Option<Span>) {}

    fn visit_context(&mut self, context: &mut Context) {
        walk_context(self, context);
    }

    fn visit_machine(&mut self, machine: &mut Machine) {
        walk_machine(self, machine);
    }

    fn visit_component(&mut self, component: &mut Component) {
        match component {
            Component::Context(context) => self.visit_context(context),
            Component::Machine(machine) => self.visit_machine(machine),
        }
    }
}

pub fn walk_context<V: VisitMut>(visitor: &mut V, context: &mut Context) {
    visitor.visit_optional_span(&mut context.span);
    visitor.visit_optional_span(&mut context.name_span);
}

pub fn walk_machine<V: VisitMut>(visitor: &mut V, machine: &mut Machine) {
    visitor.visit_optional_span(&mut machine.span);
    visitor.visit_optional_span(&mut machine.name_span);
}
