//! Elements that are no numbers have another size in C than in the MIR: only their own size, by its name, may count
//! them, and it may do no more.

use crate::mir::{bodies, operands_of, Body, Op, Operand, Statement, Type, Value};
use crate::refused::{ensure, Result};
use crate::uses::Uses;

pub fn ensure_sized(uses: &Uses) -> Result<()> {
    look(uses, &uses.function.body)
}

fn look(uses: &Uses, body: &Body) -> Result<()> {
    for (k, statement) in body.iter().enumerate() {
        let of_size = |operand: &&Operand| matches!(operand, Operand::SizeOf(_));
        if !matches!(statement, Statement::Assign(_, Value::Op(Op::Mul, ..))) {
            let sizes = operands_of(statement).into_iter().filter(of_size).count();
            ensure!(sizes == 0, "{}: a size that counts no elements", uses.function.symbol);
        }
        if let Statement::Assign(target, Value::Op(Op::Offset, _, by)) = statement {
            let Type::Reference { to, .. } = &uses.locals[target.local] else { continue };
            let counted = matches!(to.pointed(), Type::Int(_)) || is_counted(&body[..k], by, to.pointed());
            ensure!(counted, "{}: {to:?} counted by more than its size", uses.function.symbol);
        }
        bodies(statement).into_iter().try_for_each(|inner| look(uses, inner))?;
    }
    Ok(())
}

/// Whether a number of bytes was made right before, of a number of those elements.
fn is_counted(before: &[Statement], by: &Operand, of: &Type) -> bool {
    let Operand::Copy(place) = by else { return false };
    for statement in before.iter().rev() {
        match statement {
            Statement::Assign(target, value) if target == place => {
                return matches!(value, Value::Op(Op::Mul, _, Operand::SizeOf(size)) if size == of);
            }
            Statement::Assign(..) => (),
            _ => return false,
        }
    }
    false
}
