//! The crate's evaluator: the rule as its AST and the bindings in its context, both made once.
use crate::cases::Case;
use crate::show::{number, show};
use crate::table::read;
use cel::common::value::{CowVal, Val};
use cel::{Context, Env, ExecutionError, IdedExpr, Value};
use std::sync::Arc;

pub struct Given {
    rule: IdedExpr,
    scope: Context<'static, 'static>,
}

impl Given {
    pub fn of(case: &Case) -> Given {
        let env = Arc::new(Env::stdlib().with_duplicate_map_key_errors(true));
        let mut scope = Context::with_env(env.clone());
        for (name, value) in &case.bindings {
            let spelled = read(&value.text, &value.table, false, true).expect("a binding");
            let empty = Context::with_env(env.clone());
            let value = Value::resolve_val(&spelled, &empty).expect("a binding's value");
            // copied, so that it owns all it holds
            let owned: Box<dyn Val> = Value::try_from(value.as_ref()).ok().and_then(|value| value.try_into().ok()).expect("a value");
            scope.add_variable_as_val(format!("n{name}"), owned);
        }
        Given { rule: read(&case.rule.text, &case.rule.table, false, false).expect("a rule"), scope }
    }

    pub fn evaluate(&self) -> Result<CowVal<'_, 'static>, ExecutionError> {
        Value::resolve_val(&self.rule, &self.scope)
    }

    pub fn answer(&self) -> String {
        let mut out = String::new();
        match self.evaluate() {
            Ok(value) => show(&mut out, value.as_ref()),
            Err(error) => out = format!("Error {}", number(&error)),
        }
        out
    }
}
