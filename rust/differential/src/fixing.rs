//! Plans brought to their fixed forms one after the other: a plan, and then the form that an
//! implementation makes of it, or another plan.

use crate::cases::{Case, Outcome};
use crate::implementation::Implementation;
use crate::round_trips::first_part;
use reference::random::forms::{altered_case, redrawn_case, FormCase};
use reference::random::Random;

/// What is handed to the call that fixes forms, and then, with the form that it leaves as the plan,
/// to the same call.
#[derive(Clone, Debug)]
pub struct FormOfFormCase {
    /// What the first call is handed.
    pub fixing: FormCase,
    /// The second call's area, with the bytes it has before.
    pub area: Vec<u8>,
}

impl FormOfFormCase {
    /// The form brought to its form, in an area that holds it exactly or is a little longer: none
    /// where the first call is refused.
    pub(crate) fn of(random: &mut Random, fixing: &FormCase) -> Option<FormOfFormCase> {
        let size = fixing.run().answer.ok()?;
        let length = size + random.below(3);
        Some(FormOfFormCase {
            fixing: fixing.clone(),
            area: random.lent(length),
        })
    }

    /// Makes the form, and the form of what was made. The outcome is that of the second call, with
    /// that of the first before it; or that of the first, where it is refused.
    pub(crate) fn run(&self, implementation: &impl Implementation) -> Outcome {
        let fixed = Case::FixForm(self.fixing.clone()).run(implementation);
        match first_part(&fixed, 0, fixed.answer.values[0]) {
            Some(form) => then_fixed(fixed, implementation, &self.fixing, &form, &self.area),
            None => fixed,
        }
    }
}

/// What is handed to the call that fixes forms, and then, with another plan under the same tables,
/// to the same call.
#[derive(Clone, Debug)]
pub struct TwoFormsCase {
    /// What the first call is handed.
    pub fixing: FormCase,
    /// The second call's plan.
    pub plan: Vec<u8>,
    /// The second call's area, with the bytes it has before.
    pub area: Vec<u8>,
}

impl TwoFormsCase {
    /// A basic plan, and the same one drawn in another way, which has the same form, or one with a
    /// change: none where the first plan has no form.
    pub(crate) fn of(random: &mut Random, fixing: &FormCase) -> Option<TwoFormsCase> {
        let other = match random.once_in(2) {
            true => redrawn_case(random, fixing)?,
            false => altered_case(random, fixing)?,
        };
        Some(TwoFormsCase {
            fixing: fixing.clone(),
            plan: other.plan,
            area: other.area,
        })
    }

    /// Makes both forms. The outcome is that of the second call, with that of the first before it.
    pub(crate) fn run(&self, implementation: &impl Implementation) -> Outcome {
        let fixed = Case::FixForm(self.fixing.clone()).run(implementation);
        then_fixed(fixed, implementation, &self.fixing, &self.plan, &self.area)
    }
}

/// The outcome of the call with another plan and another area, after that of the first.
fn then_fixed(
    before: Outcome,
    implementation: &impl Implementation,
    fixing: &FormCase,
    plan: &[u8],
    area: &[u8],
) -> Outcome {
    let second = FormCase {
        tables: fixing.tables.clone(),
        plan: plan.to_vec(),
        area: area.to_vec(),
    };
    Outcome {
        before: vec![before],
        ..Case::FixForm(second).run(implementation)
    }
}
