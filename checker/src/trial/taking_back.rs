//! Document 02, ask 6, "Taking a delivery back": "after a booked pair the opposite one, same security, quantity, amount
//! and day, settled as the next call, is accepted and restores every position and balance". For which pairs this is
//! wanted goes by the literal reading of the chain rule, over the rows of their day.

use super::calls;
use super::coverage::Coverage;
use super::forms::{Form, FORMS, SIDED};
use super::implementation::{difference, same, Answer, Call, Implementation, Model, Store};
use super::literal::{day_of, in_order, Rows, Way};
use super::random::Random;
use crate::booking::{Cents, Half, Units};
use crate::chain::Step;
use crate::command::Command;
use crate::directory::Day;

/// "This is wanted for chains of one step, for default chains, and where just one of the two directed walks reaches."
const WANTED: [Way; 6] = [
    Way::OneStep,
    Way::DefaultsMeet,
    Way::TwoIssuers,
    Way::TwoExternalEnds,
    Way::OnlyFromDelivering,
    Way::OnlyFromReceiving,
];

/// What comes of the opposite pair.
#[derive(Clone, Copy, PartialEq, Eq, PartialOrd, Ord, Debug)]
pub enum WayBack {
    Restored,
    OtherChain,
    Refused(u8),
}

/// "Where both reach, the way back may be another chain": the walk from the other end has mirrors where the first chain
/// has omnibus accounts, so that it never restores. It may lack a row, or holdings on an omnibus account.
const WHERE_BOTH_REACH: [WayBack; 3] = [WayBack::OtherChain, WayBack::Refused(18), WayBack::Refused(20)];

/// "Amount 0 touches none."
#[derive(Clone, Copy, PartialEq, Eq, PartialOrd, Ord, Debug)]
pub enum Payment {
    Free,
    Against,
}

/// How a booked pair was taken back, the form being that of the opposite pair.
pub type TakenBack = (Way, WayBack, Form, Payment);

pub fn all_ways() -> Vec<TakenBack> {
    let wanted = WANTED.map(|way| (way, WayBack::Restored));
    let others = WHERE_BOTH_REACH.map(|way_back| (Way::BothReach, way_back));
    let mut all = Vec::new();
    for (way, way_back) in wanted.into_iter().chain(others) {
        for form in FORMS {
            all.extend([Payment::Free, Payment::Against].map(|payment| (way, way_back, form, payment)));
        }
    }
    all
}

/// A settlement that was booked, with the positions and cash before it and the store that it left.
pub struct BookedPair<'a> {
    delivering: Half,
    receiving: Half,
    day: Day,
    length: usize,
    positions: Vec<Units>,
    cash: Vec<Cents>,
    left: &'a Store,
}

impl<'a> BookedPair<'a> {
    /// The pair of a call with its answer, if that is booked.
    pub fn of(
        call: &Call,
        answer: &Answer,
        (positions, cash): (Vec<Units>, Vec<Cents>),
        left: &'a Store,
    ) -> Option<BookedPair<'a>> {
        let (Call::Command(command), Answer::Booked(length)) = (call, *answer) else { return None };
        let ((delivering, receiving), day) = in_order(command).zip(day_of(command))?;
        Some(BookedPair { delivering, receiving, day, length, positions, cash, left })
    }

    /// The opposite pair: each half stays as it is and changes its side.
    pub fn opposite(&self, form: Form) -> Command {
        form.settle(self.receiving, self.delivering, self.day)
    }

    /// Settles the opposite pair by place, and with sides and either half first, each over a copy of the store that
    /// this one left and a step list of its own.
    pub fn take_back(
        &self,
        rows: &Rows,
        random: &mut Random,
        subject: &mut impl Implementation,
        coverage: &mut Coverage,
    ) -> Result<(), String> {
        let Half { account, security, amount, .. } = self.delivering;
        let way = rows.on(self.day).way(security, account, self.receiving.account);
        let way = way.map_err(|number| format!("booked, where {number} is due"))?;
        let payment = if amount.0 == 0 { Payment::Free } else { Payment::Against };
        for form in [Form::ByPlace, random.pick(&SIDED)] {
            let opposite = Call::Command(self.opposite(form));
            let lent = Store { steps: calls::enough_steps(random), ..self.left.clone() };
            let way_back = self.settle_opposite(&opposite, way, lent, subject);
            let way_back = way_back.map_err(|text| format!("taken back ({way:?}) by {opposite:?}: {text}"))?;
            coverage.taken_back((way, way_back, form, payment));
        }
        Ok(())
    }

    /// Holds the opposite pair against what is due, by the text where it is wanted and else by the model.
    fn settle_opposite(
        &self,
        opposite: &Call,
        way: Way,
        mut store: Store,
        subject: &mut impl Implementation,
    ) -> Result<WayBack, String> {
        let (due, left_due) = if WANTED.contains(&way) {
            self.restored(&store.steps)
        } else {
            let mut left = store.clone();
            (Model.call(&mut left, opposite), left)
        };
        let answer = subject.call(&mut store, opposite);
        if answer != due {
            return Err(format!("{answer:?}, not {due:?}"));
        }
        if let Some(part) = difference(&left_due, &store) {
            return Err(format!("{answer:?}, but another {part} than is due"));
        }
        Ok(match answer {
            Answer::Refused(number) => WayBack::Refused(number),
            _ if same(&store.positions, &self.positions) => WayBack::Restored,
            _ => WayBack::OtherChain,
        })
    }

    /// "Is accepted and restores every position and balance": by the same chain from its other end. The other steps
    /// lent and the directory stay as they are.
    fn restored(&self, lent: &[Step]) -> (Answer, Store) {
        let turned = |&Step { csd, debit, credit }: &Step| Step { csd, debit: credit, credit: debit };
        let chain: Vec<Step> = self.left.steps[..self.length].iter().rev().map(turned).collect();
        let left = Store {
            directory: self.left.directory.clone(),
            positions: self.positions.clone(),
            cash: self.cash.clone(),
            steps: [&chain, &lent[self.length..]].concat(),
        };
        (Answer::Booked(self.length), left)
    }
}
