//! The chain of a settlement: which CSDs it passes, and the step in the books of each.

use crate::directory::Day;
use crate::numbers::{AccountNumber, CsdNumber, SecurityNumber};
use crate::refusal::Refusal;
use crate::register::{Duo, Register};
use crate::walk::{Side, WalkEnd, SIDE};

/// "K is at most 16."
pub const STEPS: usize = 16;

/// What a chain does in one CSD's books.
#[derive(Clone, Copy, PartialEq, Eq, Debug, Default)]
pub struct Step {
    pub csd: u8,
    pub debit: u16,
    pub credit: u16,
}

/// The accounts of a step as a side is climbed: the one towards its participant, and the one towards the other side.
#[derive(Clone, Copy, Debug, Default)]
pub struct Leg {
    pub near: AccountNumber,
    pub far: AccountNumber,
}

/// An account debited, and an account credited.
pub type Accounts = (AccountNumber, AccountNumber);

impl Leg {
    /// On the delivering side.
    pub fn up(&self) -> Accounts {
        (self.near, self.far)
    }

    /// On the receiving side.
    pub fn down(&self) -> Accounts {
        (self.far, self.near)
    }
}

/// A side with its legs, both from its participant.
#[derive(Clone, Debug, Default)]
pub struct Climb {
    side: Side,
    legs: [Leg; SIDE],
}

impl Climb {
    pub fn legs(&self) -> &[Leg] {
        &self.legs[..self.side.length()]
    }

    /// Each CSD with its leg.
    pub fn iter(&self) -> impl DoubleEndedIterator<Item = (CsdNumber, &Leg)> {
        self.side.csds().iter().copied().zip(self.legs())
    }

    /// Gives the last leg its far account.
    fn end(&mut self, far: AccountNumber) {
        self.legs[self.side.length() - 1].far = far;
    }
}

/// The steps of a chain. The CSD where both sides meet is the delivering side's.
#[derive(Clone, Debug, Default)]
pub struct Chain {
    /// In the order of steps. They debit near accounts, a participant and omnibus accounts.
    pub delivering: Climb,
    /// The last step first. They debit far accounts: mirror, inter-CSD and issuance accounts.
    pub receiving: Climb,
}

impl Chain {
    /// How many steps it has.
    pub fn length(&self) -> usize {
        self.delivering.side.length() + self.receiving.side.length()
    }

    /// The steps, from the delivering to the receiving side.
    pub fn steps(&self) -> impl Iterator<Item = Step> + '_ {
        let step = |csd: CsdNumber, (debit, credit): Accounts| Step {
            csd: csd.0,
            debit: debit.0.into(),
            credit: credit.0.into(),
        };
        let up = self.delivering.iter().map(move |(csd, leg)| step(csd, leg.up()));
        up.chain(self.receiving.iter().rev().map(move |(csd, leg)| step(csd, leg.down())))
    }
}

/// How the two sides of a chain come together.
enum Meeting {
    /// Both sides end at the same CSD.
    Shared,
    /// Each side ends at an issuer of its own, with an issuance account.
    Issuers(AccountNumber, AccountNumber),
    /// Each side goes on to an external CSD.
    Outside(CsdNumber, CsdNumber),
}

impl Register {
    /// Leaves the chain between two participant accounts on a day, or gives refusal 14 to 18.
    pub fn derive(
        &self,
        security: SecurityNumber,
        delivering: AccountNumber,
        receiving: AccountNumber,
        day: Day,
        chain: &mut Chain,
    ) -> Result<(), Refusal> {
        let (d, r) = (self.account_csd(delivering), self.account_csd(receiving));
        if d == r {
            chain.delivering.side.cut_before(0, d);
            chain.delivering.legs[0] = Leg { near: delivering, far: receiving };
            chain.receiving.side.cut(0);
            return Ok(());
        }
        let meeting = self.route(security, d, r, day, chain)?;
        let debit = self.climb(delivering, &mut chain.delivering)?;
        let credit = self.climb(receiving, &mut chain.receiving)?;
        match meeting {
            Meeting::Shared => {
                chain.delivering.end(credit);
                chain.receiving.side.cut(chain.receiving.side.length() - 1);
            }
            Meeting::Issuers(delivering, receiving) => {
                chain.delivering.end(delivering);
                chain.receiving.end(receiving);
            }
            Meeting::Outside(x, y) => {
                chain.delivering.end(self.duo_or_refusal(x, debit)?.near);
                chain.receiving.end(self.duo_or_refusal(y, credit)?.near);
            }
        }
        Ok(())
    }

    /// Leaves the sides that steps 2 to 4 choose between two CSDs, pairs unread, or gives 14 to 17. Where both sides end
    /// at the same CSD, each names it. Default walks that meet go on together, so that all that they share stands at
    /// their ends.
    #[inline(always)]
    fn route(
        &self,
        security: SecurityNumber,
        d: CsdNumber,
        r: CsdNumber,
        day: Day,
        chain: &mut Chain,
    ) -> Result<Meeting, Refusal> {
        let (delivering, receiving) = (&mut chain.delivering.side, &mut chain.receiving.side);
        let from_d = self.default_walk(security, d, day, delivering);
        let from_r = self.default_walk(security, r, day, receiving);
        if from_d.named.meets(from_r.named) && from_d.arrives() && from_r.arrives() {
            let beyond = from_d.named.shared_with(from_r.named) - 1;
            delivering.cut(delivering.length() - beyond);
            receiving.cut(receiving.length() - beyond);
        } else if self.directed_walk(security, from_d, r, day, delivering) {
            receiving.cut(1);
        } else if self.directed_walk(security, from_r, d, day, receiving) {
            delivering.cut(1);
        } else {
            return judge(from_d.end, from_r.end);
        }
        Ok(Meeting::Shared)
    }

    /// The legs of a side from an account upwards, or 18: "a step looks up the row of the account at its other side".
    /// The last one is left without its far account; the near one is given.
    #[inline(always)]
    fn climb(&self, account: AccountNumber, climb: &mut Climb) -> Result<AccountNumber, Refusal> {
        let Climb { side, legs } = climb;
        let technicals = &side.csds()[1..];
        let mut near = account;
        for (&technical, leg) in technicals.iter().zip(legs.iter_mut()) {
            let duo = self.duo_or_refusal(technical, near)?;
            *leg = Leg { near, far: duo.near };
            near = duo.far;
        }
        legs[technicals.len()].near = near;
        Ok(near)
    }

    fn duo_or_refusal(&self, technical: CsdNumber, served: AccountNumber) -> Result<Duo, Refusal> {
        self.duo(technical, served).ok_or(Refusal::NoPair)
    }
}

/// "The two ends are judged together." Without a link comes before too long.
fn judge(d: WalkEnd, r: WalkEnd) -> Result<Meeting, Refusal> {
    use WalkEnd::*;
    match (d, r) {
        (NoLink, _) | (_, NoLink) => Err(Refusal::NoLink),
        (TooLong, _) | (_, TooLong) => Err(Refusal::TooLong),
        (Inside(delivering), Inside(receiving)) => Ok(Meeting::Issuers(delivering, receiving)),
        (Outside(x), Outside(y)) => Ok(Meeting::Outside(x, y)),
        (Inside(_), Outside(_)) => Err(Refusal::InsideToOutside),
        (Outside(_), Inside(_)) => Err(Refusal::OutsideToInside),
    }
}
