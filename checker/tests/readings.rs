//! Points that the documents leave open to a second reading, and the one taken (docs/DECISIONS.md).

use checker::booking::{Cents, Half, SidedHalf, Units, BOUND};
use checker::chain::Step;
use checker::command::Command;
use checker::desk;
use checker::directory::*;
use checker::trial::forms::{Form, FORMS, NO_SIDES, SAME_SIDES};
use checker::trial::implementation::{Answer, Call, Implementation, Model, Store};
use checker::trial::scenario::{bic, halves, Scenario};

const A: u8 = 0;
const B: u8 = 1;
const C: u8 = 2;
const X: u8 = 3;
const Y: u8 = 4;
const FF: u8 = NO_CSD;
const FFFF: u16 = NO_ACCOUNT;

/// Accounts are numbered CSD × 5 + kind.
fn account(csd: u8, kind: u8) -> u16 {
    u16::from(csd) * 5 + u16::from(kind)
}

/// A, B, C in T2S, X, Y external, two securities, an account of each kind in A, B and C.
fn fixture() -> Scenario {
    let mut scenario = Scenario::default();
    for kind in [IN_T2S, IN_T2S, IN_T2S, EXTERNAL, EXTERNAL] {
        scenario.csd(kind);
    }
    scenario.security();
    scenario.security();
    for csd in [A, B, C] {
        for kind in PARTICIPANT..=ISSUANCE {
            scenario.account(csd, kind);
        }
    }
    scenario
}

fn number(result: Result<checker::transcript::Done, checker::refusal::Refusal>) -> u8 {
    result.err().map_or(0, |refusal| refusal.number())
}

/// The refusal of a pair row, 0 for none.
fn row(scenario: &mut Scenario, investor: u8, technical: u8, one: u16, other: u16, served: u16) -> u8 {
    let row = Pair { investor, technical, investor_account: one, technical_account: other, served };
    number(scenario.send(Command::EnterPair(row)))
}

/// The same with the investor's participant served.
fn pair(scenario: &mut Scenario, investor: u8, technical: u8, one: u16, other: u16) -> u8 {
    row(scenario, investor, technical, one, other, account(investor.min(C), PARTICIPANT))
}

/// The refusal of a link row in security 0, 0 for none.
fn link(scenario: &mut Scenario, kind: u8, csd: u8, technical: u8, flag: u8, account: u16) -> u8 {
    let days = scenario.days;
    number(scenario.send(Command::EnterLink(Link { security: 0, kind, csd, technical, flag, account, days })))
}

#[test]
fn ff_where_a_row_is_due_in_any_case_is_6_beside_a_bad_kind() {
    let mut s = fixture();
    assert_eq!(number(s.send(Command::EnterAccount(Account { csd: FF, kind: 9 }))), 6);
    assert_eq!(link(&mut s, 9, FF, FF, 1, FFFF), 6);
    let days = Period::ALWAYS;
    let row = Link { security: FF, kind: 9, csd: A, technical: FF, flag: 1, account: FFFF, days };
    assert_eq!(number(s.send(Command::EnterLink(row))), 6);
}

#[test]
fn technical_issuer_and_account_are_not_6_beside_a_bad_kind_unless_they_name_nothing_else() {
    let mut s = fixture();
    assert_eq!(link(&mut s, 2, A, FF, 1, FFFF), 7);
    assert_eq!(link(&mut s, 2, A, 5, 1, FFFF), 6);
    assert_eq!(link(&mut s, 2, A, FF, 1, 99), 6);
    assert_eq!(link(&mut s, INVESTOR, A, FF, 9, FFFF), 6);
    assert_eq!(link(&mut s, ISSUER, A, FF, 9, FFFF), 6);
}

#[test]
fn issuer_links_beside_others() {
    let mut s = fixture();
    assert_eq!(link(&mut s, INVESTOR, A, B, 1, FFFF), 0);
    assert_eq!(link(&mut s, ISSUER, A, B, 1, account(A, ISSUANCE)), 9);
    assert_eq!(link(&mut s, ISSUER, A, C, 1, account(A, ISSUANCE)), 11);
    assert_eq!(link(&mut s, ISSUER, A, FF, 1, account(A, ISSUANCE)), 11);
    assert_eq!(link(&mut s, ISSUER, B, FF, 1, account(B, ISSUANCE)), 0);
    assert_eq!(link(&mut s, ISSUER, B, FF, 1, account(B, ISSUANCE)), 11);
    assert_eq!(link(&mut s, INVESTOR, B, C, 1, FFFF), 11);
    assert_eq!(link(&mut s, ISSUER, X, FF, 1, account(A, ISSUANCE)), 11);
    assert_eq!(link(&mut s, ISSUER, X, FF, 1, FFFF), 0);
}

#[test]
fn external_csds_in_links() {
    let mut s = fixture();
    assert_eq!(link(&mut s, INVESTOR, X, A, 1, FFFF), 0);
    assert_eq!(link(&mut s, INVESTOR, X, B, 0, FFFF), 11);
    assert_eq!(link(&mut s, INVESTOR, A, B, 1, FFFF), 0);
    assert_eq!(link(&mut s, INVESTOR, A, X, 0, FFFF), 11);
    assert_eq!(link(&mut s, INVESTOR, A, C, 0, FFFF), 0);
    assert_eq!(link(&mut s, INVESTOR, A, C, 1, FFFF), 9);
}

#[test]
fn one_issuance_account_serves_several_links() {
    let mut s = fixture();
    assert_eq!(link(&mut s, ISSUER, A, FF, 1, account(A, ISSUANCE)), 0);
    let (account, days) = (account(A, ISSUANCE), Period::ALWAYS);
    let row = Link { security: 1, kind: ISSUER, csd: A, technical: FF, flag: 1, account, days };
    assert_eq!(number(s.send(Command::EnterLink(row))), 0);
}

#[test]
fn second_account_of_a_pair_with_an_external_technical_issuer() {
    let mut s = fixture();
    let inter_csd = account(A, INTER_CSD);
    assert_eq!(pair(&mut s, B, A, account(B, MIRROR), account(A, OMNIBUS)), 0);
    assert_eq!(pair(&mut s, A, X, inter_csd, account(A, OMNIBUS)), 9);
    assert_eq!(pair(&mut s, A, X, account(A, MIRROR), account(B, OMNIBUS)), 10);
    assert_eq!(pair(&mut s, A, X, inter_csd, account(B, OMNIBUS)), 11);
    assert_eq!(pair(&mut s, A, X, inter_csd, 99), 6);
    assert_eq!(pair(&mut s, A, X, inter_csd, FFFF), 0);
    assert_eq!(pair(&mut s, B, X, account(B, INTER_CSD), FFFF), 0);
}

#[test]
fn one_account_twice_in_a_new_pair_is_not_9() {
    let mut s = fixture();
    assert_eq!(pair(&mut s, A, B, account(A, MIRROR), account(A, MIRROR)), 10);
    assert_eq!(pair(&mut s, A, X, account(A, INTER_CSD), account(A, INTER_CSD)), 11);
}

#[test]
fn investors_and_technical_issuers_of_pairs() {
    let mut s = fixture();
    assert_eq!(pair(&mut s, X, A, account(A, MIRROR), account(A, OMNIBUS)), 10);
    assert_eq!(pair(&mut s, A, A, account(A, MIRROR), account(A, OMNIBUS)), 11);
    assert_eq!(pair(&mut s, A, B, account(A, MIRROR), FFFF), 6);
    assert_eq!(pair(&mut s, A, B, account(A, MIRROR), account(B, OMNIBUS)), 0);
    assert_eq!(pair(&mut s, B, A, account(B, MIRROR), account(A, OMNIBUS)), 0);
    assert_eq!(pair(&mut s, A, B, account(C, MIRROR), account(C, OMNIBUS)), 9);
}

#[test]
fn a_bic_is_the_same_by_all_its_bytes_in_and_outside_t2s() {
    let mut s = fixture();
    let mut enter = |kind, bic| number(s.send(Command::EnterCsd(Csd { kind, bic })));
    let head = bic(usize::from(Y));
    let mut branch = head;
    for place in 8..11 {
        branch[place] = b'A';
        assert_eq!(enter(IN_T2S, branch), 0);
    }
    for kind in [IN_T2S, EXTERNAL] {
        assert_eq!(enter(kind, head), 9);
        assert_eq!(enter(kind, branch), 9);
    }
}

#[test]
fn three_capitals_x_are_a_branch_like_any_other() {
    let mut s = fixture();
    let mut enter = |bic| number(s.send(Command::EnterCsd(Csd { kind: IN_T2S, bic })));
    assert_eq!(enter(*b"BBBBXX00ABC"), 0);
    assert_eq!(enter(*b"BBBBXX00XXX"), 0);
    assert_eq!(enter(*b"BBBBXX00DEF"), 0);
    assert_eq!(enter(*b"BBBBXX00XXX"), 9);
}

#[test]
fn a_letter_as_check_digit_is_7() {
    let mut s = fixture();
    assert_eq!(number(s.send(Command::EnterSecurity(Security { isin: *b"XS000000001A" }))), 7);
}

/// Halves between the participants of A and B in security 0.
fn trade() -> (Scenario, Half, Half) {
    let mut s = fixture();
    s.issuer(0, B);
    s.link(0, A, B, DEFAULT);
    s.serve(account(A, PARTICIPANT), B, 0);
    let (delivering, receiving) = halves(s.directory(), account(B, PARTICIPANT), account(A, PARTICIPANT), 0, 5, 0);
    (s, delivering, receiving)
}

#[test]
fn halves_are_judged_number_by_number() {
    let (mut s, d, r) = trade();
    let mut refusal = |delivering, receiving| number(s.send(Command::Derive { delivering, receiving, day: 0 }));
    let wrong_kind = Half { account: account(B, MIRROR), ..d };
    assert_eq!(refusal(Half { quantity: Units(0), ..d }, Half { counterpart: 9, ..r }), 6);
    assert_eq!(refusal(wrong_kind, Half { amount: Cents(-1), ..r }), 7);
    assert_eq!(refusal(wrong_kind, Half { amount: Cents(1), ..r }), 10);
    assert_eq!(refusal(Half { counterpart: X, ..d }, r), 12);
    assert_eq!(refusal(Half { counterpart: B, ..d }, Half { account: d.account, ..r }), 13);
    assert_eq!(refusal(Half { quantity: Units(BOUND + 1), ..d }, Half { quantity: Units(BOUND + 1), ..r }), 7);
    assert_eq!(refusal(d, r), 0);
}

/// Settles 5 from B to A over lent numbers, and gives the answer and the position of the delivering account.
fn settle(position: i64, cash: i64, amount: i64) -> (Answer, i64) {
    let (s, delivering, receiving) = trade();
    let mut store = Store { directory: s.directory().clone(), steps: vec![Step::default(); 16], ..Store::empty() };
    let place = usize::from(delivering.account) * SECURITIES;
    store.positions[place] = Units(position);
    store.cash[usize::from(receiving.account)] = Cents(cash);
    let pay = |half| Half { amount: Cents(amount), ..half };
    let command = Command::Settle { delivering: pay(delivering), receiving: pay(receiving), day: 0 };
    let answer = Model.call(&mut store, &Call::Command(command));
    (answer, store.positions[place].0)
}

#[test]
fn lent_numbers() {
    assert_eq!(settle(-1, 0, 0), (Answer::Refused(20), -1));
    assert_eq!(settle(i64::MIN, 0, 0), (Answer::Refused(20), i64::MIN));
    assert_eq!(settle(4, 0, 1), (Answer::Refused(20), 4));
    assert_eq!(settle(5, 0, 1), (Answer::Refused(21), 5));
    assert_eq!(settle(i64::MAX, 0, 1), (Answer::Refused(21), i64::MAX));
    assert_eq!(settle(i64::MAX, i64::MAX, 1), (Answer::Refused(22), i64::MAX));
    assert_eq!(settle(BOUND + 6, 0, 0), (Answer::Refused(22), BOUND + 6));
    assert_eq!(settle(BOUND + 5, 0, 0), (Answer::Booked(2), BOUND));
    assert_eq!(settle(5, i64::MIN, 0), (Answer::Booked(2), 0));
}

#[test]
fn totals() {
    let (s, ..) = trade();
    let directory = s.directory();
    let mut positions = vec![Units(0); 4096];
    positions[usize::from(account(A, MIRROR)) * 16] = Units(i64::MIN);
    positions[usize::from(account(A, PARTICIPANT)) * 16 + 1] = Units(BOUND + 1);
    for csd in [A, B, C] {
        positions[usize::from(account(csd, PARTICIPANT)) * 16] = Units(BOUND);
    }
    let total = |positions: &[Units], security| desk::total(directory, positions, security).map_err(|r| r.number());
    assert_eq!(total(&positions, 0), Ok(3 * BOUND));
    assert_eq!(total(&positions, 1), Err(22));
    assert_eq!(total(&positions, 2), Err(6));
    assert_eq!(total(&positions[1..], 2), Err(3));
    assert_eq!(desk::cash_total(&[Cents(BOUND); 256]).ok(), Some(256 * BOUND));
    assert_eq!(desk::cash_total(&[Cents(-BOUND); 256]).ok(), Some(-256 * BOUND));
    let mut cash = [Cents(0); 256];
    cash[255] = Cents(-BOUND - 1);
    assert_eq!(desk::cash_total(&cash).map_err(|r| r.number()), Err(22));
    assert_eq!(desk::cash_total(&cash[1..]).map_err(|r| r.number()), Err(3));
}

#[test]
fn lists_come_before_soundness_and_soundness_before_full_tables() {
    let (s, delivering, receiving) = trade();
    let mut store = Store { directory: s.directory().clone(), ..Store::empty() };
    store.directory.csds.count = 33;
    let mut call = |command| Model.call(&mut store, &Call::Command(command));
    assert_eq!(call(Command::Derive { delivering, receiving, day: 0 }), Answer::Refused(3));
    assert_eq!(call(Command::EnterCsd(Csd { kind: 9, bic: [0; 11] })), Answer::Refused(4));
    assert_eq!(call(Command::PayIn { account: FFFF, amount: Cents(0) }), Answer::Refused(4));
    store.directory.csds.count = 5;
    store.directory.csds.rows[31] = Csd { kind: 77, bic: [0; 11] };
    let row = Csd { kind: IN_T2S, bic: bic(9) };
    assert_eq!(Model.call(&mut store, &Call::Command(Command::EnterCsd(row))), Answer::Accepted);
    assert_eq!(store.directory.csds.count, 6);
    assert!(store.directory.csds.rows[5] == row && store.directory.csds.rows[31].kind == 77);
}

/// Document 02, ask 1: "The side in the half".
mod sides {
    use super::*;

    /// Every pair of sides of which one is not 0 or 1, or which are the same.
    fn wrong_sides() -> Vec<[u8; 2]> {
        [&SAME_SIDES[..], &NO_SIDES].concat()
    }

    /// The refusals of two halves with these sides, settled and derived in both orders: one number, 0 for none.
    fn refusal(s: &mut Scenario, sides: [u8; 2], one: Half, other: Half) -> u8 {
        let (first, second) = (SidedHalf { side: sides[0], half: one }, SidedHalf { side: sides[1], half: other });
        let numbers = [
            Command::DeriveSided { first, second, day: 0 },
            Command::DeriveSided { first: second, second: first, day: 0 },
            Command::SettleSided { first, second, day: 0 },
            Command::SettleSided { first: second, second: first, day: 0 },
        ]
        .map(|command| number(s.send(command)));
        assert_eq!(numbers, [numbers[0]; 4], "sides {sides:02X?}");
        numbers[0]
    }

    /// Halves between A and B, with holdings and cash on both sides.
    fn funded() -> (Scenario, Half, Half) {
        let (mut s, d, r) = trade();
        for account in [d.account, r.account] {
            s.pay_in(account, 100).ok();
        }
        s.bring_in(d.account, 0, 100).ok();
        (s, d, r)
    }

    #[test]
    fn another_byte_is_7_also_twice() {
        let (mut s, d, r) = funded();
        for byte in 2..=0xFF {
            for sides in [[byte, byte], [0, byte], [1, byte], [byte, 0], [byte, 1]] {
                assert_eq!(refusal(&mut s, sides, d, r), 7, "sides {sides:02X?}");
            }
        }
    }

    #[test]
    fn any_6_comes_before_a_wrong_side() {
        let (mut s, d, r) = funded();
        for sides in wrong_sides() {
            assert_eq!(refusal(&mut s, sides, Half { account: 99, ..d }, r), 6);
            assert_eq!(refusal(&mut s, sides, d, Half { account: FFFF, ..r }), 6);
            assert_eq!(refusal(&mut s, sides, Half { counterpart: FF, ..d }, r), 6);
            assert_eq!(refusal(&mut s, sides, d, Half { security: 2, ..r }), 6);
        }
    }

    #[test]
    fn a_wrong_byte_comes_before_10_12_and_13() {
        let (mut s, d, r) = funded();
        for sides in NO_SIDES {
            assert_eq!(refusal(&mut s, sides, Half { account: account(B, MIRROR), ..d }, r), 7);
            assert_eq!(refusal(&mut s, sides, d, Half { quantity: Units(6), ..r }), 7);
            assert_eq!(refusal(&mut s, sides, Half { counterpart: B, ..d }, Half { counterpart: B, ..d }), 7);
        }
    }

    #[test]
    fn the_same_side_comes_after_7_and_10_and_before_12_and_13() {
        let (mut s, d, r) = funded();
        for sides in SAME_SIDES {
            assert_eq!(refusal(&mut s, sides, Half { quantity: Units(0), ..d }, r), 7);
            assert_eq!(refusal(&mut s, sides, d, Half { amount: Cents(BOUND + 1), ..r }), 7);
            assert_eq!(refusal(&mut s, sides, d, Half { account: account(A, OMNIBUS), ..r }), 10);
            assert_eq!(refusal(&mut s, sides, d, r), 23);
            assert_eq!(refusal(&mut s, sides, Half { quantity: Units(6), ..d }, r), 23);
            assert_eq!(refusal(&mut s, sides, Half { counterpart: X, ..d }, r), 23);
            assert_eq!(refusal(&mut s, sides, Half { counterpart: B, ..d }, Half { counterpart: B, ..d }), 23);
        }
        assert_eq!(refusal(&mut s, [0, 1], Half { quantity: Units(6), ..d }, r), 12);
        assert_eq!(refusal(&mut s, [0, 1], Half { counterpart: B, ..d }, Half { counterpart: B, ..d }), 13);
    }

    #[test]
    fn wrong_sides_come_before_the_chain_and_after_the_lists() {
        let (mut s, d, r) = trade();
        let unlinked = halves(s.directory(), d.account, account(C, PARTICIPANT), 0, 5, 0);
        assert_eq!(refusal(&mut s, [1, 1], unlinked.0, unlinked.1), 23);
        assert_eq!(refusal(&mut s, [0, 1], unlinked.0, unlinked.1), 14);
        let mut store = Store { directory: s.directory().clone(), ..Store::empty() };
        let first = SidedHalf { side: 2, half: d };
        let command = Command::DeriveSided { first, second: SidedHalf { side: 2, half: r }, day: 0 };
        assert_eq!(Model.call(&mut store, &Call::Command(command)), Answer::Refused(3));
        store.steps = vec![Step::default(); 16];
        store.directory.csds.count = 33;
        assert_eq!(Model.call(&mut store, &Call::Command(command)), Answer::Refused(4));
    }

    #[test]
    fn inside_and_outside_go_by_the_sides() {
        let mut s = fixture();
        s.issuer(0, A);
        s.link(0, B, X, DEFAULT);
        let (inside, outside) = (account(A, PARTICIPANT), account(B, PARTICIPANT));
        for form in FORMS {
            for (from, to, due) in [(inside, outside, 16), (outside, inside, 17)] {
                let (delivering, receiving) = halves(s.directory(), from, to, 0, 5, 0);
                assert_eq!(number(s.send(form.derive(delivering, receiving, 0))), due, "{form:?}");
                assert_eq!(number(s.send(form.settle(delivering, receiving, 0))), due, "{form:?}");
            }
        }
    }

    /// What a stream prints for a settlement and a derivation of these halves, and the totals.
    fn printed(s: &Scenario, form: Form, delivering: Half, receiving: Half) -> String {
        let mut bytes = s.bytes.clone();
        let before = String::from_utf8(checker::transcript(&bytes)).unwrap().find("total").unwrap();
        form.settle(delivering, receiving, 0).write(&mut bytes);
        form.derive(delivering, receiving, 0).write(&mut bytes);
        String::from_utf8(checker::transcript(&bytes)).unwrap()[before..].into()
    }

    #[test]
    fn steps_run_from_delivering_to_receiving_whichever_half_stands_first() {
        let (s, d, r) = funded();
        let (first, last) = (account(B, PARTICIPANT), account(A, PARTICIPANT));
        for form in FORMS {
            let text = printed(&s, form, d, r);
            let steps: Vec<&str> = text.lines().filter(|line| line.starts_with('-')).collect();
            assert_eq!(steps.len(), 4, "{form:?}: {text}");
            for chain in steps.chunks(2) {
                assert!(chain[0].starts_with(&format!("- {B} {first} ")), "{form:?}: {text}");
                assert!(chain[1].starts_with(&format!("- {A} ")), "{form:?}: {text}");
                assert!(chain[1].ends_with(&format!(" {last}")), "{form:?}: {text}");
            }
        }
    }

    #[test]
    fn cash_goes_from_the_receiving_to_the_delivering_side() {
        for form in FORMS {
            let (mut s, d, r) = funded();
            let paid = |half| Half { amount: Cents(7), ..half };
            assert_eq!(number(s.send(form.settle(paid(d), paid(r), 0))), 0);
            assert_eq!([d, r].map(|half| s.session.cash()[usize::from(half.account)].0), [107, 93], "{form:?}");
            let units = |half: Half| s.session.positions()[usize::from(half.account) * SECURITIES].0;
            assert_eq!([units(d), units(r)], [95, 5], "{form:?}");
        }
    }

    #[test]
    fn operands_cut_by_one_byte_are_2() {
        let (s, d, r) = funded();
        for form in [Form::DeliveringFirst, Form::ReceivingFirst] {
            let mut bytes = s.bytes.clone();
            form.settle(d, r, 0).write(&mut bytes);
            assert_eq!(bytes.len(), s.bytes.len() + 45);
            bytes.pop();
            let text = String::from_utf8(checker::transcript(&bytes)).unwrap();
            assert!(text.contains(" no 2\ntotal"), "{text}");
        }
    }
}

/// Document 02, ask 3: "Segregated holdings".
mod segregated {
    use super::*;
    use checker::trial::literal::Rows;

    /// The numbers of accounts that the fixture has once, by CSD.
    fn participant(csd: u8) -> u16 {
        account(csd, PARTICIPANT)
    }

    fn mirror(csd: u8) -> u16 {
        account(csd, MIRROR)
    }

    fn omnibus(csd: u8) -> u16 {
        account(csd, OMNIBUS)
    }

    fn inter_csd(csd: u8) -> u16 {
        account(csd, INTER_CSD)
    }

    /// The steps of a chain in security 0 as CSD, debited, credited, or the refusal; by derivation in every form.
    fn chain(s: &Scenario, from: u16, to: u16) -> Result<Vec<[u16; 3]>, u8> {
        let (delivering, receiving) = halves(s.directory(), from, to, 0, 5, 0);
        let derived = FORMS.map(|form| {
            let mut store = Store { directory: s.directory().clone(), ..Store::empty() };
            store.steps = vec![Step::default(); 16];
            match Model.call(&mut store, &Call::Command(form.derive(delivering, receiving, 0))) {
                Answer::Chain(length) => Ok(store.steps[..length].to_vec()),
                Answer::Refused(number) => Err(number),
                answer => panic!("{answer:?} to a derivation"),
            }
        });
        assert!(derived[1..].iter().all(|other| *other == derived[0]));
        let line = |step: &Step| [step.csd.into(), step.debit, step.credit];
        derived[0].clone().map(|steps| steps.iter().map(line).collect())
    }

    /// C holds with A and A with the issuer B. C's participant reaches A's omnibus account.
    fn two_climbs() -> Scenario {
        let mut s = fixture();
        s.issuer(0, B);
        s.link(0, A, B, DEFAULT);
        s.link(0, C, A, DEFAULT);
        assert_eq!(row(&mut s, C, A, mirror(C), omnibus(A), participant(C)), 0);
        s
    }

    #[test]
    fn there_is_no_default_row() {
        let mut s = two_climbs();
        assert_eq!(row(&mut s, A, B, mirror(A), omnibus(B), participant(A)), 0);
        let second = s.account(A, PARTICIPANT);
        assert_eq!(chain(&s, participant(A), participant(B)).map(|steps| steps.len()), Ok(2));
        assert_eq!(chain(&s, second, participant(B)), Err(18));
        assert_eq!(chain(&s, participant(B), second), Err(18));
        assert_eq!(chain(&s, participant(C), participant(B)), Err(18));
        assert_eq!(row(&mut s, A, B, mirror(A), omnibus(B), second), 0);
        assert_eq!(row(&mut s, A, B, mirror(A), omnibus(B), omnibus(A)), 0);
        assert_eq!(chain(&s, second, participant(B)).map(|steps| steps.len()), Ok(2));
        assert_eq!(chain(&s, participant(C), participant(B)).map(|steps| steps.len()), Ok(3));
    }

    #[test]
    fn no_served_account_is_6() {
        let mut s = fixture();
        assert_eq!(row(&mut s, A, B, mirror(A), omnibus(B), FFFF), 6);
        assert_eq!(row(&mut s, A, X, inter_csd(A), FFFF, FFFF), 6);
        assert_eq!(row(&mut s, A, B, mirror(A), omnibus(B), 99), 6);
        // 6 comes before the same triplet and before wrong accounts.
        assert_eq!(row(&mut s, A, B, mirror(A), omnibus(B), participant(A)), 0);
        assert_eq!(row(&mut s, A, B, mirror(A), omnibus(B), FFFF), 6);
        assert_eq!(row(&mut s, A, B, mirror(C), omnibus(C), 99), 6);
    }

    #[test]
    fn a_served_account_of_another_csd_or_kind_is_10() {
        let mut s = fixture();
        for served in [participant(B), omnibus(C), mirror(A), inter_csd(A), account(A, ISSUANCE)] {
            assert_eq!(row(&mut s, A, B, mirror(A), omnibus(B), served), 10, "{served}");
            assert_eq!(row(&mut s, A, X, inter_csd(A), FFFF, served), 10, "{served}");
        }
        // 10 comes before 11.
        assert_eq!(row(&mut s, A, A, mirror(A), omnibus(A), mirror(A)), 10);
        assert_eq!(row(&mut s, A, X, inter_csd(A), omnibus(B), participant(B)), 10);
        assert_eq!(row(&mut s, A, X, inter_csd(A), omnibus(B), participant(A)), 11);
    }

    #[test]
    fn any_participant_or_omnibus_account_of_the_investor_is_served() {
        let mut s = fixture();
        assert_eq!(row(&mut s, C, A, mirror(C), omnibus(A), participant(C)), 0);
        let unpaired = s.account(A, OMNIBUS);
        for served in [participant(A), omnibus(A), unpaired] {
            assert_eq!(row(&mut s, A, B, mirror(A), omnibus(B), served), 0);
            assert_eq!(row(&mut s, A, X, inter_csd(A), FFFF, served), 0);
        }
    }

    #[test]
    fn served_accounts_are_not_shared() {
        let mut s = fixture();
        // Served in many rows.
        assert_eq!(row(&mut s, A, B, mirror(A), omnibus(B), omnibus(A)), 0);
        let other_mirror = s.account(A, MIRROR);
        assert_eq!(row(&mut s, A, C, other_mirror, omnibus(C), omnibus(A)), 0);
        assert_eq!(row(&mut s, A, X, inter_csd(A), FFFF, omnibus(A)), 0);
        // Then another row's omnibus account, and that of a row before.
        assert_eq!(row(&mut s, C, A, mirror(C), omnibus(A), participant(C)), 0);
        assert_eq!(row(&mut s, B, A, mirror(B), omnibus(A), participant(B)), 9);
        assert_eq!(row(&mut s, B, X, inter_csd(B), FFFF, omnibus(B)), 0);
        // A served participant is a wrong first account, and not a shared one.
        assert_eq!(row(&mut s, A, Y, participant(A), FFFF, participant(A)), 10);
        assert_eq!(row(&mut s, A, B, mirror(A), omnibus(B), participant(A)), 0);
        assert_eq!(row(&mut s, A, Y, participant(A), FFFF, participant(A)), 10);
    }

    #[test]
    fn the_same_two_csds_are_so_in_their_roles() {
        let mut s = fixture();
        assert_eq!(row(&mut s, A, B, mirror(A), omnibus(B), participant(A)), 0);
        assert_eq!(row(&mut s, B, A, mirror(A), omnibus(B), participant(B)), 9);
        assert_eq!(row(&mut s, B, A, omnibus(B), mirror(A), participant(B)), 9);
        assert_eq!(row(&mut s, B, A, mirror(B), omnibus(A), participant(B)), 0);
    }

    #[test]
    fn rows_of_other_csds_share_none() {
        let mut s = fixture();
        assert_eq!(row(&mut s, A, B, mirror(A), omnibus(B), participant(A)), 0);
        assert_eq!(row(&mut s, A, X, inter_csd(A), FFFF, participant(A)), 0);
        assert_eq!(row(&mut s, A, C, mirror(A), omnibus(C), participant(A)), 9);
        assert_eq!(row(&mut s, C, B, mirror(C), omnibus(B), participant(C)), 9);
        assert_eq!(row(&mut s, A, Y, inter_csd(A), FFFF, participant(A)), 9);
    }

    #[test]
    fn an_account_in_the_other_column_is_9() {
        let mut s = fixture();
        let (one, other) = (s.account(A, MIRROR), s.account(B, OMNIBUS));
        assert_eq!(row(&mut s, A, B, mirror(A), omnibus(B), participant(A)), 0);
        assert_eq!(row(&mut s, A, X, inter_csd(A), FFFF, participant(A)), 0);
        let served = s.account(A, PARTICIPANT);
        assert_eq!(row(&mut s, A, B, omnibus(B), other, served), 9);
        assert_eq!(row(&mut s, A, B, one, mirror(A), served), 9);
        assert_eq!(row(&mut s, A, B, one, inter_csd(A), served), 9);
        assert_eq!(row(&mut s, A, B, one, mirror(C), served), 10);
    }

    #[test]
    fn two_csds_share_both_accounts_or_neither() {
        let mut s = fixture();
        let (one, other) = (s.account(A, MIRROR), s.account(B, OMNIBUS));
        let served: Vec<u16> = (0..3).map(|_| s.account(A, PARTICIPANT)).collect();
        assert_eq!(row(&mut s, A, B, mirror(A), omnibus(B), participant(A)), 0);
        assert_eq!(row(&mut s, A, B, mirror(A), other, served[0]), 9);
        assert_eq!(row(&mut s, A, B, one, omnibus(B), served[0]), 9);
        assert_eq!(row(&mut s, A, B, mirror(A), omnibus(B), served[0]), 0);
        assert_eq!(row(&mut s, A, B, one, other, served[1]), 0);
        assert_eq!(row(&mut s, A, B, mirror(A), other, served[2]), 9);
        assert_eq!(row(&mut s, A, B, one, omnibus(B), served[2]), 9);
        assert_eq!(row(&mut s, A, B, one, other, served[2]), 0);
    }

    #[test]
    fn an_external_issuer_shares_the_inter_csd_account_alone() {
        let mut s = fixture();
        let second = s.account(A, PARTICIPANT);
        assert_eq!(row(&mut s, A, X, inter_csd(A), FFFF, participant(A)), 0);
        assert_eq!(row(&mut s, B, A, mirror(B), omnibus(A), participant(B)), 0);
        for paired in [inter_csd(A), mirror(B), omnibus(A)] {
            assert_eq!(row(&mut s, A, X, inter_csd(A), paired, second), 9, "{paired}");
        }
        for free in [omnibus(B), mirror(A), inter_csd(B), participant(A), second] {
            assert_eq!(row(&mut s, A, X, inter_csd(A), free, second), 11, "{free}");
        }
        assert_eq!(row(&mut s, A, X, inter_csd(A), FFFF, second), 0);
        let (third, other) = (s.account(A, PARTICIPANT), s.account(A, INTER_CSD));
        assert_eq!(row(&mut s, A, X, other, FFFF, third), 0);
    }

    #[test]
    fn the_same_triplet_is_9_whatever_the_accounts() {
        let mut s = fixture();
        let (one, other) = (s.account(A, MIRROR), s.account(B, OMNIBUS));
        assert_eq!(row(&mut s, A, B, mirror(A), omnibus(B), participant(A)), 0);
        assert_eq!(row(&mut s, A, X, inter_csd(A), FFFF, participant(A)), 0);
        for (first, second) in [(mirror(A), omnibus(B)), (one, other), (mirror(C), participant(C))] {
            assert_eq!(row(&mut s, A, B, first, second, participant(A)), 9);
        }
        for (first, second) in [(inter_csd(A), FFFF), (mirror(C), FFFF), (inter_csd(A), omnibus(C))] {
            assert_eq!(row(&mut s, A, X, first, second, participant(A)), 9);
        }
        assert_eq!(row(&mut s, A, B, one, 99, participant(A)), 6);
    }

    #[test]
    fn a_triplet_is_another_with_another_investor() {
        let mut s = fixture();
        assert_eq!(row(&mut s, A, B, mirror(A), omnibus(B), participant(A)), 0);
        let other = s.account(B, OMNIBUS);
        assert_eq!(row(&mut s, C, B, mirror(C), other, participant(A)), 10);
        assert_eq!(row(&mut s, B, B, mirror(B), other, participant(A)), 10);
        assert_eq!(row(&mut s, C, B, mirror(C), other, participant(C)), 0);
    }

    #[test]
    fn five_at_512_rows_whatever_the_operands() {
        let mut s = fixture();
        let participants: Vec<u16> = (0..128).map(|_| s.account(A, PARTICIPANT)).collect();
        for technical in [B, C, X, Y] {
            for &served in &participants {
                s.serve(served, technical, 0);
            }
        }
        assert_eq!(s.directory().pairs.count, 512);
        let last = participants[127];
        assert_eq!(row(&mut s, A, B, mirror(A), omnibus(B), participant(A)), 5);
        assert_eq!(row(&mut s, A, Y, inter_csd(A), FFFF, last), 5);
        assert_eq!(row(&mut s, FF, FF, FFFF, FFFF, FFFF), 5);
        s.link(0, A, Y, DEFAULT);
        assert_eq!(number(s.bring_in(last, 0, 7)), 0);
    }

    #[test]
    fn each_side_is_climbed_from_its_own_account() {
        let mut s = two_climbs();
        let second = s.account(C, PARTICIPANT);
        s.serve(second, A, 1);
        s.serve(participant(A), B, 1);
        let omnibus_in_a =
            |served| Rows::from(s.directory()).pairs.iter().find(|row| row.served == served).unwrap().technical_account;
        let [first_omnibus, second_omnibus] = [participant(C), second].map(omnibus_in_a);
        // The accounts at B are crossed: A's second ones for the first omnibus of C.
        s.serve(second_omnibus, B, 0);
        s.serve(first_omnibus, B, 1);
        let rows = Rows::from(s.directory()).pairs;
        let at = |served: u16, technical: u8| {
            *rows.iter().find(|row| row.served == served && row.technical == technical).unwrap()
        };
        for (served, reached) in [(participant(C), first_omnibus), (second, second_omnibus)] {
            let (low, high) = (at(served, A), at(reached, B));
            let there = [
                [C.into(), served, low.investor_account],
                [A.into(), reached, high.investor_account],
                [B.into(), high.technical_account, participant(B)],
            ];
            assert_eq!(chain(&s, served, participant(B)), Ok(there.to_vec()));
            let back = there.map(|[csd, debit, credit]| [csd, credit, debit]);
            assert_eq!(chain(&s, participant(B), served), Ok(back.into_iter().rev().collect()));
        }
        assert_ne!(at(first_omnibus, B).investor_account, at(second_omnibus, B).investor_account);
    }

    #[test]
    fn a_reversed_chain_is_climbed_from_the_receiving_account() {
        let mut s = fixture();
        // B issues, A holds outside and, by alternatives over C, with B; C's default link leads outside too.
        s.issuer(0, B);
        s.link(0, A, C, DEFAULT);
        s.link(0, C, X, DEFAULT);
        s.link(0, C, B, ALTERNATIVE);
        let second = s.account(A, PARTICIPANT);
        for (duo, served) in [participant(A), second].into_iter().enumerate() {
            s.climb(served, &[A, C, B], duo);
        }
        let rows = Rows::from(s.directory()).pairs;
        for (low, high) in [(rows[0], rows[1]), (rows[2], rows[3])] {
            let due = [
                [B.into(), participant(B), high.technical_account],
                [C.into(), high.investor_account, low.technical_account],
                [A.into(), low.investor_account, low.served],
            ];
            assert_eq!(chain(&s, participant(B), low.served), Ok(due.to_vec()));
        }
        let third = s.account(A, PARTICIPANT);
        assert_eq!(chain(&s, participant(B), third), Err(18));
    }

    #[test]
    fn issuance_accounts_need_no_row() {
        let mut s = fixture();
        s.issuer(0, A);
        s.issuer(0, B);
        let due = [[A.into(), participant(A), account(A, ISSUANCE)], [B.into(), account(B, ISSUANCE), participant(B)]];
        assert_eq!(chain(&s, participant(A), participant(B)), Ok(due.to_vec()));
    }

    #[test]
    fn a_chain_turns_where_the_sides_meet_whatever_omnibus_accounts_serve_them_beyond() {
        let mut s = fixture();
        let issuer = s.csd(IN_T2S);
        s.issuer(0, issuer);
        for (csd, technical) in [(A, C), (B, C), (C, issuer)] {
            s.link(0, csd, technical, DEFAULT);
        }
        for (csd, duo) in [(A, 0), (B, 1)] {
            let reached = s.serve(participant(csd), C, 0).unwrap();
            s.serve(reached, issuer, duo);
        }
        let rows = Rows::from(s.directory()).pairs;
        assert_ne!(rows[1].technical_account, rows[3].technical_account);
        let due = [
            [A.into(), participant(A), rows[0].investor_account],
            [C.into(), rows[0].technical_account, rows[2].technical_account],
            [B.into(), rows[2].investor_account, participant(B)],
        ];
        assert_eq!(chain(&s, participant(A), participant(B)), Ok(due.to_vec()));
        let second = s.account(A, PARTICIPANT);
        assert_eq!(chain(&s, participant(A), second), Ok(vec![[A.into(), participant(A), second]]));
    }

    #[test]
    fn bring_in_and_take_out_without_the_participants_row_are_19() {
        let mut s = fixture();
        s.link(0, A, X, DEFAULT);
        let second = s.account(A, PARTICIPANT);
        assert_eq!(row(&mut s, A, X, inter_csd(A), FFFF, participant(A)), 0);
        assert_eq!(number(s.bring_in(second, 0, 5)), 19);
        assert_eq!(number(s.take_out(second, 0, 5)), 19);
        let own = s.account(A, INTER_CSD);
        assert_eq!(row(&mut s, A, X, own, FFFF, second), 0);
        assert_eq!(number(s.bring_in(participant(A), 0, 7)), 0);
        assert_eq!(number(s.bring_in(second, 0, 5)), 0);
        assert_eq!(number(s.take_out(second, 0, 2)), 0);
        let held = |account: u16| s.session.positions()[usize::from(account) * SECURITIES].0;
        assert_eq!([participant(A), inter_csd(A), second, own].map(held), [7, -7, 3, -3]);
    }

    #[test]
    fn mirror_plus_omnibus_is_zero_for_each_duo() {
        let mut s = fixture();
        s.issuer(0, B);
        s.link(0, A, B, DEFAULT);
        let others: Vec<u16> = (0..2).map(|_| s.account(A, PARTICIPANT)).collect();
        for (served, duo) in [(participant(A), 0), (others[0], 0), (others[1], 1)] {
            s.serve(served, B, duo);
        }
        s.bring_in(participant(B), 0, 100).ok();
        for (to, quantity) in [(participant(A), 10), (others[0], 20), (others[1], 40)] {
            assert_eq!(number(s.settle(participant(B), to, 0, quantity, 0)), 0);
        }
        let rows = Rows::from(s.directory()).pairs;
        let held = |account: u16| s.session.positions()[usize::from(account) * SECURITIES].0;
        let duos = [rows[0], rows[2]].map(|row| [row.investor_account, row.technical_account].map(held));
        assert_eq!(duos, [[-30, 30], [-40, 40]]);
        // What one omnibus account lacks the other does not make good.
        assert_eq!(number(s.settle(others[1], participant(B), 0, 41, 0)), 20);
    }

    #[test]
    fn byte_04_is_unknown_and_0e_has_eight_operand_bytes() {
        let text = |bytes: &[u8]| String::from_utf8(checker::transcript(bytes)).unwrap();
        assert_eq!(text(&[0x04, 0, 1, 0, 1, 0, 2, 0x0E]), "1 no 1\ncash 0\n");
        assert_eq!(text(&[0x0E, 0, 1, 0, 1, 0, 2, 0]), "1 no 2\ncash 0\n");
        assert_eq!(text(&[0x0E, 0, 1, 0, 1, 0, 2, 0, 0]), "1 no 6\ncash 0\n");
    }

    #[test]
    fn a_record_with_a_row_that_would_be_refused_is_not_sound() {
        let mut s = fixture();
        let second = s.account(A, PARTICIPANT);
        assert_eq!(row(&mut s, A, B, mirror(A), omnibus(B), participant(A)), 0);
        assert_eq!(row(&mut s, A, B, mirror(A), omnibus(B), second), 0);
        let answer = |change: fn(&mut Directory)| {
            let mut store = Store { directory: s.directory().clone(), ..Store::empty() };
            change(&mut store.directory);
            Model.call(&mut store, &Call::Command(Command::PayIn { account: 0, amount: Cents(1) }))
        };
        assert_eq!(answer(|_| {}), Answer::Accepted);
        assert_eq!(answer(|directory| directory.pairs.rows[1].served = 0), Answer::Refused(4));
        assert_eq!(answer(|directory| directory.pairs.rows[1].served = FFFF), Answer::Refused(4));
        assert_eq!(answer(|directory| directory.pairs.rows[1].technical_account = 11), Answer::Refused(4));
        assert_eq!(answer(|directory| directory.pairs.rows[2].served = FFFF), Answer::Accepted);
        assert_eq!(answer(|directory| directory.pairs.count = 513), Answer::Refused(4));
    }
}

/// Document 02, ask 5: "Links have days".
mod days {
    use super::*;
    use checker::trial::literal::day_of;
    use checker::trial::scenario::isin_of;

    const MAX: Day = Day::MAX;

    fn participant(csd: u8) -> u16 {
        account(csd, PARTICIPANT)
    }

    /// The refusal of a link with days in security 0, 0 for none.
    fn dated(s: &mut Scenario, kind: u8, csd: u8, technical: u8, flag: u8, account: u16, days: (Day, Day)) -> u8 {
        s.days = Period::new(days.0, days.1);
        let number = link(s, kind, csd, technical, flag, account);
        s.days = Period::ALWAYS;
        number
    }

    fn default(s: &mut Scenario, csd: u8, technical: u8, first: Day, last: Day) -> u8 {
        dated(s, INVESTOR, csd, technical, DEFAULT, FFFF, (first, last))
    }

    fn alternative(s: &mut Scenario, csd: u8, technical: u8, first: Day, last: Day) -> u8 {
        dated(s, INVESTOR, csd, technical, ALTERNATIVE, FFFF, (first, last))
    }

    fn issuer(s: &mut Scenario, csd: u8, first: Day, last: Day) -> u8 {
        dated(s, ISSUER, csd, FF, DEFAULT, account(csd, ISSUANCE), (first, last))
    }

    /// The CSDs of a chain in security 0 on a day, or the refusal.
    fn chain(s: &Scenario, from: u16, to: u16, day: Day) -> Result<Vec<u8>, u8> {
        let (delivering, receiving) = halves(s.directory(), from, to, 0, 5, 0);
        let derived = FORMS.map(|form| {
            let mut store = Store { directory: s.directory().clone(), ..Store::empty() };
            store.steps = vec![Step::default(); 16];
            match Model.call(&mut store, &Call::Command(form.derive(delivering, receiving, day))) {
                Answer::Chain(length) => Ok(store.steps[..length].iter().map(|step| step.csd).collect()),
                Answer::Refused(number) => Err(number),
                answer => panic!("{answer:?} to a derivation"),
            }
        });
        assert!(derived[1..].iter().all(|other| *other == derived[0]));
        derived[0].clone()
    }

    /// B issues, and every participant has rows towards B, A and C.
    fn served() -> Scenario {
        let mut s = fixture();
        assert_eq!(issuer(&mut s, B, 0, MAX), 0);
        let hops = [(A, B), (A, C), (C, B), (C, A), (A, X), (C, X)];
        s.serve_along(&[A, B, C].map(participant), &hops, |_| Some(0));
        s
    }

    #[test]
    fn commands_end_with_their_days() {
        let (_, delivering, receiving) = trade();
        let (first, second) = (SidedHalf { side: 0, half: delivering }, SidedHalf { side: 1, half: receiving });
        let (account, security, quantity, day) = (0x0102, 3, Units(4), 0xABCD);
        let link = Link { days: Period::new(0x1234, 0x5678), ..Link::default() };
        let widths = [
            (Command::EnterLink(link), 11, &[0x12, 0x34, 0x56, 0x78][..]),
            (Command::BringIn { account, security, quantity, day }, 13, &[0xAB, 0xCD]),
            (Command::TakeOut { account, security, quantity, day }, 13, &[0xAB, 0xCD]),
            (Command::Settle { delivering, receiving, day }, 42, &[0xAB, 0xCD]),
            (Command::Derive { delivering, receiving, day }, 42, &[0xAB, 0xCD]),
            (Command::SettleSided { first, second, day }, 44, &[0xAB, 0xCD]),
            (Command::DeriveSided { first, second, day }, 44, &[0xAB, 0xCD]),
            (Command::PayIn { account, amount: Cents(1) }, 10, &[1]),
            (Command::PayOut { account, amount: Cents(1) }, 10, &[1]),
            (Command::EnterPair(Pair { served: 7, ..Pair::default() }), 8, &[0, 7]),
        ];
        for (command, width, end) in widths {
            let mut bytes = Vec::new();
            command.write(&mut bytes);
            assert_eq!(bytes.len(), 1 + width, "{command:?}");
            assert!(bytes.ends_with(end), "{command:?}");
            assert_eq!(day_of(&command).is_some(), end == [0xAB, 0xCD]);
            let text = |bytes: &[u8]| String::from_utf8(checker::transcript(bytes)).unwrap();
            assert_eq!(text(&bytes), "1 no 6\ncash 0\n", "{command:?}");
            assert_eq!(text(&bytes[..width]), "1 no 2\ncash 0\n", "{command:?}");
        }
    }

    #[test]
    fn the_example_of_document_01() {
        let mut s = Scenario::default();
        let [zero, one] = [s.csd(IN_T2S), s.csd(IN_T2S)];
        assert_eq!(s.security(), 0);
        assert_eq!(isin_of(0), *b"XS0000000009");
        for (csd, kind) in [(zero, PARTICIPANT), (zero, MIRROR), (one, OMNIBUS), (one, ISSUANCE), (one, PARTICIPANT)] {
            s.account(csd, kind);
        }
        assert_eq!(row(&mut s, zero, one, 1, 2, 0), 0);
        assert_eq!(dated(&mut s, ISSUER, one, FF, DEFAULT, 3, (0, 65_535)), 0);
        assert_eq!(default(&mut s, zero, one, 0, 65_535), 0);
        s.day = 0;
        assert_eq!(number(s.bring_in(4, 0, 100)), 0);
        assert_eq!(number(s.settle(4, 0, 0, 40, 0)), 0);
        let text = String::from_utf8(checker::transcript(&s.bytes)).unwrap();
        assert!(text.ends_with("12 ok\n13 booked 2\n- 1 4 2\n- 0 1 0\ntotal XS0000000009 100\ncash 0\n"), "{text}");
    }

    #[test]
    fn both_days_are_included() {
        let mut s = served();
        assert_eq!(default(&mut s, A, B, 10, 19), 0);
        for (day, due) in
            [(9, Err(14)), (10, Ok(vec![A, B])), (15, Ok(vec![A, B])), (19, Ok(vec![A, B])), (20, Err(14))]
        {
            assert_eq!(chain(&s, participant(A), participant(B), day), due, "day {day}");
        }
        let mut s = served();
        assert_eq!(default(&mut s, A, B, 7, 7), 0);
        let lengths = [6, 7, 8].map(|day| chain(&s, participant(A), participant(B), day).map(|csds| csds.len()));
        assert_eq!(lengths, [Err(14), Ok(2), Err(14)]);
    }

    #[test]
    fn ffff_is_a_day_like_any_other() {
        let mut s = served();
        assert_eq!(default(&mut s, A, B, 0, MAX - 1), 0);
        assert_eq!(chain(&s, participant(A), participant(B), MAX), Err(14));
        assert_eq!(default(&mut s, A, C, MAX, MAX), 0);
        assert_eq!(chain(&s, participant(A), participant(B), MAX), Err(14));
        assert_eq!(default(&mut s, C, B, MAX, MAX), 0);
        assert_eq!(chain(&s, participant(A), participant(B), MAX), Ok(vec![A, C, B]));
        assert_eq!(chain(&s, participant(A), participant(B), MAX - 1), Ok(vec![A, B]));
        assert_eq!(default(&mut s, A, X, MAX, 0), 24);
    }

    #[test]
    fn first_after_last_comes_after_10_and_before_11() {
        let mut s = fixture();
        let issuance = account(A, ISSUANCE);
        for days in [(1, 0), (MAX, 0), (MAX, MAX - 1)] {
            assert_eq!(dated(&mut s, ISSUER, A, FF, DEFAULT, FFFF, days), 6);
            assert_eq!(dated(&mut s, INVESTOR, A, B, 2, FFFF, days), 7);
            assert_eq!(dated(&mut s, ISSUER, A, FF, DEFAULT, account(A, MIRROR), days), 10);
            assert_eq!(dated(&mut s, ISSUER, A, FF, DEFAULT, account(B, ISSUANCE), days), 10);
            assert_eq!(dated(&mut s, ISSUER, A, FF, DEFAULT, issuance, days), 24);
            assert_eq!(dated(&mut s, ISSUER, A, FF, ALTERNATIVE, issuance, days), 24);
            assert_eq!(dated(&mut s, ISSUER, A, B, DEFAULT, issuance, days), 24);
            assert_eq!(dated(&mut s, INVESTOR, A, A, DEFAULT, FFFF, days), 24);
            assert_eq!(dated(&mut s, INVESTOR, A, B, ALTERNATIVE, FFFF, days), 24);
            assert_eq!(dated(&mut s, INVESTOR, A, B, DEFAULT, issuance, days), 24);
        }
        assert_eq!(s.directory().links.count, 0);
    }

    #[test]
    fn a_period_without_a_day_shares_none() {
        let mut s = fixture();
        assert_eq!(default(&mut s, A, B, 0, MAX), 0);
        assert_eq!(issuer(&mut s, B, 0, MAX), 0);
        for (first, last) in [(20, 10), (1, 0), (MAX, 0)] {
            assert_eq!(default(&mut s, A, B, first, last), 24);
            assert_eq!(alternative(&mut s, A, B, first, last), 24);
            assert_eq!(default(&mut s, A, C, first, last), 24);
            assert_eq!(issuer(&mut s, B, first, last), 24);
        }
        assert_eq!(default(&mut s, A, B, 10, 20), 9);
    }

    #[test]
    fn defaults_meet_on_no_day() {
        let mut s = fixture();
        assert_eq!(default(&mut s, A, B, 10, 19), 0);
        for (first, last) in [(10, 19), (0, 10), (19, 30), (12, 13), (0, MAX)] {
            assert_eq!(default(&mut s, A, C, first, last), 11, "{first} to {last}");
            assert_eq!(default(&mut s, A, B, first, last), 9, "{first} to {last}");
        }
        // A later link may be a default, before and behind the first.
        assert_eq!(default(&mut s, A, C, 20, 29), 0);
        assert_eq!(default(&mut s, A, B, 0, 9), 0);
        assert_eq!(default(&mut s, A, X, 40, MAX), 0);
        assert_eq!(default(&mut s, A, Y, 29, 40), 11);
        assert_eq!(default(&mut s, A, Y, 30, 39), 0);
    }

    #[test]
    fn an_alternative_needs_a_default_on_each_of_its_days() {
        let mut s = fixture();
        assert_eq!(alternative(&mut s, A, C, 10, 19), 11);
        assert_eq!(default(&mut s, A, B, 10, 19), 0);
        for (first, last) in [(9, 19), (10, 20), (9, 9), (20, 20), (0, MAX)] {
            assert_eq!(alternative(&mut s, A, C, first, last), 11, "{first} to {last}");
        }
        assert_eq!(alternative(&mut s, A, C, 10, 19), 0);
        // Defaults that follow one another give that together, whatever the order of their entry.
        let other = s.csd(IN_T2S);
        assert_eq!(default(&mut s, A, X, 30, 39), 0);
        assert_eq!(alternative(&mut s, A, other, 15, 35), 11);
        assert_eq!(default(&mut s, A, B, 21, 29), 0);
        assert_eq!(alternative(&mut s, A, other, 15, 35), 11);
        assert_eq!(default(&mut s, A, Y, 20, 20), 0);
        assert_eq!(alternative(&mut s, A, other, 15, 35), 0);
        // A default at its ends is not enough.
        assert_eq!(default(&mut s, A, B, 41, 41), 0);
        assert_eq!(alternative(&mut s, A, C, 39, 41), 11);
    }

    #[test]
    fn the_same_technical_issuer_is_9_only_on_a_shared_day() {
        let mut s = fixture();
        assert_eq!(default(&mut s, A, B, 0, 19), 0);
        assert_eq!(alternative(&mut s, A, C, 5, 9), 0);
        assert_eq!(alternative(&mut s, A, C, 9, 12), 9);
        assert_eq!(alternative(&mut s, A, C, 0, 5), 9);
        assert_eq!(alternative(&mut s, A, B, 19, 19), 9);
        assert_eq!(alternative(&mut s, A, C, 10, 12), 0);
        assert_eq!(default(&mut s, A, C, 20, 29), 0);
        assert_eq!(alternative(&mut s, A, B, 20, 29), 0);
        // 9 comes before the default that is missing, and before the one that is there.
        assert_eq!(alternative(&mut s, A, C, 29, 40), 9);
        assert_eq!(default(&mut s, A, B, 25, 40), 9);
        // An issuer link may name no technical issuer, but is 9 first where it does.
        assert_eq!(dated(&mut s, ISSUER, A, B, DEFAULT, account(A, ISSUANCE), (19, 19)), 9);
        assert_eq!(dated(&mut s, ISSUER, A, B, DEFAULT, account(A, ISSUANCE), (30, 39)), 11);
    }

    #[test]
    fn an_issuer_link_shares_no_day_with_another_link() {
        let mut s = fixture();
        assert_eq!(issuer(&mut s, A, 10, 19), 0);
        for (first, last) in [(10, 19), (0, 10), (19, 30), (12, 13)] {
            assert_eq!(issuer(&mut s, A, first, last), 11);
            assert_eq!(default(&mut s, A, B, first, last), 11);
            assert_eq!(alternative(&mut s, A, B, first, last), 11);
        }
        assert_eq!(issuer(&mut s, A, 20, 29), 0);
        assert_eq!(default(&mut s, A, B, 30, 39), 0);
        assert_eq!(alternative(&mut s, A, C, 30, 39), 0);
        assert_eq!(issuer(&mut s, A, 39, 49), 11);
        assert_eq!(issuer(&mut s, A, 0, 9), 0);
        assert_eq!(alternative(&mut s, A, C, 29, 29), 11);
        // External issuers likewise.
        assert_eq!(dated(&mut s, ISSUER, X, FF, DEFAULT, FFFF, (0, 9)), 0);
        assert_eq!(dated(&mut s, ISSUER, X, FF, DEFAULT, FFFF, (9, 9)), 11);
        assert_eq!(default(&mut s, X, A, 10, 19), 0);
    }

    #[test]
    fn an_issuance_position_may_end_above_0_where_an_issuer_becomes_an_investor() {
        let mut s = served();
        assert_eq!(issuer(&mut s, A, 0, 9), 0);
        assert_eq!(default(&mut s, A, B, 10, 19), 0);
        assert_eq!(issuer(&mut s, A, 20, 29), 0);
        let (a, b) = (participant(A), participant(B));
        for (day, from, to) in [(10, b, a), (20, a, b)] {
            s.day = day;
            s.bring_in(b, 0, 100).ok();
            assert_eq!(number(s.settle(from, to, 0, 100, 0)), 0, "day {day}");
        }
        let held = |account: u16| s.session.positions()[usize::from(account) * SECURITIES].0;
        assert_eq!([a, account(A, ISSUANCE), b, account(B, ISSUANCE)].map(held), [0, 100, 200, -300]);
    }

    #[test]
    fn bring_in_and_take_out_see_the_links_of_their_day() {
        let mut s = served();
        assert_eq!(issuer(&mut s, A, 0, 9), 0);
        assert_eq!(default(&mut s, A, X, 10, 19), 0);
        assert_eq!(default(&mut s, A, B, 30, 39), 0);
        for (day, due) in [(0, 0), (9, 0), (10, 0), (19, 0), (20, 19), (29, 19), (30, 19), (40, 19), (MAX, 19)] {
            s.day = day;
            assert_eq!(number(s.bring_in(participant(A), 0, 10)), due, "day {day}");
            assert_eq!(number(s.take_out(participant(A), 0, 1)), due, "day {day}");
        }
        let held = |account: u16| s.session.positions()[usize::from(account) * SECURITIES].0;
        let outside = s.directory().pairs.rows.iter().find(|row| row.technical == X && row.served == participant(A));
        let own = [participant(A), account(A, ISSUANCE), outside.unwrap().investor_account];
        assert_eq!(own.map(held), [36, -18, -18]);
    }

    #[test]
    fn directed_walks_see_the_links_of_their_day() {
        let mut s = served();
        assert_eq!(default(&mut s, A, X, 0, MAX), 0);
        assert_eq!(alternative(&mut s, A, B, 10, 19), 0);
        let (a, b) = (participant(A), participant(B));
        for day in [0, 9, 20, MAX] {
            assert_eq!([chain(&s, a, b, day), chain(&s, b, a, day)], [Err(17), Err(16)], "day {day}");
        }
        for day in [10, 19] {
            assert_eq!([chain(&s, a, b, day), chain(&s, b, a, day)], [Ok(vec![A, B]), Ok(vec![B, A])], "day {day}");
        }
    }

    #[test]
    fn pair_rows_and_accounts_have_no_days() {
        let mut s = fixture();
        assert_eq!(issuer(&mut s, B, 0, MAX), 0);
        assert_eq!(default(&mut s, A, B, 10, 19), 0);
        assert_eq!(default(&mut s, A, C, 20, 29), 0);
        assert_eq!(default(&mut s, C, B, 20, 29), 0);
        assert_eq!(chain(&s, participant(A), participant(B), 10), Err(18));
        s.serve(participant(A), B, 0);
        assert_eq!(chain(&s, participant(A), participant(B), 19), Ok(vec![A, B]));
        assert_eq!(chain(&s, participant(A), participant(B), 20), Err(18));
        s.climb(participant(A), &[A, C, B], 0);
        assert_eq!(chain(&s, participant(A), participant(B), 29), Ok(vec![A, C, B]));
        // One CSD alone reads no link.
        let second = s.account(A, PARTICIPANT);
        assert_eq!(chain(&s, participant(A), second, MAX), Ok(vec![A]));
    }

    #[test]
    fn soundness_replays_links_in_table_order_with_their_days() {
        let mut s = fixture();
        assert_eq!(default(&mut s, A, B, 0, 9), 0);
        assert_eq!(default(&mut s, A, C, 10, 19), 0);
        assert_eq!(alternative(&mut s, A, B, 10, 15), 0);
        let answer = |change: fn(&mut Table<Link, LINKS>)| {
            let mut store = Store { directory: s.directory().clone(), ..Store::empty() };
            change(&mut store.directory.links);
            Model.call(&mut store, &Call::Command(Command::PayIn { account: 0, amount: Cents(1) }))
        };
        assert_eq!(answer(|_| {}), Answer::Accepted);
        assert_eq!(answer(|links| links.rows[0].days.last = 10), Answer::Refused(4));
        assert_eq!(answer(|links| links.rows[0].days = Period::new(9, 8)), Answer::Refused(4));
        assert_eq!(answer(|links| links.rows[1].days.last = 14), Answer::Refused(4));
        assert_eq!(answer(|links| links.rows[1].days.last = 15), Answer::Accepted);
        assert_eq!(answer(|links| links.rows[2].days.first = 9), Answer::Refused(4));
        assert_eq!(answer(|links| links.rows.swap(0, 1)), Answer::Accepted);
        assert_eq!(answer(|links| links.rows.swap(1, 2)), Answer::Refused(4));
        assert_eq!(answer(|links| links.rows[3].days = Period::new(9, 8)), Answer::Accepted);
    }

    #[test]
    fn five_comes_before_a_period_without_a_day() {
        let mut s = fixture();
        for first in 0..LINKS as Day {
            assert_eq!(default(&mut s, A, B, first, first), 0);
        }
        assert_eq!(default(&mut s, A, B, 9, 8), 5);
        assert_eq!(default(&mut s, A, B, 500, 500), 5);
        s.serve(participant(A), B, 0);
        let lengths = [127, 128].map(|day| chain(&s, participant(A), participant(B), day).map(|csds| csds.len()));
        assert_eq!(lengths, [Ok(2), Err(14)]);
    }
}
