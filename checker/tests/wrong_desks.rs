//! Desks that are wrong on purpose, each as the documents warn of it or as they can be misread. The trials must
//! catch every one.

use checker::booking::SidedHalf;
use checker::chain::Step;
use checker::command::{Command, Reader};
use checker::directory::{Bic, Csd, Day, Isin, Link, Pair, Period, Table, ALTERNATIVE};
use checker::trial::climbs::{Found, Source, Turn};
use checker::trial::coverage::Coverage;
use checker::trial::implementation::{Answer, Call, Implementation, Model, Program, Store};
use checker::trial::literal::{day_of, in_order, Asked, LookUp, Rows};
use checker::trial::{differential, linking, pairing, streams};

/// A change of the model's answer and of the store that it left, given the store before.
trait Mistake: Fn(&Call, &Store, &mut Store, Answer) -> Answer + Copy {}

impl<M: Fn(&Call, &Store, &mut Store, Answer) -> Answer + Copy> Mistake for M {}

struct WrongDesk<M>(M);

impl<M> Program for WrongDesk<M> {
    fn transcript(&mut self, input: &[u8]) -> Vec<u8> {
        Model.transcript(input)
    }
}

impl<M: Mistake> Implementation for WrongDesk<M> {
    fn call(&mut self, store: &mut Store, call: &Call) -> Answer {
        let before = store.clone();
        let answer = Model.call(store, call);
        (self.0)(call, &before, store, answer)
    }
}

/// The rows before a call, with the links of its day alone.
fn rows_on_day(call: &Call, before: &Store) -> Rows {
    let rows = Rows::from(&before.directory);
    match call {
        Call::Command(command) => day_of(command).map_or(rows.clone(), |day| rows.on(day)),
        _ => rows,
    }
}

/// The new row of a call, and in which ways its answer is due.
type Entered<T> = Option<(T, Vec<&'static str>)>;

/// An entry is refused with another number where this way applies.
fn refusing_entry<T: 'static>(
    entered: fn(&Call, &Store, Answer) -> Entered<T>,
    way: &'static str,
    number: u8,
) -> impl Mistake {
    move |call: &Call, before: &Store, store: &mut Store, answer| match entered(call, before, answer) {
        Some((_, due)) if due.contains(&way) => {
            store.clone_from(before);
            Answer::Refused(number)
        }
        _ => answer,
    }
}

/// Both kinds of trial notice the mistake.
fn is_caught(mistake: impl Fn(&Call, &Store, &mut Store, Answer) -> Answer + Copy) {
    let mut coverage = Coverage::default();
    let by_streams =
        (1..1000).find_map(|seed| differential::stream(seed, &mut WrongDesk(mistake), &mut coverage).err());
    let by_calls = (1..2000).find_map(|seed| differential::calls(seed, &mut WrongDesk(mistake), &mut coverage).err());
    println!("{by_streams:?}\n{by_calls:?}");
    assert!(by_streams.is_some() && by_calls.is_some());
}

#[test]
fn booked_and_nothing_moved() {
    is_caught(|_, before, store, answer| {
        if matches!(answer, Answer::Booked(_)) {
            store.positions.clone_from(&before.positions);
        }
        answer
    });
}

#[test]
fn first_step_only() {
    is_caught(|call, before, store, answer| {
        if let (Answer::Booked(2..), Call::Command(command)) = (answer, call) {
            let Some((delivering, _)) = in_order(command) else { return answer };
            let place = |account: u16| usize::from(account) * 16 + usize::from(delivering.security);
            let first = store.steps[0];
            for (number, position) in store.positions.iter_mut().enumerate() {
                if number != place(first.debit) && number != place(first.credit) {
                    *position = before.positions[number];
                }
            }
        }
        answer
    });
}

#[test]
fn one_step_too_many() {
    is_caught(|_, _, _, answer| match answer {
        Answer::Chain(length) => Answer::Chain(length + 1),
        _ => answer,
    });
}

#[test]
fn last_step_not_written() {
    is_caught(|_, before, store, answer| {
        if let Answer::Chain(length) | Answer::Booked(length) = answer {
            store.steps[length - 1] = before.steps[length - 1];
        }
        answer
    });
}

#[test]
fn fourteen_unread() {
    is_caught(|_, before, store, answer| match answer {
        Answer::Refused(15..=18) => Answer::Refused(14),
        Answer::Chain(_) => {
            store.clone_from(before);
            Answer::Refused(14)
        }
        _ => answer,
    });
}

#[test]
fn every_bring_in_refused() {
    is_caught(|call, before, store, answer| {
        if matches!(call, Call::Command(Command::BringIn { .. })) && answer == Answer::Accepted {
            store.clone_from(before);
            return Answer::Refused(19);
        }
        answer
    });
}

#[test]
fn a_refused_call_leaves_a_trace() {
    is_caught(|_, _, store, answer| {
        if answer == Answer::Refused(20) && store.steps.len() > 16 {
            store.steps[16].csd ^= 1;
        }
        if answer == Answer::Refused(22) {
            store.directory.links.rows[127].flag ^= 1;
            if let Some(position) = store.positions.last_mut() {
                position.0 ^= 1;
            }
        }
        answer
    });
}

#[test]
fn cash_paid_the_wrong_way() {
    is_caught(|call, _, store, answer| {
        if let (Answer::Booked(_), Call::Command(command)) = (answer, call) {
            let Some((delivering, receiving)) = in_order(command) else { return answer };
            let amount = delivering.amount.0;
            store.cash[usize::from(delivering.account)].0 -= 2 * amount;
            store.cash[usize::from(receiving.account)].0 += 2 * amount;
        }
        answer
    });
}

/// Document 02, ask 1: "The side in the half".
mod sides {
    use super::*;

    /// The two halves of a sided call.
    fn sided(call: &Call) -> Option<[SidedHalf; 2]> {
        match *call {
            Call::Command(Command::SettleSided { first, second, .. } | Command::DeriveSided { first, second, .. }) => {
                Some([first, second])
            }
            _ => None,
        }
    }

    /// What the model answers and leaves where the call has these sides instead.
    fn with_sides(call: &Call, sides: [u8; 2], before: &Store, store: &mut Store) -> Answer {
        let mut command = *call;
        if let Call::Command(Command::SettleSided { first, second, .. } | Command::DeriveSided { first, second, .. }) =
            &mut command
        {
            [first.side, second.side] = sides;
        }
        store.clone_from(before);
        Model.call(store, &command)
    }

    #[test]
    fn the_side_is_taken_from_the_place() {
        is_caught(|call, before, store, answer| match sided(call).map(|halves| halves.map(|half| half.side)) {
            Some([1, 0]) => with_sides(call, [0, 1], before, store),
            _ => answer,
        });
    }

    #[test]
    fn sides_are_not_read() {
        is_caught(|call, before, store, answer| match sided(call) {
            Some(_) => with_sides(call, [0, 1], before, store),
            None => answer,
        });
    }

    #[test]
    fn the_same_side_comes_behind_12() {
        is_caught(|call, before, store, answer| match answer {
            Answer::Refused(23) => match with_sides(call, [0, 1], before, &mut store.clone()) {
                Answer::Refused(12) => Answer::Refused(12),
                _ => answer,
            },
            _ => answer,
        });
    }

    #[test]
    fn the_same_side_comes_behind_13() {
        is_caught(|call, before, store, answer| match answer {
            Answer::Refused(23) => match with_sides(call, [0, 1], before, &mut store.clone()) {
                Answer::Refused(13) => Answer::Refused(13),
                _ => answer,
            },
            _ => answer,
        });
    }

    #[test]
    fn the_same_side_comes_before_10() {
        is_caught(|call, _, _, answer| match (sided(call), answer) {
            (Some([first, second]), Answer::Refused(10)) if first.side == second.side => Answer::Refused(23),
            _ => answer,
        });
    }

    #[test]
    fn a_byte_2_is_taken_as_receiving() {
        is_caught(|call, before, store, answer| match sided(call) {
            Some(halves) if halves.iter().any(|half| half.side == 2) => {
                with_sides(call, halves.map(|half| half.side.min(1)), before, store)
            }
            _ => answer,
        });
    }

    #[test]
    fn two_and_two_are_the_same_side() {
        is_caught(|call, before, store, answer| match sided(call) {
            Some([first, second]) if first.side == second.side && first.side > 1 => {
                with_sides(call, [1, 1], before, store)
            }
            _ => answer,
        });
    }

    #[test]
    fn a_wrong_side_comes_before_6() {
        is_caught(|call, _, _, answer| match (sided(call), answer) {
            (Some(halves), Answer::Refused(6)) if halves.iter().any(|half| half.side > 1) => Answer::Refused(7),
            _ => answer,
        });
    }

    #[test]
    fn inside_and_outside_go_by_the_place() {
        is_caught(|call, _, _, answer| match (sided(call), answer) {
            (Some([first, _]), Answer::Refused(number @ 16..=17)) if first.side == 1 => Answer::Refused(33 - number),
            _ => answer,
        });
    }

    #[test]
    fn steps_run_from_the_first_half() {
        is_caught(|call, _, store, answer| {
            if let (Some([first, _]), Answer::Booked(length) | Answer::Chain(length)) = (sided(call), answer) {
                if first.side == 1 {
                    store.steps[..length].reverse();
                }
            }
            answer
        });
    }
}

/// Document 02, ask 2: "Branches are different depositories".
mod branches {
    use super::*;

    /// The CSDs that are entered.
    fn csds(store: &Store) -> &[Csd] {
        store.directory.csds.entered().unwrap_or_default()
    }

    /// An accepted CSD is 9 beside one whose BIC is the same by the test.
    fn refused_by(
        same: fn(&Bic, &Bic) -> bool,
        call: &Call,
        before: &Store,
        store: &mut Store,
        answer: Answer,
    ) -> Answer {
        match (call, answer) {
            (Call::Command(Command::EnterCsd(new)), Answer::Accepted)
                if csds(before).iter().any(|row| same(&row.bic, &new.bic)) =>
            {
                store.clone_from(before);
                Answer::Refused(9)
            }
            _ => answer,
        }
    }

    #[test]
    fn the_first_eight_bytes_decide() {
        is_caught(|call, before, store, answer| refused_by(|a, b| a[..8] == b[..8], call, before, store, answer));
    }

    #[test]
    fn the_last_byte_is_not_read() {
        is_caught(|call, before, store, answer| refused_by(|a, b| a[..10] == b[..10], call, before, store, answer));
    }

    #[test]
    fn three_capitals_x_are_any_branch() {
        fn same(a: &Bic, b: &Bic) -> bool {
            a[..8] == b[..8] && (a[8..] == *b"XXX" || b[8..] == *b"XXX")
        }
        is_caught(|call, before, store, answer| refused_by(same, call, before, store, answer));
    }

    #[test]
    fn only_csds_of_one_type_are_compared() {
        is_caught(|call, _, store, answer| match (call, answer) {
            (Call::Command(Command::EnterCsd(new)), Answer::Refused(9)) if !csds(store).contains(new) => {
                let table = &mut store.directory.csds;
                table.rows[table.count] = *new;
                table.count += 1;
                Answer::Accepted
            }
            _ => answer,
        });
    }

    #[test]
    fn soundness_goes_by_the_first_eight_bytes() {
        is_caught(|call, before, store, answer| {
            let rows = csds(before);
            let twice = (0..rows.len()).any(|i| rows[..i].iter().any(|row| row.bic[..8] == rows[i].bic[..8]));
            if twice && !matches!(call, Call::CashTotal) && !matches!(answer, Answer::Refused(3..=4)) {
                store.clone_from(before);
                return Answer::Refused(4);
            }
            answer
        });
    }
}

/// Document 02, ask 3: "Segregated holdings".
mod segregated {
    use super::*;

    /// Pair rows are looked up in another way. A settlement that the model refuses stays refused.
    fn looking_up(row: LookUp) -> impl Mistake {
        move |call: &Call, before: &Store, store: &mut Store, answer| {
            let (Call::Command(command), Answer::Booked(_) | Answer::Chain(_) | Answer::Refused(18)) = (call, answer)
            else {
                return answer;
            };
            let Some((delivering, receiving)) = in_order(command) else { return answer };
            let rows = rows_on_day(call, before);
            match rows.chain_by(row, delivering.security, delivering.account, receiving.account) {
                Ok((_, steps)) => with_steps(&steps, command, before, store, answer),
                Err(number) => {
                    store.clone_from(before);
                    Answer::Refused(number)
                }
            }
        }
    }

    /// The answer with other steps.
    fn with_steps(steps: &[Step], command: &Command, before: &Store, store: &mut Store, answer: Answer) -> Answer {
        let (Some((half, _)), true) = (in_order(command), before.steps.len() >= steps.len()) else { return answer };
        let answer = match (command, answer) {
            (Command::Derive { .. } | Command::DeriveSided { .. }, _) => Answer::Chain(steps.len()),
            (_, Answer::Booked(_)) => Answer::Booked(steps.len()),
            _ => return answer,
        };
        store.steps.clone_from(&before.steps);
        store.steps[..steps.len()].copy_from_slice(steps);
        if matches!(answer, Answer::Booked(_)) {
            store.positions.clone_from(&before.positions);
            let place = |account: u16| usize::from(account) * 16 + usize::from(half.security);
            for step in steps {
                store.positions[place(step.debit)].0 -= half.quantity.0;
                store.positions[place(step.credit)].0 += half.quantity.0;
            }
        }
        answer
    }

    fn first_of_two_csds(rows: &Rows, asked: &Asked) -> Option<Pair> {
        let same = |row: &&Pair| row.investor == asked.investor && row.technical == asked.technical;
        rows.pairs.iter().find(same).copied()
    }

    #[test]
    fn the_served_account_is_not_looked_at() {
        is_caught(looking_up(first_of_two_csds));
    }

    #[test]
    fn the_served_account_is_looked_at_in_the_first_step_only() {
        fn row(rows: &Rows, asked: &Asked) -> Option<Pair> {
            if asked.served == asked.participant {
                rows.row(asked)
            } else {
                first_of_two_csds(rows, asked)
            }
        }
        is_caught(looking_up(row));
    }

    #[test]
    fn the_participants_row_is_used_at_a_higher_step() {
        fn row(rows: &Rows, asked: &Asked) -> Option<Pair> {
            let own = |row: &&Pair| row.technical == asked.technical && row.served == asked.participant;
            rows.pairs.iter().find(own).copied()
        }
        is_caught(looking_up(row));
    }

    #[test]
    fn the_first_row_is_the_default_row() {
        fn row(rows: &Rows, asked: &Asked) -> Option<Pair> {
            rows.row(asked).or_else(|| first_of_two_csds(rows, asked))
        }
        is_caught(looking_up(row));
    }

    /// Document 000's way: on to the technical issuer of the CSD where the sides meet, and back.
    fn beyond_the_turn(rows: &Rows, command: &Command, steps: &[Step]) -> Option<Vec<Step>> {
        let (delivering, receiving) = in_order(command)?;
        let (security, d, r) = (delivering.security, delivering.account, receiving.account);
        if rows.turn(security, d, r)? != Turn::DifferentDuos {
            return None;
        }
        let route = rows.route(security, d, r).ok()?;
        let (turn, investor) = (route.up.len() - 1, *route.up.last()?);
        let technical = rows.default_technical(security, investor).filter(|&csd| !rows.is_external(csd))?;
        let Step { csd, debit, credit } = steps[turn];
        let row = |served| rows.row(&Asked::first(investor, technical, served));
        let (one, other) = (row(debit)?, row(credit)?);
        let beyond = [
            Step { csd, debit, credit: one.investor_account },
            Step { csd: technical, debit: one.technical_account, credit: other.technical_account },
            Step { csd, debit: other.investor_account, credit },
        ];
        Some([&steps[..turn], &beyond, &steps[turn + 1..]].concat())
    }

    #[test]
    fn the_chain_goes_on_where_the_sides_have_different_omnibus_accounts() {
        is_caught(|call, before, store, answer| match (call, answer) {
            (Call::Command(command), Answer::Booked(length) | Answer::Chain(length)) => {
                let rows = rows_on_day(call, before);
                match beyond_the_turn(&rows, command, &store.steps[..length]) {
                    Some(steps) => with_steps(&steps, command, before, store, answer),
                    None => answer,
                }
            }
            _ => answer,
        });
    }

    /// The row that a call brings in or takes out by, and what it moves.
    fn moved(call: &Call) -> Option<(u8, u16)> {
        match *call {
            Call::Command(Command::BringIn { account, security, .. } | Command::TakeOut { account, security, .. }) => {
                Some((security, account))
            }
            _ => None,
        }
    }

    #[test]
    fn bring_in_draws_on_the_first_inter_csd_account() {
        is_caught(|call, before, store, answer| {
            let rows = rows_on_day(call, before);
            let Some((security, account)) = moved(call).filter(|_| answer == Answer::Accepted) else { return answer };
            let Some(Source::InterCsd(Found::OtherAccounts)) = rows.source_way(security, account) else {
                return answer;
            };
            let investor = rows.accounts[usize::from(account)].csd;
            let technical = rows.default_technical(security, investor).unwrap();
            let own = Asked::first(investor, technical, account);
            let place = |row: Option<Pair>| usize::from(row.unwrap().investor_account) * 16 + usize::from(security);
            let (right, wrong) = (place(rows.row(&own)), place(first_of_two_csds(&rows, &own)));
            let units = store.positions[right].0 - before.positions[right].0;
            store.positions[right].0 -= units;
            store.positions[wrong].0 += units;
            answer
        });
    }

    #[test]
    fn bring_in_without_a_row_is_18() {
        is_caught(|call, before, _, answer| match (moved(call), answer) {
            (Some((security, account)), Answer::Refused(19)) => {
                match rows_on_day(call, before).source_way(security, account) {
                    Some(Source::InterCsd(_)) => Answer::Refused(18),
                    _ => answer,
                }
            }
            _ => answer,
        });
    }

    /// The new row of a call, and in which ways its answer is due.
    fn entered(call: &Call, before: &Store, answer: Answer) -> Entered<Pair> {
        match (call, answer) {
            (Call::Command(Command::EnterPair(new)), Answer::Accepted | Answer::Refused(5..)) => {
                Some((*new, pairing::due(&Rows::from(&before.directory), new).1))
            }
            _ => None,
        }
    }

    /// A row is accepted where it is refused in this way alone.
    fn accepting(way: &'static str) -> impl Mistake {
        move |call: &Call, before: &Store, store: &mut Store, answer| match entered(call, before, answer) {
            Some((new, due)) if due == [way] => {
                let table = &mut store.directory.pairs;
                table.rows[table.count] = new;
                table.count += 1;
                Answer::Accepted
            }
            _ => answer,
        }
    }

    /// A row is refused with another number where this way applies.
    fn refusing(way: &'static str, number: u8) -> impl Mistake {
        refusing_entry(entered, way, number)
    }

    #[test]
    fn a_mirror_is_shared_with_another_omnibus() {
        is_caught(accepting("a mirror shared, its omnibus not"));
    }

    #[test]
    fn an_omnibus_is_shared_with_another_mirror() {
        is_caught(accepting("an omnibus shared, its mirror not"));
    }

    #[test]
    fn two_duos_are_crossed() {
        is_caught(accepting("mirror and omnibus of two duos"));
    }

    #[test]
    fn rows_of_other_csds_share_an_account() {
        is_caught(accepting("the first account of other CSDs"));
        is_caught(accepting("the second account of other CSDs"));
    }

    #[test]
    fn a_triplet_is_entered_again_with_other_accounts() {
        is_caught(accepting("the same triplet, other accounts"));
    }

    #[test]
    fn no_served_account_makes_a_default_row() {
        is_caught(accepting("FFFF as served account"));
    }

    #[test]
    fn a_mirror_is_served() {
        is_caught(accepting("a mirror served"));
    }

    #[test]
    fn the_other_column_is_not_looked_at() {
        is_caught(refusing("a second account given first", 10));
        is_caught(refusing("a first account given second", 10));
    }

    #[test]
    fn a_second_account_with_an_external_issuer_is_always_11() {
        is_caught(refusing("external issuer: first shared, second paired", 11));
        is_caught(refusing("external issuer: first free, second paired", 11));
    }

    #[test]
    fn a_triplet_is_the_same_without_its_investor() {
        is_caught(refusing("an account of another CSD served, with its row", 9));
    }

    #[test]
    fn two_csds_have_one_duo() {
        is_caught(refusing("another duo of two CSDs", 9));
    }

    #[test]
    fn a_duo_has_one_row() {
        is_caught(refusing("a shared duo", 9));
    }

    #[test]
    fn an_inter_csd_account_has_one_row() {
        is_caught(refusing("a shared inter-CSD account", 9));
    }

    #[test]
    fn a_served_account_that_is_an_omnibus_counts_as_shared() {
        is_caught(refusing("an omnibus of a row served", 9));
    }

    #[test]
    fn an_omnibus_that_is_served_counts_as_shared() {
        is_caught(refusing("an omnibus that is served already", 9));
    }

    #[test]
    fn the_table_is_full_at_64_rows() {
        is_caught(|call, before, store, answer| match entered(call, before, answer) {
            Some(_) if before.directory.pairs.count >= 64 => {
                store.clone_from(before);
                Answer::Refused(5)
            }
            _ => answer,
        });
    }

    /// A program that still enters pairs by 04, for the first account.
    struct Former;

    impl Program for Former {
        fn transcript(&mut self, input: &[u8]) -> Vec<u8> {
            let mut reader = Reader::new(input);
            let mut bytes = Vec::new();
            while let Ok(command) = reader.command() {
                command.write(&mut bytes);
            }
            match &input[bytes.len()..] {
                [0x04, row @ ..] if row.len() >= 6 => {
                    bytes.push(0x0E);
                    bytes.extend([&row[..6], &[0, 0], &row[6..]].concat());
                    Model.transcript(&bytes)
                }
                _ => Model.transcript(input),
            }
        }
    }

    #[test]
    fn byte_04_still_enters_a_pair() {
        let caught = (1..1000).find_map(|seed| differential::text_of(&streams::stream(seed), &mut Former).err());
        println!("{caught:?}");
        assert!(caught.is_some());
    }
}

/// Document 02, ask 4: "ISIN digits without the scratch copy".
mod isins {
    use super::*;

    /// The numbers of the characters before the check digit, from the right: 0 to 9 of digits, 10 to 35 of letters.
    fn numbers(isin: &Isin) -> impl Iterator<Item = u32> + '_ {
        isin[..11].iter().rev().map(|&byte| char::from(byte).to_digit(36).unwrap())
    }

    /// The digit as it counts at a place, every other one doubled.
    fn counted(place: usize, digit: u32) -> u32 {
        if place.is_multiple_of(2) {
            2 * digit / 10 + 2 * digit % 10
        } else {
            digit
        }
    }

    /// Securities whose check digit completes another sum than the rule's.
    fn caught_by(sum: fn(&Isin) -> u32) {
        is_caught(|call, before, store, answer| {
            let Call::Command(Command::EnterSecurity(new)) = call else { return answer };
            let fits = |isin: &Isin| (sum(isin) + u32::from(isin[11] - b'0')).is_multiple_of(10);
            match answer {
                Answer::Accepted if !fits(&new.isin) => {
                    store.clone_from(before);
                    Answer::Refused(8)
                }
                Answer::Refused(8) if fits(&new.isin) => {
                    let table = &mut store.directory.securities;
                    table.rows[table.count] = *new;
                    table.count += 1;
                    Answer::Accepted
                }
                _ => answer,
            }
        });
    }

    #[test]
    fn a_letter_takes_one_place() {
        caught_by(|isin| {
            let counts = numbers(isin).enumerate();
            counts.map(|(place, number)| counted(place, number / 10) + counted(place, number % 10)).sum()
        });
    }

    #[test]
    fn a_letter_is_one_digit() {
        caught_by(|isin| numbers(isin).enumerate().map(|(place, number)| counted(place, number)).sum());
    }

    #[test]
    fn the_first_digit_from_the_left_is_doubled() {
        caught_by(|isin| {
            let written: String = isin[..11].iter().map(|&b| char::from(b).to_digit(36).unwrap().to_string()).collect();
            written.bytes().enumerate().map(|(place, byte)| counted(place, u32::from(byte - b'0'))).sum()
        });
    }
}

/// Document 02, ask 5: "Links have days".
mod days {
    use super::*;

    /// Other links are seen on a day than those valid on it. Where these would make no directory, the answer stays.
    fn seeing(sees: fn(&Call, &Link, Day) -> bool) -> impl Mistake {
        move |call: &Call, before: &Store, store: &mut Store, answer| {
            let Call::Command(command) = call else { return answer };
            let (Some(day), false) = (day_of(command), matches!(answer, Answer::Refused(3..=4))) else { return answer };
            let mut left = before.clone();
            let links = before.directory.links.entered().unwrap_or_default();
            let seen: Vec<Link> = links.iter().filter(|link| sees(call, link, day)).copied().collect();
            left.directory.links = table_of(&seen);
            let other = Model.call(&mut left, call);
            if other == Answer::Refused(4) {
                return answer;
            }
            left.directory.clone_from(&before.directory);
            store.clone_from(&left);
            other
        }
    }

    /// Links that are valid on every day.
    fn table_of<const LIMIT: usize>(links: &[Link]) -> Table<Link, LIMIT> {
        let mut table = Table { count: links.len(), ..Table::default() };
        for (place, link) in links.iter().enumerate() {
            table.rows[place] = Link { days: Period::ALWAYS, ..*link };
        }
        table
    }

    #[test]
    fn the_last_day_is_not_included() {
        is_caught(seeing(|_, link, day| link.days.first <= day && day < link.days.last));
    }

    #[test]
    fn the_first_day_is_not_included() {
        is_caught(seeing(|_, link, day| link.days.first < day && day <= link.days.last));
    }

    #[test]
    fn a_link_of_another_day_is_seen_by_the_directed_walk() {
        is_caught(seeing(|_, link, day| link.flag == ALTERNATIVE || link.days.contains(day)));
    }

    #[test]
    fn bring_in_by_a_link_whose_days_are_over() {
        is_caught(seeing(|call, link, day| {
            let moved = matches!(call, Call::Command(Command::BringIn { .. } | Command::TakeOut { .. }));
            link.days.contains(day) || moved && link.days.last < day
        }));
    }

    #[test]
    fn links_are_seen_before_their_first_day() {
        is_caught(seeing(|_, link, day| day <= link.days.last));
    }

    #[test]
    fn ffff_is_any_day() {
        is_caught(seeing(|_, link, day| day == Day::MAX || link.days.contains(day)));
    }

    /// The new link of a call, and in which ways its answer is due.
    fn entered(call: &Call, before: &Store, answer: Answer) -> Entered<Link> {
        match (call, answer) {
            (Call::Command(Command::EnterLink(new)), Answer::Accepted | Answer::Refused(5..)) => {
                Some((*new, linking::due(&Rows::from(&before.directory), new).1))
            }
            _ => None,
        }
    }

    /// A link is accepted where it is refused in one of these ways alone.
    fn accepting(ways: &'static [&'static str]) -> impl Mistake {
        move |call: &Call, before: &Store, store: &mut Store, answer| match entered(call, before, answer) {
            Some((new, due)) if due.len() == 1 && ways.contains(&due[0]) => {
                let table = &mut store.directory.links;
                table.rows[table.count] = new;
                table.count += 1;
                Answer::Accepted
            }
            _ => answer,
        }
    }

    /// A link is refused with another number where this way applies.
    fn refusing(way: &'static str, number: u8) -> impl Mistake {
        refusing_entry(entered, way, number)
    }

    #[test]
    fn an_alternative_needs_a_default_at_its_ends_only() {
        is_caught(accepting(&[
            "an alternative, a default at its ends alone",
            "an alternative, a gap between defaults",
        ]));
    }

    #[test]
    fn an_alternative_needs_a_default_on_its_first_day_only() {
        is_caught(accepting(&["an alternative, no default on the last day alone"]));
    }

    #[test]
    fn two_defaults_share_a_day() {
        is_caught(accepting(&["a default beside another on the first day alone"]));
        is_caught(accepting(&["a default beside another on the last day alone"]));
    }

    #[test]
    fn an_issuer_and_an_investor_share_a_day() {
        is_caught(accepting(&["an issuer link beside an investor's on the first day alone"]));
        is_caught(accepting(&["a default beside an issuer link on the last day alone"]));
    }

    #[test]
    fn the_same_technical_issuer_shares_a_day() {
        is_caught(accepting(&["the same technical issuer on the first day alone"]));
        is_caught(accepting(&["the same technical issuer on the last day alone"]));
    }

    #[test]
    fn a_period_without_a_day_is_accepted() {
        is_caught(accepting(&["first day after last by one", "first day after last by more"]));
    }

    #[test]
    fn first_after_last_comes_before_10() {
        is_caught(refusing("a wrong account, first day after last", 24));
    }

    #[test]
    fn first_after_last_comes_behind_11() {
        is_caught(refusing("first day after last, another rule broken", 11));
    }

    #[test]
    fn a_period_without_a_day_shares_one() {
        is_caught(refusing("first day after last, within a link to the same", 9));
    }

    #[test]
    fn one_day_is_none() {
        is_caught(refusing("a link of one day", 24));
    }

    #[test]
    fn a_technical_issuer_is_entered_once_for_all_days() {
        is_caught(refusing("a default to the same technical issuer on other days", 9));
    }

    #[test]
    fn only_the_first_link_is_a_default() {
        is_caught(refusing("a default the day after a default", 11));
    }

    #[test]
    fn one_default_covers_an_alternative() {
        is_caught(refusing("an alternative over several defaults", 11));
    }

    #[test]
    fn an_issuer_is_one_for_all_days() {
        is_caught(refusing("a default the day after an issuer link", 11));
        is_caught(refusing("an issuer the day after a default", 11));
    }

    #[test]
    fn soundness_goes_by_links_without_days() {
        is_caught(|call, before, store, answer| {
            let links = before.directory.links.entered().unwrap_or_default();
            let mut undated = before.clone();
            undated.directory.links = table_of(links);
            let judged = !matches!(call, Call::CashTotal) && !matches!(answer, Answer::Refused(3..=4));
            if judged && Model.call(&mut undated, call) == Answer::Refused(4) {
                store.clone_from(before);
                return Answer::Refused(4);
            }
            answer
        });
    }
}

/// Document 02, ask 6: "Taking a delivery back".
mod taking_back {
    use super::*;
    use checker::trial::forms::FORMS;
    use checker::trial::taking_back::BookedPair;

    /// A booked pair, with the stores before it and after.
    struct Last {
        call: Call,
        answer: Answer,
        before: Store,
        left: Store,
    }

    impl Last {
        /// Whether a call over a store is the opposite pair, with nothing in between.
        fn is_opposite(&self, call: &Call, store: &Store) -> bool {
            let Last { call: booked, answer, before, left } = self;
            let pair = BookedPair::of(booked, answer, (before.positions.clone(), before.cash.clone()), left);
            let opposite = |pair: BookedPair| FORMS.iter().any(|&form| Call::Command(pair.opposite(form)) == *call);
            store.positions == left.positions && store.cash == left.cash && pair.is_some_and(opposite)
        }
    }

    /// A change of the model's answer to the opposite pair and of the store that it left, given the pair booked last
    /// and the store before.
    type Mistake = fn(&Last, &Call, &Store, &mut Store, Answer) -> Answer;

    /// A desk that is wrong about the opposite of the pair booked last, and about nothing else.
    struct WrongWayBack {
        mistake: Mistake,
        last: Option<Last>,
    }

    impl Implementation for WrongWayBack {
        fn call(&mut self, store: &mut Store, call: &Call) -> Answer {
            let before = store.clone();
            let answer = Model.call(store, call);
            if let Some(last) = self.last.as_ref().filter(|last| last.is_opposite(call, &before)) {
                return (self.mistake)(last, call, &before, store, answer);
            }
            if matches!(answer, Answer::Booked(_)) {
                self.last = Some(Last { call: *call, answer, before, left: store.clone() });
            }
            answer
        }
    }

    /// Lists of calls notice it when they take a pair back.
    fn is_caught(mistake: Mistake) {
        let caught = (1..1000).find_map(|seed| {
            let mut desk = WrongWayBack { mistake, last: None };
            differential::list_of(&streams::stream(seed), seed, &mut desk, &mut Coverage::default()).err()
        });
        println!("{caught:?}");
        assert!(caught.is_some_and(|text| text.contains("taken back")));
    }

    /// Nothing is wrong with the desk itself.
    #[test]
    fn no_mistake_is_not_caught() {
        let mut desk = WrongWayBack { mistake: |_, _, _, _, answer| answer, last: None };
        for seed in 1..200 {
            let listed = differential::list_of(&streams::stream(seed), seed, &mut desk, &mut Coverage::default());
            assert_eq!(listed, Ok(()));
        }
    }

    #[test]
    fn the_opposite_pair_is_refused() {
        is_caught(|_, _, before, store, _| {
            store.clone_from(before);
            Answer::Refused(13)
        });
    }

    /// What the pair before brought cannot be used yet.
    #[test]
    fn sums_are_judged_on_the_store_before_the_pair() {
        is_caught(|last, call, before, store, answer| {
            let mut judged = last.before.clone();
            judged.steps.clone_from(&before.steps);
            match Model.call(&mut judged, call) {
                Answer::Refused(number) => {
                    store.clone_from(before);
                    Answer::Refused(number)
                }
                _ => answer,
            }
        });
    }

    #[test]
    fn the_cash_stays_where_it_is() {
        is_caught(|_, _, before, store, answer| {
            store.cash.clone_from(&before.cash);
            answer
        });
    }

    #[test]
    fn steps_run_as_in_the_first_chain() {
        is_caught(|last, _, _, store, answer| {
            if let (Answer::Booked(length), Answer::Booked(first)) = (answer, last.answer) {
                let steps = length.min(first);
                store.steps[..steps].copy_from_slice(&last.left.steps[..steps]);
            }
            answer
        });
    }

    #[test]
    fn all_steps_of_the_first_chain_are_kept() {
        is_caught(|last, _, _, store, answer| {
            if let Answer::Booked(length) = answer {
                if store.steps.len() >= 2 * length {
                    store.steps[length..2 * length].copy_from_slice(&last.left.steps[..length]);
                }
            }
            answer
        });
    }

    /// "Where both reach, the way back may be another chain."
    #[test]
    fn the_chain_is_turned_round_where_both_walks_reach() {
        is_caught(|last, _, before, store, answer| {
            let Answer::Booked(length) = last.answer else { return answer };
            store.positions.clone_from(&last.before.positions);
            store.cash.clone_from(&last.before.cash);
            store.steps.clone_from(&before.steps);
            for (place, step) in last.left.steps[..length].iter().rev().enumerate() {
                store.steps[place] = Step { csd: step.csd, debit: step.credit, credit: step.debit };
            }
            last.answer
        });
    }
}

/// A failing stream comes down to the few commands that it takes.
#[test]
fn a_failing_stream_is_shortened() {
    fn mistake(call: &Call, _: &Store, _: &mut Store, answer: Answer) -> Answer {
        match (call, answer) {
            (Call::Command(Command::PayIn { .. }), Answer::Accepted) => Answer::Refused(7),
            _ => answer,
        }
    }
    let mut fails =
        |bytes: &[u8]| differential::stream_of(bytes, 1, &mut WrongDesk(mistake), &mut Coverage::default()).is_err();
    let bytes = streams::stream(1);
    let short = differential::shortened(&bytes, &mut fails);
    assert!(fails(&short) && short.len() < 200, "{} of {} bytes", short.len(), bytes.len());
}
