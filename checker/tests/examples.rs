//! Chains that the documents show, by name: all of "Chains by example" of document 01, the walks that it
//! words, and the examples 24, 122 to 126 and 130 of document 000 with their accounts and triplets. Pairs taken back as
//! ask 6 of document 02 has it, in each way that the chain rule knows.
//!
//! Links are written as in document 01: "A>C>I" are default links from A to C and from C to I, "C~B" is an
//! alternative; I and J are issuers, X and Y external. Every CSD in T2S has a participant; it and every omnibus account
//! that it reaches has a pair row for each hop, all of two CSDs over the same accounts.

use std::collections::{BTreeMap, BTreeSet};

use checker::booking::{Cents, Halves, Units};
use checker::chain::Step;
use checker::desk;
use checker::directory::*;
use checker::trial::forms::FORMS;
use checker::trial::implementation::{Answer, Call, Implementation, Model, Store};
use checker::trial::scenario::{halves, Scenario};

const SECURITY: u8 = 0;
/// All links have days 0 to 65,535.
const DAY: Day = 0;

struct Example {
    scenario: Scenario,
    csds: BTreeMap<char, u8>,
    hops: Vec<(u8, u8)>,
    accounts: BTreeMap<u16, String>,
}

impl Example {
    fn new(links: &str) -> Example {
        let mut example = Example::without_rows(links);
        example.enter_rows();
        example
    }

    /// Enters the rows of every participant along all hops.
    fn enter_rows(&mut self) {
        let participants: Vec<u16> =
            self.accounts.iter().filter(|(_, name)| name.starts_with("Part")).map(|(&number, _)| number).collect();
        self.scenario.serve_along(&participants, &self.hops, |_| Some(0));
        self.name_accounts();
    }

    fn without_rows(links: &str) -> Example {
        let mut example = Example {
            scenario: Scenario::default(),
            csds: BTreeMap::new(),
            hops: Vec::new(),
            accounts: BTreeMap::new(),
        };
        example.scenario.security();
        for name in ['A', 'B'].into_iter().chain(links.chars().filter(char::is_ascii_uppercase)) {
            example.enter_csd(name);
        }
        let (alternatives, defaults): (Vec<&str>, Vec<&str>) = links.split(", ").partition(|text| text.contains('~'));
        for (flag, texts) in [(DEFAULT, defaults), (ALTERNATIVE, alternatives)] {
            for text in texts {
                let names: Vec<char> = text.chars().filter(char::is_ascii_uppercase).collect();
                names.windows(2).for_each(|hop| example.enter_link(hop[0], hop[1], flag));
            }
        }
        example
    }

    fn enter_csd(&mut self, name: char) {
        if self.csds.contains_key(&name) {
            return;
        }
        let external = matches!(name, 'X' | 'Y');
        let csd = self.scenario.csd(if external { EXTERNAL } else { IN_T2S });
        self.csds.insert(name, csd);
        if !external {
            let account = self.scenario.participant(csd);
            self.accounts.insert(account, format!("Part {name}"));
        }
        if matches!(name, 'I' | 'J') {
            self.enter_issuer(name);
        }
    }

    fn enter_issuer(&mut self, name: char) {
        let csd = self.csds[&name];
        let account = self.scenario.own_account(csd, ISSUANCE);
        self.accounts.insert(account, format!("Issuance {name}"));
        self.scenario.issuer(SECURITY, csd);
    }

    fn enter_link(&mut self, investor: char, technical: char, flag: u8) {
        let (csd, issuer) = (self.csds[&investor], self.csds[&technical]);
        self.scenario.link(SECURITY, csd, issuer, flag);
        self.hops.push((csd, issuer));
    }

    /// Names the accounts of pair rows, with numbers where two CSDs have several of them.
    fn name_accounts(&mut self) {
        let rows = self.rows();
        for row in &rows {
            let (investor, technical) = (self.name(row.investor), self.name(row.technical));
            let same = rows.iter().filter(|other| other.investor == row.investor && other.technical == row.technical);
            let firsts: BTreeSet<u16> = same.map(|other| other.investor_account).collect();
            let place = firsts.iter().position(|&first| first == row.investor_account).unwrap();
            let number = if firsts.len() > 1 { format!(" {}", place + 1) } else { String::new() };
            let kind = if row.technical_account == NO_ACCOUNT { "Inter CSD" } else { "Mirror" };
            self.accounts.insert(row.investor_account, format!("{kind}{number} {investor}-{technical}"));
            self.accounts.insert(row.technical_account, format!("Omnibus{number} {investor}"));
        }
    }

    fn rows(&self) -> Vec<Pair> {
        self.scenario.directory().pairs.entered().unwrap().to_vec()
    }

    /// Another participant of a CSD, under a name of its own.
    fn participant(&mut self, csd: char, name: char) {
        let account = self.scenario.account(self.csds[&csd], PARTICIPANT);
        self.accounts.insert(account, format!("Part {name}"));
    }

    fn account(&self, name: &str) -> u16 {
        self.accounts.iter().find(|(_, text)| *text == name).map(|(&number, _)| number).unwrap()
    }

    /// Enters rows for a participant along a path, over the accounts of this place of each two CSDs.
    fn climb(&mut self, participant: char, path: &str, duos: &[usize]) {
        let mut served = self.account(&format!("Part {participant}"));
        for (technical, &duo) in path.chars().zip(duos) {
            served = self.scenario.serve(served, self.csds[&technical], duo).unwrap_or(NO_ACCOUNT);
        }
        self.name_accounts();
    }

    /// The rows as document 000 lists them: the triplet, then the accounts.
    fn triplets(&self) -> Vec<String> {
        let line = |row: &Pair| {
            let account = |number| &self.accounts[&number];
            let (investor, technical) = (self.name(row.investor), self.name(row.technical));
            let [served, one, other] = [row.served, row.investor_account, row.technical_account].map(account);
            format!("{investor} {technical} {served}: {one}, {other}")
        };
        self.rows().iter().map(line).collect()
    }

    /// The steps from A to B, derived as a single call, or the refusal.
    fn steps(&self, from: char, to: char) -> Result<Vec<Step>, u8> {
        let [from, to] = [from, to].map(|name| self.account(&format!("Part {name}")));
        let (delivering, receiving) = halves(self.scenario.directory(), from, to, SECURITY, 100, 0);
        let mut steps = [Step::default(); 16];
        let halves = Halves::by_place(&delivering, &receiving);
        let derived = desk::derive(self.scenario.directory(), &mut steps, halves, DAY);
        let derived = derived.map(|length| &steps[..length]).map_err(|refusal| refusal.number());
        self.agrees_with_settlement(from, to, derived);
        self.agrees_with_stream(from, to, derived);
        derived.map(<[Step]>::to_vec)
    }

    /// Settling in every form books the steps that derive gives, and nothing else, over holdings of 100 everywhere.
    fn agrees_with_settlement(&self, from: u16, to: u16, derived: Result<&[Step], u8>) {
        let directory = self.scenario.directory();
        let (delivering, receiving) = halves(directory, from, to, SECURITY, 100, 0);
        let before = Store {
            directory: directory.clone(),
            positions: vec![Units(100); 4096],
            cash: vec![Cents(5); 256],
            steps: vec![Step::default(); 16],
        };
        let mut due = before.clone();
        for (place, step) in derived.unwrap_or_default().iter().enumerate() {
            due.steps[place] = *step;
            due.positions[usize::from(step.debit) * 16].0 -= 100;
            due.positions[usize::from(step.credit) * 16].0 += 100;
        }
        for form in FORMS {
            let mut store = before.clone();
            let answer = Model.call(&mut store, &Call::Command(form.settle(delivering, receiving, DAY)));
            assert_eq!(answer, derived.map_or_else(Answer::Refused, |steps| Answer::Booked(steps.len())), "{form:?}");
            assert!(store == due, "{form:?}");
        }
    }

    /// In every form a stream prints the chain, or the refusal.
    fn agrees_with_stream(&self, from: u16, to: u16, derived: Result<&[Step], u8>) {
        let (delivering, receiving) = halves(self.scenario.directory(), from, to, SECURITY, 100, 0);
        let due = match derived {
            Ok(steps) => {
                let line = |step: &Step| format!("- {} {} {}\n", step.csd, step.debit, step.credit);
                format!(" chain {}\n{}total", steps.len(), steps.iter().map(line).collect::<String>())
            }
            Err(number) => format!(" no {number}\ntotal"),
        };
        for form in FORMS {
            let mut bytes = self.scenario.bytes.clone();
            form.derive(delivering, receiving, DAY).write(&mut bytes);
            let text = String::from_utf8(checker::transcript(&bytes)).unwrap();
            assert!(text.contains(&due), "{form:?}: {text}");
        }
    }

    fn name(&self, csd: u8) -> char {
        self.csds.iter().find(|(_, &number)| number == csd).map(|(&name, _)| name).unwrap()
    }

    /// The CSDs of the chain from one to another.
    fn chain(&self, from: char, to: char) -> Result<String, u8> {
        let names: Vec<String> = self.steps(from, to)?.iter().map(|step| self.name(step.csd).to_string()).collect();
        Ok(names.join(" "))
    }

    /// The steps of the chain as lines.
    fn accounts(&self, from: char, to: char) -> Vec<String> {
        self.lines(&self.steps(from, to).unwrap())
    }

    /// A line for each step: CSD, account debited, account credited.
    fn lines(&self, steps: &[Step]) -> Vec<String> {
        let line = |step: &Step| {
            let account = |number| &self.accounts[&number];
            format!("{}: {} > {}", self.name(step.csd), account(step.debit), account(step.credit))
        };
        steps.iter().map(line).collect()
    }
}

/// The chain from A to B.
fn chain(links: &str) -> Result<String, u8> {
    Example::new(links).chain('A', 'B')
}

/// The steps from A to B, and that they mean so many generated instructions.
fn accounts(links: &str, instructions: usize) -> Vec<String> {
    let steps = Example::new(links).accounts('A', 'B');
    assert_eq!(2 * steps.len() - 2, instructions);
    steps
}

fn is(text: &str) -> Result<String, u8> {
    Ok(text.into())
}

mod chains_by_example {
    use super::*;

    #[test]
    fn one_csd_is_one_step() {
        let mut example = Example::new("A>I");
        example.participant('A', 'Z');
        assert_eq!(example.accounts('A', 'Z'), ["A: Part A > Part Z"]);
    }

    #[test]
    fn two_sides_of_two_to_one_issuer() {
        assert_eq!(chain("A>C>I, B>D>I"), is("A C I D B"));
        accounts("A>C>I, B>D>I", 8);
    }

    #[test]
    fn two_investors_of_one_issuer() {
        assert_eq!(chain("A>I, B>I"), is("A I B"));
    }

    #[test]
    fn the_receiving_csd_is_on_the_delivering_walk() {
        assert_eq!(chain("A>B>I"), is("A B"));
    }

    #[test]
    fn shared_before_an_external_end() {
        assert_eq!(chain("A>C, B>C, C>X"), is("A C B"));
    }

    #[test]
    fn two_issuers() {
        assert_eq!(chain("A>I, B>J"), is("A I J B"));
        accounts("A>I, B>J", 6);
    }

    #[test]
    fn two_issuers_with_an_alternative() {
        assert_eq!(chain("A>I, B>J, A~B"), is("A B"));
    }

    #[test]
    fn alternative_on_the_way_to_an_external_issuer() {
        assert_eq!(chain("A>C>X, B>D>X, C~B"), is("A C B"));
    }

    #[test]
    fn both_outside() {
        assert_eq!(chain("A>X, B>Y"), is("A B"));
    }

    #[test]
    fn inside_with_outside_is_refused() {
        assert_eq!(chain("A>I, B>X"), Err(16));
    }

    #[test]
    fn outside_with_inside_is_refused() {
        assert_eq!(chain("A>X, B>I"), Err(17));
    }

    #[test]
    fn an_alternative_is_not_taken_where_defaults_meet() {
        assert_eq!(chain("A>C>I, B>D>I, A~B"), is("A C I D B"));
    }

    #[test]
    fn an_unlinked_side_is_refused() {
        assert_eq!(chain("B>I"), Err(14));
    }
}

mod mistakes_to_expect {
    use super::*;

    #[test]
    fn the_chain_turns_at_the_shared_csd() {
        assert_eq!(chain("A>C>I, B>C"), is("A C B"));
    }

    #[test]
    fn alternatives_come_before_16_and_17() {
        assert_eq!(chain("A>I, B>X, B~A"), is("A B"));
        assert_eq!(chain("A>X, B>I, A~B"), is("A B"));
    }

    #[test]
    fn the_same_external_csd_is_not_shared() {
        assert_eq!(chain("A>X, B>X"), is("A B"));
    }

    #[test]
    fn provision_is_tested_on_the_omnibus_too() {
        let example = Example::new("A>C>I, B>D>I");
        let directory = example.scenario.directory();
        let [a, b] = ["Part A", "Part B"].map(|name| example.account(name));
        let (delivering, receiving) = halves(directory, a, b, SECURITY, 100, 0);
        let mut positions = vec![Units(100); 4096];
        positions[usize::from(example.account("Omnibus C")) * 16].0 = 99;
        let (before, mut steps) = (positions.clone(), [Step::default(); 16]);
        let halves = Halves::by_place(&delivering, &receiving);
        let answer = desk::settle(directory, &mut positions, &mut [Cents(0); 256], &mut steps, halves, DAY);
        assert_eq!(answer.map_err(|refusal| refusal.number()), Err(20));
        assert!(positions == before && steps == [Step::default(); 16]);
    }

    #[test]
    fn a_pair_that_is_missing_is_18() {
        let mut example = Example::new("A>I");
        let (csd, issuer) = (example.csds[&'B'], example.csds[&'I']);
        example.scenario.link(SECURITY, csd, issuer, DEFAULT);
        assert_eq!(example.chain('A', 'B'), Err(18));
    }
}

mod walks {
    use super::*;

    #[test]
    fn eight_to_an_issuer_are_fine_and_nine_too_long() {
        assert_eq!(chain("A>K>L>M>N>O>P>I, B>I"), is("A K L M N O P I B"));
        assert_eq!(chain("A>K>L>M>N>O>P>Q>I, B>I"), Err(15));
    }

    #[test]
    fn a_cycle_is_too_long() {
        assert_eq!(chain("A>C>A, B>I"), Err(15));
    }

    #[test]
    fn the_external_end_is_counted() {
        assert_eq!(chain("A>K>L>M>N>O>P>X, B>Y"), is("A K L M N O P B"));
        assert_eq!(chain("A>K>L>M>N>O>P>Q>X, B>Y"), Err(15));
    }

    #[test]
    fn an_eighth_csd_without_a_link_is_14() {
        assert_eq!(chain("A>K>L>M>N>O>P>Q, B>I"), Err(14));
    }

    #[test]
    fn sixteen_steps() {
        let chain = chain("A>C>D>E>F>G>H>I, B>K>L>M>N>O>P>J");
        assert_eq!(chain, is("A C D E F G H I J P O N M L K B"));
    }

    #[test]
    fn a_directed_walk_counts_its_target() {
        assert_eq!(chain("A>K>L>M>N>O>P>X, P~B, B>I"), is("A K L M N O P B"));
        assert_eq!(chain("A>K>L>M>N>O>P>Q>A, Q~B, B>I"), Err(15));
    }

    #[test]
    fn a_directed_walk_ends_at_an_external_csd() {
        assert_eq!(chain("A>X, X>B, B>I"), Err(17));
    }

    #[test]
    fn a_directed_walk_may_reach_by_defaults_alone() {
        assert_eq!(chain("A>B>C>B"), is("A B"));
    }

    #[test]
    fn the_delivering_side_is_tried_first_and_steps_run_from_it() {
        assert_eq!(chain("A>I, B>D>J, A~D, D~A"), is("A D B"));
        assert_eq!(
            Example::new("A>I, B>J, A~B, B~A").accounts('A', 'B'),
            ["A: Part A > Mirror A-B", "B: Omnibus A > Part B"]
        );
        assert_eq!(
            Example::new("A>I, B>J, B~A").accounts('A', 'B'),
            ["A: Part A > Omnibus B", "B: Mirror B-A > Part B"]
        );
    }

    #[test]
    fn walks_that_share_and_end_nowhere_are_not_joined() {
        assert_eq!(chain("A>C>D, B>C"), Err(14));
    }
}

mod document_000 {
    use super::*;

    #[test]
    fn example_122_default_links() {
        let expected = [
            "A: Part A > Mirror A-C",
            "C: Omnibus A > Mirror C-I",
            "I: Omnibus C > Omnibus D",
            "D: Mirror D-I > Omnibus B",
            "B: Mirror B-D > Part B",
        ];
        assert_eq!(accounts("A>C>I, B>D>I", 8), expected);
    }

    #[test]
    fn example_122_alternative_link_in_presence_of_an_external_csd() {
        let expected = ["A: Part A > Mirror A-C", "C: Omnibus A > Mirror C-B", "B: Omnibus C > Part B"];
        assert_eq!(accounts("A>C>X, B>D>X, C~B", 4), expected);
    }

    #[test]
    fn example_122_alternative_link_in_case_of_double_issuance() {
        let expected = ["A: Part A > Omnibus D", "D: Mirror D-A > Omnibus B", "B: Mirror B-D > Part B"];
        assert_eq!(accounts("A>C>I, B>D>J, D~A", 4), expected);
    }

    /// The full set that the two diagrams of example 123 show is the set of example 122.
    #[test]
    fn example_123_full_sets() {
        assert_eq!(chain("A>C>I, B>D>I"), is("A C I D B"));
        assert_eq!(chain("A>C>X, B>D>X, C~B"), is("A C B"));
    }

    #[test]
    fn example_124_two_investors_one_issuer() {
        let expected = ["A: Part A > Mirror A-I", "I: Omnibus A > Omnibus B", "B: Mirror B-I > Part B"];
        assert_eq!(accounts("A>I, B>I", 4), expected);
    }

    #[test]
    fn example_125_two_issuers_by_default_links() {
        let expected = [
            "A: Part A > Mirror A-I",
            "I: Omnibus A > Issuance I",
            "J: Issuance J > Omnibus B",
            "B: Mirror B-J > Part B",
        ];
        assert_eq!(accounts("A>I, B>J", 6), expected);
    }

    #[test]
    fn example_125_two_issuers_by_an_alternative_link() {
        assert_eq!(accounts("A>I, B>J, A~B", 2), ["A: Part A > Mirror A-B", "B: Omnibus A > Part B"]);
    }

    #[test]
    fn example_126_common_technical_issuer() {
        let expected = ["A: Part A > Mirror A-C", "C: Omnibus A > Omnibus B", "B: Mirror B-C > Part B"];
        assert_eq!(accounts("A>C, B>C, C>I", 4), expected);
    }

    /// Where C uses two omnibus accounts with I, document 000 goes on to I; document 01 turns at the shared CSD.
    #[test]
    fn example_126_two_omnibus_accounts() {
        let mut example = Example::without_rows("A>C, B>C, C>I");
        example.climb('A', "CI", &[0, 0]);
        example.climb('B', "CI", &[0, 1]);
        let triplets = [
            "A C Part A: Mirror A-C, Omnibus A",
            "C I Omnibus A: Mirror 1 C-I, Omnibus 1 C",
            "B C Part B: Mirror B-C, Omnibus B",
            "C I Omnibus B: Mirror 2 C-I, Omnibus 2 C",
        ];
        assert_eq!(example.triplets(), triplets);
        let expected = ["A: Part A > Mirror A-C", "C: Omnibus A > Omnibus B", "B: Mirror B-C > Part B"];
        assert_eq!(example.accounts('A', 'B'), expected);
    }

    /// Where document 000 has a default omnibus account for all others, each account has its row.
    #[test]
    fn example_24_several_omnibus_accounts() {
        let mut example = Example::without_rows("E>I");
        for (name, duo) in [('F', 1), ('G', 1)] {
            example.participant('E', name);
            example.climb('E', "I", &[0]);
            example.climb(name, "I", &[duo]);
        }
        let triplets = [
            "E I Part E: Mirror 1 E-I, Omnibus 1 E",
            "E I Part F: Mirror 2 E-I, Omnibus 2 E",
            "E I Part G: Mirror 2 E-I, Omnibus 2 E",
        ];
        assert_eq!(example.triplets(), triplets);
        assert_eq!(example.accounts('E', 'I'), ["E: Part E > Mirror 1 E-I", "I: Omnibus 1 E > Part I"]);
        assert_eq!(example.accounts('I', 'F'), ["I: Part I > Omnibus 2 E", "E: Mirror 2 E-I > Part F"]);
        assert_eq!(example.accounts('G', 'I'), ["E: Part G > Mirror 2 E-I", "I: Omnibus 2 E > Part I"]);
        assert_eq!(example.accounts('E', 'F'), ["E: Part E > Part F"]);
    }

    /// The triplets that "accounts identification" looks up for example 122, recursively from each participant.
    #[test]
    fn accounts_identification() {
        let mut example = Example::without_rows("A>C>I, B>D>I");
        example.climb('A', "CI", &[0, 0]);
        example.climb('B', "DI", &[0, 0]);
        let triplets = [
            "A C Part A: Mirror A-C, Omnibus A",
            "C I Omnibus A: Mirror C-I, Omnibus C",
            "B D Part B: Mirror B-D, Omnibus B",
            "D I Omnibus B: Mirror D-I, Omnibus D",
        ];
        assert_eq!(example.triplets(), triplets);
        let expected = [
            "A: Part A > Mirror A-C",
            "C: Omnibus A > Mirror C-I",
            "I: Omnibus C > Omnibus D",
            "D: Mirror D-I > Omnibus B",
            "B: Mirror B-D > Part B",
        ];
        assert_eq!(example.accounts('A', 'B'), expected);
        // Neither C nor D has a row for a participant of its own.
        for (from, to) in [('C', 'B'), ('A', 'D'), ('C', 'I')] {
            assert_eq!(example.chain(from, to), Err(18));
        }
    }

    #[test]
    fn example_130_alternative_link() {
        assert_eq!(accounts("A>X, B>X, A~B", 2), ["A: Part A > Mirror A-B", "B: Omnibus A > Part B"]);
    }

    #[test]
    fn example_130_default_links() {
        assert_eq!(accounts("A>X, B>X", 2), ["A: Part A > Inter CSD A-X", "B: Inter CSD B-X > Part B"]);
    }
}

mod documents_001_and_003 {
    use super::*;

    #[test]
    fn cr_0846_mixed_ends() {
        assert_eq!(Example::new("A>I, B>X").chain('A', 'B'), Err(16));
        assert_eq!(Example::new("A>I, B>X").chain('B', 'A'), Err(17));
    }

    #[test]
    fn cr_0797_example_38_alternative_to_the_counterpart() {
        assert_eq!(Example::new("A>C>I, B>J, C~J").chain('A', 'J'), is("A C J"));
        assert_eq!(Example::new("A>C>I, B>J, C~J").chain('A', 'B'), is("A C I J B"));
    }
}

/// Document 02, ask 6: "Taking a delivery back".
mod taking_back {
    use super::*;
    use checker::command::Command;
    use checker::proved::Proved;

    /// The chain of a pair, that of the opposite one or its refusal, and the positions that are then others than before.
    type Both = (Vec<String>, Result<Vec<String>, u8>, Vec<String>);

    impl Example {
        /// Brings 100 in on the first participant of a path, and settles it from each to the next.
        fn hold(&mut self, path: &str) {
            let path: Vec<u16> = path.chars().map(|name| self.account(&format!("Part {name}"))).collect();
            assert!(self.scenario.bring_in(path[0], SECURITY, 100).is_ok());
            for hop in path.windows(2) {
                assert!(self.scenario.settle(hop[0], hop[1], SECURITY, 100, 0).is_ok());
            }
        }

        /// Settles 20 and then the opposite pair, in every form and with an amount or without, by the model and by the
        /// proved library.
        fn take_back(&mut self, from: char, to: char) -> Both {
            let [from, to] = [from, to].map(|name| self.account(&format!("Part {name}")));
            for account in [from, to] {
                assert!(self.scenario.pay_in(account, 7).is_ok());
            }
            let mut all = Vec::new();
            for (form, amount) in FORMS.into_iter().flat_map(|form| [0, 7].map(|amount| (form, amount))) {
                let (one, other) = halves(self.scenario.directory(), from, to, SECURITY, 20, amount);
                let pairs = [form.settle(one, other, DAY), form.settle(other, one, DAY)];
                all.push(self.settle_both(&mut Model, pairs));
                all.push(self.settle_both(&mut Proved::default(), pairs));
            }
            assert!(all.iter().all(|both| *both == all[0]));
            all.swap_remove(0)
        }

        /// The same over the store that all calls so far have made out of the empty one.
        fn settle_both(&self, subject: &mut impl Implementation, [pair, opposite]: [Command; 2]) -> Both {
            let before = Store {
                directory: self.scenario.directory().clone(),
                positions: self.scenario.session.positions().to_vec(),
                cash: self.scenario.session.cash().to_vec(),
                steps: vec![Step::default(); 16],
            };
            let mut left = before.clone();
            let Answer::Booked(length) = subject.call(&mut left, &Call::Command(pair)) else { panic!("{pair:?}") };
            let there = self.lines(&left.steps[..length]);
            let mut after = left.clone();
            match subject.call(&mut after, &Call::Command(opposite)) {
                Answer::Booked(length) => {
                    assert!(after.directory == before.directory && after.cash == before.cash);
                    (there, Ok(self.lines(&after.steps[..length])), self.changes(&before, &after))
                }
                Answer::Refused(number) => {
                    assert!(after == left);
                    (there, Err(number), self.changes(&before, &after))
                }
                answer => panic!("{answer:?} to {opposite:?}"),
            }
        }

        /// The positions in which two stores differ.
        fn changes(&self, before: &Store, after: &Store) -> Vec<String> {
            let accounts = self.scenario.directory().accounts.entered().unwrap();
            let line = |(number, row): (usize, &Account)| {
                let [before, after] = [before, after].map(|store| store.positions[number * SECURITIES].0);
                let name = || format!("{}: {}", self.name(row.csd), self.accounts[&(number as u16)]);
                (before != after).then(|| format!("{}, {before} > {after}", name()))
            };
            let mut lines: Vec<String> = accounts.iter().enumerate().filter_map(line).collect();
            lines.sort();
            lines
        }
    }

    fn holding(links: &str, path: &str) -> Example {
        let mut example = Example::new(links);
        example.hold(path);
        example
    }

    /// The pair goes there, the opposite one back by the same chain, and all is as it was.
    fn is_restored(mut example: Example, [from, to]: [char; 2], there: &[&str], back: &[&str]) {
        let (first, second, changes) = example.take_back(from, to);
        assert_eq!(first, there);
        assert_eq!(second.unwrap(), back);
        assert!(changes.is_empty(), "{changes:?}");
    }

    #[test]
    fn a_chain_of_one_step() {
        let mut example = holding("A>X", "A");
        example.participant('A', 'Z');
        is_restored(example, ['A', 'Z'], &["A: Part A > Part Z"], &["A: Part Z > Part A"]);
    }

    #[test]
    fn default_walks_that_meet() {
        let there = [
            "A: Part A > Mirror A-C",
            "C: Omnibus A > Mirror C-I",
            "I: Omnibus C > Omnibus D",
            "D: Mirror D-I > Omnibus B",
            "B: Mirror B-D > Part B",
        ];
        let back = [
            "B: Part B > Mirror B-D",
            "D: Omnibus B > Mirror D-I",
            "I: Omnibus D > Omnibus C",
            "C: Mirror C-I > Omnibus A",
            "A: Mirror A-C > Part A",
        ];
        is_restored(holding("A>C>I, B>D>I", "IA"), ['A', 'B'], &there, &back);
    }

    #[test]
    fn two_issuers() {
        let there = [
            "A: Part A > Mirror A-I",
            "I: Omnibus A > Issuance I",
            "J: Issuance J > Omnibus B",
            "B: Mirror B-J > Part B",
        ];
        let back = [
            "B: Part B > Mirror B-J",
            "J: Omnibus B > Issuance J",
            "I: Issuance I > Omnibus A",
            "A: Mirror A-I > Part A",
        ];
        is_restored(holding("A>I, B>J", "IA"), ['A', 'B'], &there, &back);
    }

    #[test]
    fn two_external_ends() {
        let there = ["A: Part A > Inter CSD A-X", "B: Inter CSD B-Y > Part B"];
        let back = ["B: Part B > Inter CSD B-Y", "A: Inter CSD A-X > Part A"];
        is_restored(holding("A>X, B>Y", "A"), ['A', 'B'], &there, &back);
    }

    #[test]
    fn just_one_directed_walk_reaches() {
        let links = "A>C>X, B>D>X, C~B";
        let from_a = ["A: Part A > Mirror A-C", "C: Omnibus A > Mirror C-B", "B: Omnibus C > Part B"];
        let from_b = ["B: Part B > Omnibus C", "C: Mirror C-B > Omnibus A", "A: Mirror A-C > Part A"];
        is_restored(holding(links, "DBA"), ['A', 'B'], &from_a, &from_b);
        is_restored(holding(links, "DB"), ['B', 'A'], &from_b, &from_a);
    }

    /// A holds with B by default, and got what it holds on day 1. On day 0 B does not issue, so that default walks end
    /// without a link.
    fn held_since_day_1() -> Example {
        let mut example = Example::without_rows("A>B");
        example.scenario.days = Period::new(1, Day::MAX);
        example.enter_issuer('B');
        example.enter_rows();
        example.scenario.day = 1;
        example.hold("BA");
        example
    }

    #[test]
    fn just_one_directed_walk_reaches_by_default_links_alone() {
        let there = ["A: Part A > Mirror A-B", "B: Omnibus A > Part B"];
        let back = ["B: Part B > Omnibus A", "A: Mirror A-B > Part A"];
        is_restored(held_since_day_1(), ['A', 'B'], &there, &back);
    }

    #[test]
    fn both_directed_walks_reach_by_default_links_alone() {
        let mut example = held_since_day_1();
        example.scenario.days = Period::new(DAY, DAY);
        example.enter_link('B', 'A', DEFAULT);
        example.enter_rows();
        let (there, back, _) = example.take_back('A', 'B');
        assert_eq!(there, ["A: Part A > Mirror A-B", "B: Omnibus A > Part B"]);
        assert_eq!(example.accounts('B', 'A'), ["B: Part B > Mirror B-A", "A: Omnibus B > Part A"]);
        assert_eq!(back, Err(20));
    }

    /// The chains of a pair and of the opposite one where both reach.
    const FROM_A: [&str; 3] = ["A: Part A > Mirror A-C", "C: Omnibus A > Mirror C-B", "B: Omnibus C > Part B"];
    const FROM_B: [&str; 2] = ["B: Part B > Mirror B-A", "A: Omnibus B > Part A"];

    #[test]
    fn both_directed_walks_reach_and_the_way_back_is_refused() {
        let mut example = holding("A>C>I, B>J, C~B, B~A", "IA");
        example.hold("JBC");
        let (there, back, changes) = example.take_back('A', 'B');
        assert_eq!(there, FROM_A);
        assert_eq!(example.accounts('B', 'A'), FROM_B);
        assert_eq!(back, Err(20));
        let moved = [
            "A: Mirror A-C, -100 > -80",
            "A: Part A, 100 > 80",
            "B: Omnibus C, 100 > 80",
            "B: Part B, 0 > 20",
            "C: Mirror C-B, -100 > -80",
            "C: Omnibus A, 100 > 80",
        ];
        assert_eq!(changes, moved);
    }

    #[test]
    fn both_directed_walks_reach_and_the_way_back_is_another_chain() {
        let mut example = holding("A>C>I, B>J, B~A", "IAB");
        example.enter_link('C', 'B', ALTERNATIVE);
        example.enter_rows();
        example.hold("IA");
        example.hold("JBC");
        let (there, back, changes) = example.take_back('A', 'B');
        assert_eq!(there, FROM_A);
        assert_eq!(back.unwrap(), FROM_B);
        let moved = [
            "A: Mirror A-C, -200 > -180",
            "A: Omnibus B, 100 > 80",
            "B: Mirror B-A, -100 > -80",
            "B: Omnibus C, 100 > 80",
            "C: Mirror C-B, -100 > -80",
            "C: Omnibus A, 200 > 180",
        ];
        assert_eq!(changes, moved);
    }
}
