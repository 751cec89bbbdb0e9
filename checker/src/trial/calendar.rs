//! The days of a random stream: periods that follow one another without a gap, and the day on which it mostly trades.

use super::random::Random;
use crate::directory::{Day, Period};

pub struct Calendar {
    spans: Vec<Period>,
    /// The place of the span that today is in.
    current: usize,
    pub today: Day,
}

impl Calendar {
    /// All days in one, or two to four spans of a few days or many, often at the ends of all days.
    pub fn any(random: &mut Random) -> Calendar {
        let spans = if random.percent(35) { vec![Period::ALWAYS] } else { successive_spans(random) };
        let current = random.below(spans.len());
        let Period { first, last } = spans[current];
        let within = first + random.below(usize::from(last - first) + 1) as Day;
        let today = random.pick(&[first, last, within]);
        Calendar { spans, current, today }
    }

    /// The span of today, sometimes with others that follow or come before, and each span that is left.
    pub fn around_today(&self, random: &mut Random) -> (Period, Vec<Period>) {
        let reach = random.pick(&[0, 0, 0, 1, 3]);
        let from = self.current - random.below(reach + 1).min(self.current);
        let to = (self.current + random.below(reach + 1)).min(self.spans.len() - 1);
        let beside = [&self.spans[..from], &self.spans[to + 1..]].concat();
        (Period::new(self.spans[from].first, self.spans[to].last), beside)
    }

    /// Days of the span of today, today included.
    pub fn few_days(&self, random: &mut Random) -> Period {
        let (Period { first, last }, today) = (self.spans[self.current], self.today);
        Period::new(random.pick(&[first, first, today]), random.pick(&[last, last, today]))
    }

    /// Days of other spans too.
    pub fn many_days(&self, random: &mut Random) -> Period {
        let first = random.pick(&[self.spans[0].first, self.spans[self.current].first]);
        let last = random.pick(&[self.last().last, self.spans[self.current].last]);
        random.pick(&[Period::new(first, last), Period::new(first, last), Period::ALWAYS])
    }

    /// A day at which a span begins or ends, the one before or after, or an end of all days.
    pub fn edge(&self, random: &mut Random) -> Day {
        let Period { first, last } = random.pick(&self.spans);
        random.pick(&[first, last, first.saturating_sub(1), last.saturating_add(1), first, last, 0, Day::MAX])
    }

    fn last(&self) -> Period {
        self.spans[self.spans.len() - 1]
    }
}

fn successive_spans(random: &mut Random) -> Vec<Period> {
    let anywhere = random.below(60_000) as Day;
    let mut first = random.pick(&[0, 0, 1, 50, anywhere, Day::MAX - 3, Day::MAX - 12]);
    let mut spans = Vec::new();
    for left in (0..random.between(2, 4)).rev() {
        let length = random.pick(&[1, 1, 2, 3, 10, 500]);
        let to_the_end = left == 0 && random.percent(40);
        let last = if to_the_end { Day::MAX } else { first.saturating_add(length - 1) };
        spans.push(Period::new(first, last));
        match last.checked_add(1) {
            Some(next) => first = next,
            None => break,
        }
    }
    spans
}
