//! Batches, entries, the two rules and the clerk.

pub const MAX_CARRY: u32 = 99_999_999;
const DEAR_UP_TO: u32 = 200_000;

#[derive(Clone, Copy, Debug, Default, PartialEq, Eq)]
pub struct Batch {
    pub grower: u32,
    pub fruit: u32,
    pub oil: u32,
}

impl Batch {
    pub fn is_lawful(&self) -> bool {
        (1..=9_999_999).contains(&self.grower) && (1..=30_000).contains(&self.fruit) && self.oil <= 9_000_000
    }
}

#[derive(Clone, Copy, Debug, Default, PartialEq, Eq)]
pub struct Entry {
    pub grower: u32,
    pub amount: u32,
    pub carry: u32,
    pub figure: u32,
}

#[derive(Clone, Copy, Debug, PartialEq, Eq)]
pub enum Rule {
    Oil,
    Levy,
}

impl Rule {
    /// The entry of a lawful batch.
    pub fn entry(self, carry: u32, batch: &Batch) -> Entry {
        let carry = carry.min(MAX_CARRY);
        match self {
            Rule::Oil => oil(carry, batch),
            Rule::Levy => levy(carry, batch),
        }
    }
}

fn oil(carry: u32, batch: &Batch) -> Entry {
    let grams = carry + batch.oil;
    let amount = grams / 1000;
    // 108,999 kilograms times 10,000 need more than 32 bits
    let figure = u64::from(amount) * 10_000 / u64::from(batch.fruit);
    Entry { grower: batch.grower, amount, carry: grams % 1000, figure: figure as u32 }
}

fn levy(carry: u32, batch: &Batch) -> Entry {
    let total = carry + batch.fruit;
    let cheap = batch.fruit.min(total.saturating_sub(DEAR_UP_TO));
    let amount = 12 * (batch.fruit - cheap) + 9 * cheap;
    Entry { grower: batch.grower, amount, carry: total.min(MAX_CARRY), figure: cheap }
}

/// The book of one who books the intake alone, up to the first unlawful batch.
pub fn clerk(rule: Rule, intake: &[Batch]) -> Vec<Entry> {
    let mut carry = 0;
    let mut book = Vec::new();
    for batch in intake.iter().take_while(|b| b.is_lawful()) {
        let entry = rule.entry(carry, batch);
        carry = entry.carry;
        book.push(entry);
    }
    book
}
