//! Cards and legs from a small seeded generator.

#[derive(Clone, Copy, PartialEq)]
pub enum Kind {
    Delay,
    Depth,
}

#[repr(C)]
#[derive(Clone, Copy, Debug, PartialEq)]
pub struct Leg {
    pub from: usize,
    pub to: usize,
}

#[derive(Clone, Copy)]
pub struct Card {
    pub from: usize,
    pub to: usize,
    /// half lines, or bits
    pub cost: i32,
}

pub struct Case {
    pub kind: Kind,
    pub n: usize,
    pub cards: Vec<Card>,
    pub legs: Vec<Leg>,
}

// xorshift64*
struct Random(u64);

impl Random {
    // A number below the limit.
    fn below(&mut self, limit: usize) -> usize {
        self.0 ^= self.0 >> 12;
        self.0 ^= self.0 << 25;
        self.0 ^= self.0 >> 27;
        ((self.0.wrapping_mul(0x2545_F491_4F6C_DD1D) >> 32) as usize * limit) >> 32
    }

    // So many different ordered pairs of formats.
    fn pairs(&mut self, n: usize, count: usize) -> Vec<(usize, usize)> {
        let all = (0..n).flat_map(|s| (0..n).map(move |t| (s, t)));
        let mut pairs: Vec<_> = all.filter(|(s, t)| s != t).collect();
        for k in 0..count {
            let other = k + self.below(pairs.len() - k);
            pairs.swap(k, other);
        }
        pairs.truncate(count);
        pairs
    }
}

impl Case {
    /// The same numbers give the same case. Delays are in half lines, a number of 0 or more and a difference of potentials, so
    /// that some are below 0 and no closed walk is. The first leg has a chain.
    pub fn new(kind: Kind, n: usize, cards: usize, legs: usize) -> Case {
        let mut random = Random(0x9E37_79B9_7F4A_7C15 ^ (n * 10_000 + cards) as u64);
        let potentials: Vec<i32> = (0..n).map(|_| random.below(600_000) as i32).collect();
        let card = |random: &mut Random, from: usize, to: usize| Card {
            from,
            to,
            cost: match kind {
                Kind::Delay => random.below(1_200_000) as i32 + potentials[to] - potentials[from],
                Kind::Depth => 1 + random.below(16) as i32,
            },
        };
        let pairs = random.pairs(n, cards);
        let cards = pairs.iter().map(|&(s, t)| card(&mut random, s, t)).collect();
        let mut legs: Vec<Leg> = random.pairs(n, legs).iter().map(|&(from, to)| Leg { from, to }).collect();
        (legs[0].from, legs[0].to) = pairs[0];
        Case { kind, n, cards, legs }
    }

    /// How many rows the first stage goes through: the pairs of a format and a higher one from which cards by way of lower
    /// formats lead to it, found by a search backwards from each.
    pub fn rows(&self) -> usize {
        (0..self.n).map(|h| self.rows_at(h)).sum()
    }

    fn rows_at(&self, h: usize) -> usize {
        let mut seen = vec![false; self.n];
        let mut todo = vec![h];
        while let Some(here) = todo.pop() {
            for card in self.cards.iter().filter(|card| card.to == here) {
                if !seen[card.from] {
                    seen[card.from] = true;
                    if card.from < h {
                        todo.push(card.from);
                    }
                }
            }
        }
        (h + 1..self.n).filter(|&s| seen[s]).count()
    }

    /// n * n numbers, row by row, with this one where there is no card.
    pub fn matrix(&self, none: i32) -> Vec<i32> {
        let mut matrix = vec![none; self.n * self.n];
        for card in &self.cards {
            matrix[card.from * self.n + card.to] = card.cost;
        }
        matrix
    }

    /// A cost as tickets and answers have it: delays in lines, with .5 for half a line.
    pub fn text_of(&self, cost: i32) -> String {
        match self.kind {
            Kind::Delay => {
                let sign = if cost < 0 { "-" } else { "" };
                let half = if cost % 2 == 0 { "" } else { ".5" };
                format!("{sign}{}{half}", cost.unsigned_abs() / 2)
            }
            Kind::Depth => cost.to_string(),
        }
    }

    /// The case as the text of a ticket.
    pub fn ticket(&self) -> String {
        let kind = if self.kind == Kind::Delay { "delay" } else { "depth" };
        let mut text = format!("(bay {kind} {})\n", self.n);
        for k in 0..self.n {
            text += &format!("(format {k} F{k:03})\n");
        }
        for &Card { from, to, cost } in &self.cards {
            text += &format!("(card ({from} {to}) {})\n", self.text_of(cost));
        }
        for Leg { from, to } in &self.legs {
            text += &format!("(leg ({from} {to}))\n");
        }
        text + "(end)\n"
    }
}
