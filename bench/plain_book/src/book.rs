//! Pool, ranks, incumbent, orders: what a coordinator holds, and its calls.

use std::collections::VecDeque;

#[derive(Clone, Copy, PartialEq, Eq, PartialOrd, Ord)]
pub struct Ticket {
    pub run: u64,
    pub number: u64,
}

#[derive(Clone, Copy, PartialEq, Eq, PartialOrd, Ord)]
pub struct Name {
    pub ticket: Ticket,
    pub hand: u64,
}

#[derive(Clone, Copy)]
pub struct Change {
    pub column: u32,
    pub low: i32,
    pub high: i32,
}

pub struct Node {
    pub line: Vec<Name>,
    pub changes: Vec<Change>,
}

impl Node {
    fn name(&self) -> Name {
        self.line[self.line.len() - 1]
    }
}

struct Entry {
    floor: i128,
    node: Node,
}

pub struct Work {
    ticket: Ticket,
    node: Node,
    floor: i128,
    taken: Vec<Vec<(i32, i32)>>,
    open: u64,
    reported: i128,
    asked: u32,
}

pub enum State {
    Absent,
    Idle,
    Active(Work),
    Dead,
}

pub enum Report {
    Solution { ticket: Ticket, point: Vec<i32> },
    Hand { ticket: Ticket, number: u64, changes: Vec<Change> },
    State { ticket: Ticket, open: u64, floor: i128 },
    Done { ticket: Ticket, cutoff: Option<i128>, count: u64 },
}

#[derive(Clone, Copy, PartialEq, Eq)]
pub enum Heard {
    Kept,
    Stale,
    Broken,
    NotBetter,
    Again,
    Gap,
    Outside,
    Unbacked,
    Short,
}

pub enum Order {
    Work { ticket: Ticket, changes: Vec<Change> },
    Incumbent,
    CollectIn { count: u32 },
    CollectOut,
    Stop,
}

pub struct Told {
    pub rank: u32,
    pub order: Order,
}

/// A problem without rows: bounds and factors.
pub struct Problem {
    pub sides: Vec<(i32, i32)>,
    pub factors: Vec<i128>,
}

impl Problem {
    fn value(&self, point: &[i32]) -> i128 {
        self.factors.iter().zip(point).map(|(f, v)| f * i128::from(*v)).sum()
    }

    fn least(factor: i128, side: (i32, i32)) -> i128 {
        factor * i128::from(if factor < 0 { side.1 } else { side.0 })
    }

    pub fn floor(&self) -> i128 {
        self.factors.iter().zip(&self.sides).map(|(f, s)| Self::least(*f, *s)).sum()
    }

    fn floor_of(&self, floor: i128, changes: &[Change]) -> i128 {
        let mut total = floor;
        for change in changes {
            let column = change.column as usize;
            let factor = self.factors[column];
            total += Self::least(factor, (change.low, change.high))
                - Self::least(factor, self.sides[column]);
        }
        total
    }

    fn is_feasible(&self, point: &[i32]) -> bool {
        point.len() == self.sides.len()
            && point.iter().zip(&self.sides).all(|(v, s)| s.0 <= *v && *v <= s.1)
    }
}

pub struct Settings {
    pub solvers: u32,
    pub low: u64,
    pub high: u64,
}

pub struct Book<'a> {
    problem: &'a Problem,
    floor: i128,
    settings: Settings,
    best: Option<Vec<i32>>,
    pool: VecDeque<Entry>,
    ranks: Vec<State>,
    last: u64,
    orders: VecDeque<Told>,
    heard: u64,
    announced: Option<i128>,
}

fn is_before(a: &Entry, b: &Entry) -> bool {
    a.floor < b.floor || (a.floor == b.floor && a.node.name() < b.node.name())
}

fn is_ancestor(front: &[Name], line: &[Name]) -> bool {
    front.len() < line.len() && line.starts_with(front)
}

impl<'a> Book<'a> {
    pub fn new(problem: &'a Problem, settings: Settings) -> Book<'a> {
        let floor = problem.floor();
        let name = Name { ticket: Ticket { run: 1, number: 0 }, hand: 0 };
        let node = Node { line: vec![name], changes: Vec::new() };
        let mut ranks = Vec::new();
        ranks.resize_with(settings.solvers as usize, || State::Absent);
        Book {
            problem,
            floor,
            settings,
            best: None,
            pool: VecDeque::from([Entry { floor, node }]),
            ranks,
            last: 0,
            orders: VecDeque::new(),
            heard: 0,
            announced: None,
        }
    }


    pub fn join(&mut self, rank: u32) {
        let state = &mut self.ranks[rank as usize];
        if matches!(state, State::Absent | State::Dead) {
            *state = State::Idle;
        }
    }

    fn put(&mut self, entry: Entry) {
        let at = self.pool.partition_point(|other| !is_before(&entry, other));
        self.pool.insert(at, entry);
    }

    pub fn gone(&mut self, rank: u32) {
        let state = std::mem::replace(&mut self.ranks[rank as usize], State::Dead);
        let State::Active(work) = state else {
            return;
        };
        let line = work.node.line.as_slice();
        self.pool.retain(|entry| !is_ancestor(line, &entry.node.line));
        for (other, state) in self.ranks.iter_mut().enumerate() {
            if matches!(state, State::Active(other) if is_ancestor(line, &other.node.line)) {
                *state = State::Idle;
                self.orders.push_back(Told { rank: other as u32, order: Order::Stop });
            }
        }
        self.put(Entry { floor: work.floor, node: work.node });
    }

    pub fn hear(&mut self, rank: u32, report: Report) -> Heard {
        let answer = self.answer_to(rank, report);
        if !matches!(answer, Heard::Kept | Heard::Stale | Heard::NotBetter | Heard::Again) {
            self.gone(rank);
        }
        self.heard += 1;
        answer
    }

    fn cutoff(&self) -> Option<i128> {
        self.best.as_ref().map(|point| self.problem.value(point).max(self.floor))
    }

    fn answer_to(&mut self, rank: u32, report: Report) -> Heard {
        let cutoff = self.cutoff();
        let State::Active(work) = &mut self.ranks[rank as usize] else {
            return Heard::Stale;
        };
        let ticket = match &report {
            Report::Solution { ticket, .. }
            | Report::Hand { ticket, .. }
            | Report::State { ticket, .. }
            | Report::Done { ticket, .. } => *ticket,
        };
        if ticket != work.ticket {
            return Heard::Stale;
        }
        match report {
            Report::Solution { point, .. } => {
                if !self.problem.is_feasible(&point) {
                    return Heard::Broken;
                }
                let value = self.problem.value(&point);
                if self.best.as_ref().is_some_and(|best| self.problem.value(best) <= value) {
                    return Heard::NotBetter;
                }
                self.best = Some(point);
                Heard::Kept
            }
            Report::Hand { number, changes, .. } => {
                let want = work.taken.len() as u64;
                if number != want {
                    return if number < want { Heard::Again } else { Heard::Gap };
                }
                if is_outside(&self.problem.sides, &work.node.changes, &changes) {
                    return Heard::Outside;
                }
                let mut line = Vec::with_capacity(work.node.line.len() + 1);
                line.extend_from_slice(&work.node.line);
                line.push(Name { ticket, hand: number });
                let mut area = self.problem.sides.clone();
                for change in &changes {
                    area[change.column as usize] = (change.low, change.high);
                }
                work.taken.push(area);
                work.asked = work.asked.saturating_sub(1);
                let floor = self.problem.floor_of(self.floor, &changes);
                self.put(Entry { floor, node: Node { line, changes } });
                Heard::Kept
            }
            Report::State { open, floor, .. } => {
                work.open = open;
                work.reported = floor;
                Heard::Kept
            }
            Report::Done { cutoff: told, count, .. } => {
                if told.is_some_and(|told| cutoff.is_none_or(|least| told < least)) {
                    return Heard::Unbacked;
                }
                if count != work.taken.len() as u64 {
                    return Heard::Short;
                }
                self.ranks[rank as usize] = State::Idle;
                Heard::Kept
            }
        }
    }

    pub fn decide(&mut self) {
        if let Some(cutoff) = self.cutoff() {
            let kept = self.pool.partition_point(|entry| entry.floor < cutoff);
            self.pool.truncate(kept);
            if self.announced != Some(cutoff) {
                for (rank, state) in self.ranks.iter().enumerate() {
                    if matches!(state, State::Idle | State::Active(_)) {
                        self.orders.push_back(Told { rank: rank as u32, order: Order::Incumbent });
                    }
                }
                self.announced = Some(cutoff);
            }
        }
        for rank in 0..self.ranks.len() {
            if !matches!(self.ranks[rank], State::Idle) {
                continue;
            }
            let Some(entry) = self.pool.pop_front() else {
                break;
            };
            self.last += 1;
            let ticket = Ticket { run: 1, number: self.last };
            let changes = entry.node.changes.clone();
            self.orders.push_back(Told { rank: rank as u32, order: Order::Work { ticket, changes } });
            self.ranks[rank] = State::Active(Work {
                ticket,
                node: entry.node,
                floor: entry.floor,
                taken: Vec::new(),
                open: 0,
                reported: 0,
                asked: 0,
            });
        }
        self.collect();
    }

    fn collect(&mut self) {
        let len = self.pool.len() as u64;
        if len < self.settings.low {
            let mut first: Option<(i128, usize)> = None;
            for (rank, state) in self.ranks.iter().enumerate() {
                if let State::Active(work) = state {
                    if work.asked == 0
                        && work.open >= 2
                        && first.is_none_or(|(floor, _)| work.reported < floor)
                    {
                        first = Some((work.reported, rank));
                    }
                }
            }
            if let Some((_, rank)) = first {
                let count = (self.settings.high - len) as u32;
                if let State::Active(work) = &mut self.ranks[rank] {
                    work.asked = count;
                    self.orders.push_back(Told { rank: rank as u32, order: Order::CollectIn { count } });
                }
            }
        } else if len >= self.settings.high {
            for (rank, state) in self.ranks.iter_mut().enumerate() {
                if let State::Active(work) = state {
                    if work.asked > 0 {
                        work.asked = 0;
                        self.orders.push_back(Told { rank: rank as u32, order: Order::CollectOut });
                    }
                }
            }
        }
    }

    pub fn next_order(&mut self) -> Option<Told> {
        self.orders.pop_front()
    }

    pub fn is_over(&self) -> bool {
        self.pool.is_empty() && !self.ranks.iter().any(|state| matches!(state, State::Active(_)))
    }
}

/// Whether the changes spell no box below the one that the ticket's changes spell.
fn is_outside(sides: &[(i32, i32)], told: &[Change], changes: &[Change]) -> bool {
    let mut at = 0;
    for change in changes {
        let column = change.column as usize;
        if column >= sides.len() {
            return true;
        }
        while at < told.len() && told[at].column < change.column {
            return true;
        }
        let mut side = sides[column];
        if at < told.len() && told[at].column == change.column {
            side = (told[at].low, told[at].high);
            at += 1;
        }
        if change.low > change.high || change.low < side.0 || change.high > side.1 {
            return true;
        }
    }
    at < told.len()
}
