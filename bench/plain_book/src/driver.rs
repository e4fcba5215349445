//! The made messages: the same as those of `ug_measure`.

use crate::book::{Book, Change, Heard, Order, Problem, Report, Settings, Ticket};

const RANKS: u32 = 256;

pub struct Answers {
    kept: u64,
    stale: u64,
    other: u64,
    deaths: u64,
    decisions: u64,
    books: u64,
}

impl Answers {
    fn count(&mut self, answer: Heard) {
        match answer {
            Heard::Kept => self.kept += 1,
            Heard::Stale => self.stale += 1,
            _ => self.other += 1,
        }
    }

    pub fn print(&self) {
        println!("kept {}", self.kept);
        println!("stale {}", self.stale);
        println!("other {}", self.other);
        println!("deaths {}", self.deaths);
        println!("decisions {}", self.decisions);
        println!("books {}", self.books);
    }
}

struct Random {
    state: u64,
}

impl Random {
    fn below(&mut self, n: u32) -> u32 {
        self.state = self
            .state
            .wrapping_mul(6_364_136_223_846_793_005)
            .wrapping_add(1_442_695_040_888_963_407);
        (self.state >> 33) as u32 % n
    }
}

struct Solver {
    ticket: Ticket,
    works: bool,
    hands: u64,
    asked: u32,
    changes: Vec<Change>,
}

impl Solver {
    fn obey(&mut self, order: &Order) {
        match order {
            Order::Work { ticket, changes } => {
                self.ticket = *ticket;
                self.works = true;
                self.hands = 0;
                self.asked = 0;
                self.changes.clear();
                self.changes.extend_from_slice(changes);
            }
            Order::CollectIn { count } => self.asked = *count,
            Order::CollectOut => self.asked = 0,
            Order::Stop => self.works = false,
            Order::Incumbent => {}
        }
    }

    fn next_box(&self) -> Option<Vec<Change>> {
        let mut list = Vec::with_capacity(self.changes.len() + 1);
        list.extend_from_slice(&self.changes);
        let column = self.changes.last().map_or(0, |change| change.column + 1);
        if column >= 100 {
            return None;
        }
        let low = if self.hands % 2 == 0 { 0 } else { 4 };
        list.push(Change { column, low, high: low + 3 });
        Some(list)
    }

    fn message(&mut self, dice: u32) -> Report {
        let ticket = self.ticket;
        if !self.works || dice < 20 {
            let ticket = Ticket { run: ticket.run, number: ticket.number.wrapping_sub(1) };
            return Report::Solution { ticket, point: vec![0] };
        }
        if self.asked > 0 {
            if let Some(changes) = self.next_box() {
                let number = self.hands;
                self.hands += 1;
                self.asked -= 1;
                return Report::Hand { ticket, number, changes };
            }
        }
        if dice < 120 {
            self.works = false;
            return Report::Done { ticket, cutoff: None, count: self.hands };
        }
        Report::State { ticket, open: u64::from(dice), floor: i128::from(dice) }
    }
}

fn begin(problem: &Problem) -> Book<'_> {
    Book::new(problem, Settings { solvers: RANKS, low: 64, high: 512 })
}

struct Crew<'a> {
    book: Book<'a>,
    solvers: Vec<Solver>,
    random: Random,
    answers: Answers,
}

impl Crew<'_> {
    fn all_join(&mut self) {
        self.answers.books += 1;
        for solver in &mut self.solvers {
            solver.works = false;
        }
        for rank in 0..RANKS {
            self.book.join(rank);
        }
        self.decide();
    }

    fn decide(&mut self) {
        self.answers.decisions += 1;
        self.book.decide();
        while let Some(told) = self.book.next_order() {
            self.solvers[told.rank as usize].obey(&told.order);
        }
    }

    fn send_one(&mut self) {
        let rank = self.random.below(RANKS);
        let dice = self.random.below(1000);
        if dice == 0 {
            self.book.gone(rank);
            self.answers.deaths += 1;
            self.book.join(rank);
            self.solvers[rank as usize].works = false;
        }
        let report = self.solvers[rank as usize].message(dice);
        let decides = matches!(report, Report::Done { .. } | Report::Hand { .. });
        let answer = self.book.hear(rank, report);
        self.answers.count(answer);
        if decides || dice == 0 {
            self.decide();
        }
    }
}

pub fn drive(count: u64) -> Answers {
    let problem = Problem { sides: vec![(0, 7); 100], factors: vec![1; 100] };
    let mut solvers = Vec::new();
    for _ in 0..RANKS {
        solvers.push(Solver {
            ticket: Ticket { run: 1, number: 0 },
            works: false,
            hands: 0,
            asked: 0,
            changes: Vec::new(),
        });
    }
    let mut crew = Crew {
        book: begin(&problem),
        solvers,
        random: Random { state: 1 },
        answers: Answers { kept: 0, stale: 0, other: 0, deaths: 0, decisions: 0, books: 0 },
    };
    crew.all_join();
    for _ in 0..count {
        crew.send_one();
        if crew.book.is_over() {
            crew.book = begin(&problem);
            crew.all_join();
        }
    }
    crew.answers
}
