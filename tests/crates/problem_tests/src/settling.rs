// Settled heads of a problem.
use crate::answers::push_settled;
use crate::case::Case;
use crate::guesses::Spoilt;
use near_settler::{NearSettler, SerialSettler};
use outside::FreeGate;
use settle_driver::{PlainSettler, Plan, ThreadSettler, settle, settle_near};
use std::alloc::AllocError;
use std::cell::Cell;
use std::thread::Threads;
use step_problem::{Bound, SettleFault, Settler};
use test_lines::{Answered, Count, Page};

// By sweeps on one thread.
impl<R: Threads + Sync> Case<'_, R> {
    pub fn push_sweeps(&self, page: &mut Page) {
        let mut settler = PlainSettler::new(self.number(0));
        push_settled(page, settler.settle(page.alloc(), self.p, self.b));
    }

    /// From the given bounds, by trials of some sweeps, and then by one round.
    pub fn push_near(&self, page: &mut Page) -> Answered {
        let (alloc, trials) = (page.alloc(), self.number(0));
        let near = Vec::from_slice(alloc, self.bounds)?;
        let (mut trial, mut last) = (PlainSettler::new(self.number(1)), PlainSettler::new(1));
        let answer = settle_near(&mut trial, &mut last, alloc, self.p, self.b, near, trials);
        push_settled(page, answer);
        Ok(())
    }

    /// By a list, whose cells the numbers after the first one name, and then by some sweeps.
    pub fn push_listed(&self, page: &mut Page) -> Answered {
        let mut list = Vec::new(page.alloc());
        for place in 1..self.numbers.len() {
            list.push(self.number(place))?;
        }
        let mut settler = PlainSettler::with_list(list.as_slice(), self.number(0));
        push_settled(page, settler.settle(page.alloc(), self.p, self.b));
        Ok(())
    }

    // Steps of the same problem by a guessing settler on one thread, with the number of its guesses so far after each.
    fn push_alone(&self, page: &mut Page, bounds: &[Bound], rounds: u32, steps: u32) {
        let guesses = Cell::new(0);
        let mut alone = SerialSettler::with_guesser(Spoilt::new(bounds, &guesses), rounds);
        for _step in 0..steps {
            push_settled(page, alone.settle(page.alloc(), self.p, self.b));
            page.line(format_args!("guesses {}", guesses.get()));
        }
        drop(alone);
    }
}

// By workers.
impl<R: Threads + Sync> Case<'_, R> {
    // With the given bounds as the guess, and the number of guesses.
    fn push_spoilt(&self, page: &mut Page, plan: Plan) {
        let guesses = Cell::new(0);
        let spoilt = Spoilt::new(self.bounds, &guesses);
        let near = NearSettler::with_guesser(self.rt, plan, &FreeGate, spoilt);
        push_settled(page, near.settle(page.alloc(), self.p, self.b));
        page.line(format_args!("guesses {}", guesses.get()));
        drop(near);
    }

    // Steps of the same problem as a run settles them, with the passes of the gate so far after each.
    fn push_run(&self, page: &mut Page, plan: Plan, steps: u32) {
        let gate = Count::default();
        let near = NearSettler::new(self.rt, plan, &gate);
        for _step in 0..steps {
            push_settled(page, near.settle(page.alloc(), self.p, self.b));
            page.line(format_args!("passes {}", gate.get()));
        }
        drop(near);
    }

    fn push_phases(&self, page: &mut Page, plan: Plan) {
        let gate = Count::default();
        let settler = ThreadSettler::new(self.rt, plan, &gate);
        push_settled(page, settler.settle(page.alloc(), self.p, self.b));
        page.line(format_args!("passes {}", gate.get()));
    }

    /// The passes of a gate. A settling that lacks memory ends the program where it has made whole phases, each of as many
    /// passes as the fourth number.
    pub fn push_whole_phases(&self, page: &mut Page) -> Answered {
        let gate = Count::default();
        let settler = ThreadSettler::new(self.rt, self.plan(), &gate);
        let answer = settler.settle(page.alloc(), self.p, self.b);
        let lacks_memory = matches!(answer, Err(SettleFault::Memory));
        drop(answer);
        let passes = gate.get();
        if lacks_memory && passes % u64::from(self.number(3)) == 0 {
            return Err(AllocError);
        }
        Ok(page.line(format_args!("passes {passes}")))
    }

    // The plan of the first three numbers.
    fn plan(&self) -> Plan {
        Plan {
            workers: self.number(0),
            turns_per_cell: self.number(1),
            rounds: self.number(2),
        }
    }

    /// By a plan.
    pub fn push_by_plan(&self, page: &mut Page) {
        let plan = self.plan();
        if !plan.fits() {
            return page.line("no plan");
        }
        match self.question {
            "workers" => {
                let answer = settle(self.rt, page.alloc(), self.p, self.b, plan, &FreeGate);
                push_settled(page, answer);
            }
            "phases" => self.push_phases(page, plan),
            "run" => self.push_run(page, plan, 1),
            "spoilt" => {
                self.push_spoilt(page, plan);
                self.push_alone(page, self.bounds, plan.rounds, 1);
            }
            "twice" => {
                self.push_run(page, plan, 2);
                self.push_alone(page, &[], plan.rounds, 2);
            }
            other => page.line(format_args!("unknown: {other}")),
        }
    }
}
