//! Runs a desk by a plan: in large pieces at the library's speed, or step by step where each step is shown or looked at.

use crate::machine::Machine;
use crate::plan::{Plan, Until};
use crate::progress::Progress;
use crate::report::{End, Entry};
use crate::show::Show;
use midesk::{Desk, Event, Mark, Refusal, RunEnd};
use std::io;

/// What came of a run.
#[derive(Clone, Debug)]
pub struct Ran {
    pub end: End,
    /// The last kernel entry, where it is known.
    pub entry: Option<Entry>,
    /// The desk before the last step but one, where it is known: where the last one came from.
    pub origin: Option<Desk>,
    /// How many of the plan's requests were made.
    pub requests: usize,
}

/// So many steps are made singly at the beginning, and again at the end of a long run, to see the kernel entries there.
const SINGLY: u64 = 10_000;

/// The steps of a piece.
const PIECE: u64 = 1_000_000;
/// The longest memory that is copied before each piece, so that its last steps can be made again; a longer one would cost time.
const COPIED: usize = 1 << 20;

/// Runs the machine by the plan.
pub fn run(machine: &mut Machine, plan: &Plan, show: &mut Show) -> io::Result<Ran> {
    let mut runner = Runner { machine, plan, entry: None, requests: 0, before: [None, None] };
    let singly = plan.trace || plan.until.is_some();
    let end = match runner.singly(if singly { u64::MAX } else { SINGLY }, show)? {
        Some(end) => end,
        None => runner.in_pieces(),
    };
    let [origin, _] = runner.before;
    Ok(Ran { end, entry: runner.entry, origin, requests: runner.requests })
}

struct Runner<'a> {
    machine: &'a mut Machine,
    plan: &'a Plan,
    entry: Option<Entry>,
    /// How many of the plan's requests are made.
    requests: usize,
    /// The desks before the last two single steps.
    before: [Option<Desk>; 2],
}

impl Runner<'_> {
    /// Single steps up to a step number; none if the run is not over then.
    fn singly(&mut self, up_to: u64, show: &mut Show) -> io::Result<Option<End>> {
        loop {
            if self.machine.steps >= self.plan.limit {
                return Ok(Some(self.at_limit()));
            }
            if self.machine.steps >= up_to {
                return Ok(None);
            }
            if let Some(end) = self.before_step() {
                return Ok(Some(end));
            }
            let event = match self.step(show)? {
                Ok(event) => event,
                Err(refusal) => return Ok(Some(End::Refused(refusal))),
            };
            if let Some(end) = self.judged(event) {
                return Ok(Some(end));
            }
        }
    }

    /// A limit of 0 steps still tries the refusals.
    fn at_limit(&mut self) -> End {
        match self.machine.desk.run(&mut self.machine.memory, 0) {
            Err(refusal) => End::Refused(refusal),
            Ok(_) => End::Limit,
        }
    }

    /// Remembers the desk before a single step.
    fn remember(&mut self) {
        self.before.swap(0, 1);
        self.before[1] = Some(self.machine.desk.clone());
    }

    fn step(&mut self, show: &mut Show) -> io::Result<Result<Event, Refusal>> {
        self.remember();
        if self.plan.trace {
            return match self.machine.step() {
                Ok(step) => {
                    show.step(self.machine, &step)?;
                    Ok(Ok(step.event))
                }
                Err(refusal) => Ok(Err(refusal)),
            };
        }
        let event = self.machine.desk.step(&mut self.machine.memory);
        self.machine.steps += u64::from(event.is_ok());
        Ok(event)
    }

    /// Whether the run is over after a step.
    fn judged(&mut self, event: Event) -> Option<End> {
        if let Event::Entered(cause) = event {
            self.entry = Some(Entry::of(self.machine, cause));
        }
        let held = match (event, &self.plan.until) {
            (Event::Stopped(number), _) => return Some(End::Stopped(number)),
            (Event::Entered(cause), Some(Until::Entry(wanted))) => wanted.is_none_or(|wanted| wanted == cause),
            (_, Some(Until::Place(place))) => place.is_at(&self.machine.desk),
            _ => false,
        };
        let until = self.plan.until.as_ref().filter(|_| held)?;
        Some(End::Held(until.words(&self.machine.known, &self.machine.desk)))
    }

    /// Makes the requests of the next step; the end of the run, where a breakpoint holds it then. None does before the
    /// first step.
    fn before_step(&mut self) -> Option<End> {
        if let Err(refusal) = self.request() {
            return Some(End::Refused(refusal));
        }
        let desk = &self.machine.desk;
        let breakpoint = self.plan.breakpoints.holding(desk).filter(|_| self.machine.steps > 0)?;
        Some(breakpoint.end(&self.machine.known, desk))
    }

    /// Makes the requests whose step is the next one.
    fn request(&mut self) -> Result<(), Refusal> {
        while let Some((step, level)) = self.plan.requests.get(self.requests) {
            if *step > self.machine.steps.saturating_add(1) {
                break;
            }
            self.machine.desk.request(*level)?;
            self.requests += 1;
        }
        Ok(())
    }

    /// Large pieces up to the end.
    fn in_pieces(&mut self) -> End {
        let mut progress = Progress::start(self.machine.steps);
        let breakpoints = self.plan.breakpoints.of_library();
        let mut kept = match self.machine.memory.len() <= COPIED {
            true => self.machine.memory.clone(),
            false => Vec::new(),
        };
        let (mut before, mut made) = (self.machine.desk.clone(), 0);
        let end = loop {
            if self.machine.steps >= self.plan.limit {
                return End::Limit;
            }
            if let Some(end) = self.before_step() {
                break end;
            }
            if !kept.is_empty() {
                kept.copy_from_slice(&self.machine.memory);
            }
            before = self.machine.desk.clone();
            made = match self.piece(&breakpoints) {
                Ok(made) => made,
                Err(refusal) => return End::Refused(refusal),
            };
            progress.show(self.machine.steps);
            if let Mark::Stopped(number) = self.machine.desk.mark() {
                break End::Stopped(number);
            }
        };
        if made > 0 && !kept.is_empty() {
            self.last_steps_again(before, &kept, made);
        }
        end
    }

    /// Makes the steps of the next piece, fewer where the desk stops or a breakpoint holds it; answers how many.
    fn piece(&mut self, breakpoints: &[midesk::Breakpoint]) -> Result<u64, Refusal> {
        (self.entry, self.before) = (None, [None, None]);
        let first = self.machine.steps;
        let last = first + self.next_piece();
        loop {
            let Machine { desk, memory, steps, .. } = &mut *self.machine;
            let (made, end) = desk.run_to(memory, last - *steps, breakpoints)?;
            *steps += made;
            // Held in another mode or program than the name's: goes on.
            if end == RunEnd::Ended || self.plan.breakpoints.holding(desk).is_some() {
                return Ok(*steps - first);
            }
        }
    }

    /// The steps of the next piece: at most up to the limit, and to the step before the next request.
    fn next_piece(&self) -> u64 {
        let request = self.plan.requests.get(self.requests).map_or(u64::MAX, |(step, _)| step - 1);
        PIECE.min(request.min(self.plan.limit) - self.machine.steps)
    }

    /// Makes the last steps of a piece once more, singly, to see their kernel entries. What a step does depends on desk and
    /// memory alone, so they end as before; the desk at the end may have got a request since.
    fn last_steps_again(&mut self, before: Desk, memory: &[u8], made: u64) {
        let end = std::mem::replace(&mut self.machine.desk, before);
        let steps = self.machine.steps;
        self.machine.memory.copy_from_slice(memory);
        self.machine.steps -= made;
        let skipped = self.machine.desk.run(&mut self.machine.memory, made.saturating_sub(SINGLY)).unwrap_or(0);
        self.machine.steps += skipped;
        while self.machine.steps < steps {
            self.remember();
            let Ok(event) = self.machine.desk.step(&mut self.machine.memory) else { break };
            self.machine.steps += 1;
            self.judged(event);
        }
        self.machine.desk = end;
    }
}
