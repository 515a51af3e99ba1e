// A gate and sinks that hold workers and puts until others have passed.
use outside::{Gate, MemSink, Sink, SinkError};
use test_lines::Count;

// What waits in a run, and what the two counts of its gate count.
#[derive(Clone, Copy)]
enum Hold {
    /// Nothing. One counts the passes.
    Nothing,
    /// Each of two workers at its first pass, until the other has passed. One and two count the passes of each.
    Workers,
    /// The watching seat at its first pass, until a worker's third has come. One counts the worker's passes, two the seat's.
    Seat,
    /// The pass after the first step's until the second put, and this put until that pass. One counts passes, two puts.
    Puts,
}

/// A gate with two counts that wait for each other, and a count of the waits in vain.
#[derive(Drop)]
pub struct Meeting {
    hold: Hold,
    pub one: Count,
    two: Count,
    pub failures: Count,
}

// The turns of each of two workers in a short phase over 128 cells.
const TURNS: u32 = 192;

// The pass of worker 1 before which two of its turns are made.
const AWAITED: u64 = 3;

// The passes of one worker at a step with one variable cell, and one more.
const PASSES: u64 = 65;

fn hold_of(question: &str) -> Hold {
    match question {
        "@meet" => Hold::Workers,
        "@await" => Hold::Seat,
        "@shake_hands" => Hold::Puts,
        _ => Hold::Nothing,
    }
}

impl Meeting {
    /// The gate of a question about a run.
    pub fn new(question: &str) -> Meeting {
        Meeting {
            hold: hold_of(question),
            one: Count::default(),
            two: Count::default(),
            failures: Count::default(),
        }
    }

    /// How the passes of two workers compare: as often in whole short phases, once each, or otherwise.
    pub fn comparison(&self) -> &'static str {
        let (one, two) = (self.one.get(), self.two.get());
        if one == two && one > 0 && one % u64::from(TURNS) == 0 {
            "equal, in whole phases"
        } else if one == 1 && two == 1 {
            "one each"
        } else {
            "unequal"
        }
    }

    // Counts one more; after `before` of them it waits until the other count reaches a number.
    fn add(&self, own: &Count, before: u64, other: &Count, number: u64) {
        if own.add() == before {
            other.wait(number, &self.failures);
        }
    }

    fn begin_put(&self) {
        if let Hold::Puts = self.hold {
            self.add(&self.two, 1, &self.one, PASSES);
        }
    }
}

impl Gate for Meeting {
    // Of two workers the pass of another worker or turn is a failure too.
    fn pass(&self, worker: u32, turn: u32) {
        let (one, two) = (&self.one, &self.two);
        match self.hold {
            Hold::Workers if turn < TURNS && worker == 1 => self.add(one, 0, two, 1),
            Hold::Workers if turn < TURNS && worker == 2 => self.add(two, 0, one, 1),
            Hold::Workers => drop(self.failures.add()),
            Hold::Seat if worker == 0 => self.add(two, 0, one, AWAITED),
            Hold::Puts => self.add(one, PASSES - 1, two, 2),
            _ => drop(one.add()),
        }
    }
}

/// A sink in memory, whose put of the number `lacking`, from 1, lacks memory; 0 means none.
#[derive(Drop)]
pub struct MeetingSink<'a> {
    kept: &'a mut MemSink,
    meeting: &'a Meeting,
    lacking: u64,
    puts: Count,
}

impl<'a> MeetingSink<'a> {
    pub fn new(kept: &'a mut MemSink, meeting: &'a Meeting, lacking: u64) -> MeetingSink<'a> {
        MeetingSink {
            kept,
            meeting,
            lacking,
            puts: Count::default(),
        }
    }

    // Counts a put, and returns its number.
    fn begin_put(&self) -> u64 {
        self.meeting.begin_put();
        self.puts.add().wrapping_add(1)
    }
}

impl<'a> Sink for MeetingSink<'a> {
    ghost use Rattle.std.specs.Prelude.{refl};
    ghost use Rattle.outside.specs.Memory.{seen_in_memory};
    ghost use Rattle.outside.specs.Puts.{PutsMake};

    ghost seen = { λ s. seen_in_memory s.kept.now };

    ghost leads = { λ s puts t. PutsMake (seen_in_memory s.kept.now) puts (seen_in_memory t.kept.now) };

    ghost rests = { λ _. refl };

    ghost tells = { λ _ _ _ h. h };

    fn put(&mut self, piece: &[u8]) -> Result<(), SinkError> {
        if self.begin_put() == self.lacking {
            return Err(SinkError::Memory);
        }
        self.kept.put(piece)
    }
}
