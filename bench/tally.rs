// What the random calls came to, so that one sees that nothing is rare.
use crate::plain::axis::{State, Task};

pub const STATES: [&str; 6] = ["idle", "programming", "running", "pause", "holding", "held"];
const COMMANDS: [(u32, &str); 10] = [
    (0, "Absolute"),
    (1, "Relative"),
    (2, "Hold"),
    (3, "Resume"),
    (4, "Immediate Stop"),
    (9, "Preset"),
    (10, "Reset Errors"),
    (11, "Program"),
    (12, "Segment"),
    (13, "Run"),
];

pub fn column(state: State) -> usize {
    match state {
        State::Idle => 0,
        State::Programming => 1,
        State::Running => 2,
        State::Pausing { .. } => 3,
        State::Holding => 4,
        State::Held => 5,
    }
}

// By the state in which the call was made.
type Row = [u64; 6];

#[derive(Default)]
pub struct Tally {
    pub lists: u64,
    // By the number that was answered.
    pub set_ups: [Row; 14],
    pub blocks: [Row; 14],
    pub readings: [Row; 14],
    // By the code, 8 for all that are unknown.
    pub events: [Row; 9],
    pub quiet_ticks: Row,
    pub sending_ticks: Row,
    pub looks: Row,
    pub steps: u64,
    // By the bit of the command.
    pub accepted: [u64; 16],
    pub single_moves: u64,
    pub blends: u64,
    pub dwell_moves: u64,
    pub completed_singles: u64,
    pub completed_blends: u64,
    pub completed_dwells: u64,
    pub rows_begun: u64,
    pub pauses: u64,
    pub holds_held: u64,
    pub holds_completed: u64,
    pub holds_abandoned: u64,
    pub holds_at_once: u64,
    pub full_tables: u64,
    pub tables_ready: u64,
    pub tables_emptied: u64,
}

impl Tally {
    // How a move ended, or a row of one, in a tick or a block.
    pub fn passage(&mut self, before: State, after: State, task: Task, completed: bool) {
        let was_moving = matches!(before, State::Running | State::Pausing { .. });
        match (before, after) {
            (State::Running, State::Pausing { .. }) => {
                self.pauses += 1;
                self.rows_begun += 1;
            }
            (State::Running | State::Holding, State::Held) => self.holds_held += 1,
            (State::Holding, State::Idle) if completed => self.holds_completed += 1,
            (State::Holding, State::Idle) => self.holds_abandoned += 1,
            (_, State::Idle) if was_moving && completed => match task {
                Task::Single { .. } => self.completed_singles += 1,
                Task::Blend => self.completed_blends += 1,
                Task::Dwell { .. } => {
                    self.completed_dwells += 1;
                    self.rows_begun += 1;
                }
            },
            _ => {}
        }
    }

    fn ticks(&self) -> u64 {
        total(&self.quiet_ticks) + total(&self.sending_ticks)
    }

    fn others(&self) -> u64 {
        let all = [
            &self.set_ups[..],
            &self.blocks,
            &self.readings,
            &self.events,
        ];
        all.iter()
            .flat_map(|rows| rows.iter())
            .map(total)
            .sum::<u64>()
            + total(&self.looks)
    }

    // Calls that are compared: each tick is one.
    pub fn calls(&self) -> u64 {
        self.ticks() + self.others()
    }

    pub fn print(&self) {
        println!("calls by the state in which they are made:");
        print!("{:<26}", "");
        STATES.iter().for_each(|state| print!(" {state:>11}"));
        println!();
        print_answers("set-up", &self.set_ups);
        print_answers("block", &self.blocks);
        print_answers("reading", &self.readings);
        for (code, row) in self.events.iter().enumerate().skip(1) {
            let code = if code < 8 {
                code.to_string()
            } else {
                "unknown".into()
            };
            print_row(&format!("event {code}"), row);
        }
        print_row("tick that sends none", &self.quiet_ticks);
        print_row("tick that sends", &self.sending_ticks);
        print_row("look at the drive", &self.looks);
        println!("commands accepted:");
        for (bit, name) in COMMANDS {
            println!("  {name:<24} {:>11}", self.accepted[bit as usize]);
        }
        println!("what they came to:");
        for (name, count) in [
            ("single moves begun", self.single_moves),
            ("  completed", self.completed_singles),
            ("blends begun", self.blends),
            ("  completed", self.completed_blends),
            ("dwell moves begun", self.dwell_moves),
            ("  completed", self.completed_dwells),
            ("  rows gone", self.rows_begun),
            ("  pauses", self.pauses),
            ("holds ended Held", self.holds_held),
            ("holds ended complete", self.holds_completed),
            ("holds ended idle", self.holds_abandoned),
            ("holds over in the block", self.holds_at_once),
            ("tables closed ready", self.tables_ready),
            ("  of 16 rows", self.full_tables),
            ("tables closed empty", self.tables_emptied),
            ("steps sent, both ways", self.steps),
        ] {
            println!("  {name:<24} {count:>11}");
        }
        println!(
            "{} lists, {} calls: {} ticks and {} others",
            self.lists,
            self.calls(),
            self.ticks(),
            self.others()
        );
    }
}

fn total(row: &Row) -> u64 {
    row.iter().sum()
}

fn print_row(name: &str, row: &Row) {
    print!("  {name:<24}");
    row.iter().for_each(|count| print!(" {count:>11}"));
    println!();
}

// The numbers that never come are left out where no call can answer them; 0 to 10 are a block's.
fn print_answers(call: &str, rows: &[Row; 14]) {
    for (number, row) in rows.iter().enumerate() {
        if total(row) > 0 {
            print_row(&format!("{call} answers {number}"), row);
        }
    }
}
