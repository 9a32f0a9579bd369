// Two strands write one cell, in no block. Which write comes last depends on the schedule.
cell c;

fn main() {
    spawn { c = 1; }
    c = 2;
}
