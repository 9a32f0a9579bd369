// One block, in which three strands add to a cell, each in a block of its own.
cell c;
fn main() {
    atomic {
        spawn { atomic { c = c + 3; } }
        spawn { spawn { atomic { c = c + 4; } } atomic { c = c + 5; } }
        sync;
        out c;
    }
    spawn { out 3; }
    sync;
    c = c + 3;
}
