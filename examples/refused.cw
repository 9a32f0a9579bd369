// Two strands write one cell, each in a block. In the turns 0,1,0,0,1,1,1 of two workers the right one is refused once.
cell c;

fn main() {
    spawn { atomic { c = 1; } }
    atomic { atomic { c = 2; } }
}
