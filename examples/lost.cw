// Two strands of one block add one each, with no blocks of their own: both may read 0.
cell c;

fn main() {
    atomic {
        spawn { c = c + 1; }
        c = c + 1;
    }
}
