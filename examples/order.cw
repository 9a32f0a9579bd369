// The outputs of a run come in the order in which one memory does the same.
cell c;

fn main() {
    spawn { atomic { out 1; c = 1; } }
    out 2;
}
