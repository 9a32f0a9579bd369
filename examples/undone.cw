// The outer block of the right strand is refused at `c`, once the inner one has ended. Both are undone, and done again.
cell a = 7;
cell b = 8;
cell c;

fn main() {
    spawn { atomic { c = 1; } }
    atomic {
        atomic { a = a + 1; }
        b = b + 1;
        c = 2;
    }
}
