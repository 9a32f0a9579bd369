// A block that is given up. What it wrote is put back, and another strand waits until the block has ended.
language 2;

cell c;

fn main() {
    spawn { c = 1; }
    atomic { c = 2; cancel; }
}
