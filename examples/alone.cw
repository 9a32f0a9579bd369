// The right strand writes in no block. While the block of the left one is unfinished, that write alone is refused.
cell c;

fn main() {
    spawn { atomic { c = c + 1; } }
    c = 5;
}
