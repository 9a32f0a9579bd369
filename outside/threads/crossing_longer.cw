// The same three inner blocks, with more work between the accesses and more rounds.
cell x; cell y;

fn work(n) { let i = 0; while i < n { i = i + 1; } }

fn main() {
    let k = 0;
    while k < 10 {
        atomic {
            spawn { atomic { x = x + 1; work(150); y = y + 1; } }
            spawn { atomic { y = y + 1; work(150); x = x + 1; } }
            atomic { x = x + 1; work(50); y = y + 1; }
        }
        k = k + 1;
    }
}
