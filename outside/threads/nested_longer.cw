// As `nested`, with more work between the accesses and more rounds.
cell x; cell y; cell z;

fn work(n) { let i = 0; while i < n { i = i + 1; } }

fn main() {
    let k = 0;
    while k < 20 {
        spawn { atomic { spawn { z = z + 1; work(200); } x = x + 1; work(100); sync; y = y + 1; } }
        spawn { atomic { y = y + 1; work(200); x = x + 1; } }
        k = k + 1;
    }
}
