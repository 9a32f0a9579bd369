// Two cells, in opposite orders. The first block spawns, so a stolen strand may have to be rolled back with it.
cell x; cell y; cell z;

fn work(n) { let i = 0; while i < n { i = i + 1; } }

fn main() {
    let k = 0;
    while k < 6 {
        spawn { atomic { spawn { z = z + 1; work(40); } x = x + 1; work(20); sync; y = y + 1; } }
        spawn { atomic { y = y + 1; work(40); x = x + 1; } }
        k = k + 1;
    }
}
