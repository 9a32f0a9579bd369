// A fault inside a block. It stops all other strands, whichever of them run at that moment.
cell x; cell y; cell z;

fn work(n) { let i = 0; while i < n { i = i + 1; } }

fn main() {
    let k = 0;
    while k < 5 {
        spawn { atomic { spawn { z = z + 1; work(40); } x = x + 1; work(20); sync; y = y + 1; if z > 2 { out 1 / 0; } } }
        spawn { atomic { y = y + 1; work(40); x = x + 1; } }
        k = k + 1;
    }
}
