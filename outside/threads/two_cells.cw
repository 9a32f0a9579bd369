// Two cells, in opposite orders, with nothing spawned inside a block.
cell x; cell y;

fn work(n) { let i = 0; while i < n { i = i + 1; } }

fn main() {
    let k = 0;
    while k < 20 {
        spawn { atomic { x = x + 1; work(100); y = y + 1; } }
        spawn { atomic { y = y + 1; work(200); x = x + 1; } }
        k = k + 1;
    }
}
