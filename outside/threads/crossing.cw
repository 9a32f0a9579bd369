// Three inner blocks of one outer block cross: x and then y, y and then x. Only an inner one may have to roll back.
cell x; cell y;

fn work(n) { let i = 0; while i < n { i = i + 1; } }

fn main() {
    let k = 0;
    while k < 5 {
        atomic {
            spawn { atomic { x = x + 1; work(40); y = y + 1; } }
            spawn { atomic { y = y + 1; work(40); x = x + 1; } }
            atomic { x = x + 1; work(50); y = y + 1; }
        }
        k = k + 1;
    }
}
