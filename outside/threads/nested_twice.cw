// A block whose spawned strand spawns again. What is rolled back was joined from two forks, one within the other.
cell x; cell y; cell z; cell t;

fn work(n) { let i = 0; while i < n { i = i + 1; } }

fn main() {
    let k = 0;
    while k < 5 {
        spawn {
            atomic {
                spawn { spawn { z = z + 1; work(20); } t = t + 1; work(20); }
                x = x + 1; work(20); sync; y = y + 1;
            }
        }
        spawn { atomic { y = y + 1; work(40); x = x + 1; work(30); t = t + 1; z = z + 1; } }
        k = k + 1;
    }
}
