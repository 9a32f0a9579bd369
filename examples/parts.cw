// A transfer is one block that spawns half of its work. Whoever adds up both cells in a block sees 100.
cell from = 100;
cell to;

fn main() {
    spawn {
        atomic {
            spawn { from = from - 30; }
            to = to + 30;
        }
    }
    atomic { out from + to; }
}
