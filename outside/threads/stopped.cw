// A fault, while other strands have work for minutes. They stop at their next access.
cell c; cell a[8]; cell zero;

fn long(k) { let i = 0; while i < 100000000 { a[k] = a[k] + 1; i = i + 1; } }

fn main() {
    spawn { let i = 0; while i < 20000 { i = i + 1; } c = 1 / zero; }
    spawn { long(0); }
    spawn { long(1); }
    long(2);
}
