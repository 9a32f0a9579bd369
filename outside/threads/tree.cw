// Blocks within blocks, each with a spawned half, beside a strand that writes the same cells over and over.
cell c; cell d;

fn f(n) { if n { atomic { spawn { f(n - 1); } f(n - 1); c = c + 1; } } else { atomic { d = d + 1; } } }

fn main() {
    spawn { let i = 0; while i < 8 { atomic { c = c + 1; d = d + 1; } i = i + 1; } }
    f(3);
    spawn { f(2); }
    f(2);
}
