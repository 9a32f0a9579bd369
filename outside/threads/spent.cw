// A block stays open while a strand beside it asks for its cell, over and over. With few attempts the strand spends its budget.
cell c; cell d;

fn main() {
    spawn { atomic { c = 1; let i = 0; while i < 300000 { d = d + 1; i = i + 1; } } }
    while c == 0 {}
}
