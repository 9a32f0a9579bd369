// Two strands add up half of the numbers below n each, and tell their sums through cells.
cell half[2];

fn sum(from, to) {
    let total = 0;
    while from < to { total = total + from; from = from + 1; }
    return total;
}
fn main(n) {
    spawn { half[0] = sum(0, n / 2); }
    half[1] = sum(n / 2, n);
    sync;
    out half[0] + half[1];
}
