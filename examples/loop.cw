// How many steps lead from a number to 1, where an even one is halved, and an odd one becomes 3 times itself and 1.
fn main(n) {
    let steps = 0;
    while n != 1 {
        if n % 2 == 0 { n = n / 2; } else { n = 3 * n + 1; }
        steps = steps + 1;
    }
    out steps;
}
