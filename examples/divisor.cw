// The greatest number that divides both, by a function that calls itself.
fn divisor(a, b) {
    if b == 0 { return a; }
    return divisor(b, a % b);
}

fn main(a, b) {
    out divisor(a, b);
}
