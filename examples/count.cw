// One is added to a cell, and the cell is shown.
cell c;

fn main() {
  c = c + 1;
  out c;
}
