fn main() {
    let x = 40;
    let mut y = x + 1;
    y = y + 1;
    print!("{} {}\n", x, y);
}
