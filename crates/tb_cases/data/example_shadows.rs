fn main() {
    let a = 1;
    let a = a + a;
    let mut b = a + 10 + a;
    print!("{} and {}\n", a, b);
    let a = b + 1;
    b = a + b;
    print!("{} and {}\n", a, b);
}
