fn main() {
    let z = 7;
    let mut x = 1;
    let r = &mut x;
    x = 2;
    print!("{}", z);
    print!("{}", *r);
}
