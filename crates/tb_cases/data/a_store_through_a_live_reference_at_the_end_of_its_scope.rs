fn main() {
    let mut x = 1;
    let r = &mut x;
    print!("{}", *r);
    *r = 2;
}
