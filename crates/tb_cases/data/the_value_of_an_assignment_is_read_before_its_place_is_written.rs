fn main() {
    let mut x = 1;
    let r = &mut x;
    *r = 2;
    *r = x + 1;
}
