fn main() {
    let mut x = 1;
    let r = &mut x;
    *r = 3;
    let y = x;
    *r = 2;
    println!("{}", y);
}
