fn main() {
    let mut x = 1;
    let mut y = 2;
    let mut p = &raw mut x;
    p = &raw mut y;
    unsafe { *p = 5; }
    println!("{} {}", x, y);
}
