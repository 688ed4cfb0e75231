fn main() {
    let mut x = 1;
    let a = &x;
    let p = &raw mut x;
    unsafe { *p = 2; }
    println!("{}", *a);
}
