fn main() {
    let mut count = 1;
    let raw = &raw const count;
    let writer = &mut count;
    *writer = 2;
    let seen = unsafe { *raw };
    *writer = 3;
    println!("{}", seen);
}
