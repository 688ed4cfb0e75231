fn main() {
    let mut total = 1;
    let outer = &mut total;
    let inner = &mut *outer;
    *inner = *inner + 10;
    *outer = *outer + 100;
    let raw = &raw mut *outer;
    unsafe { *raw = *raw + 1000; }
    println!("{}", *outer);
    println!("{}", total);
}
