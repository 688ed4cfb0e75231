fn main() {
    let x = 1;
    let a = &x;
    let y = x;
    let b = &x;
    println!("{} {} {}", *a, y, *b);
}
