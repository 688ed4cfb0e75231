fn main() {
    let mut balance = 10;
    let raw = &raw mut balance;
    let held = unsafe { &mut *raw };
    print!("before: {}\n", *held);
    unsafe { *raw = 20; }
    println!("after: {}", *held);
}
