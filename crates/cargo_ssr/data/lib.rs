fn f(a: Option<u8>, b: Option<u8>) -> u8 {
    a.unwrap() + b.unwrap()
}
