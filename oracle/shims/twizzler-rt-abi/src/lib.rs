pub mod error {
    #[derive(Debug)]
    pub struct TwzError;
}
