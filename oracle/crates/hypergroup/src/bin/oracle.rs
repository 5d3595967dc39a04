fn main() {
    hypergroup::cli::main()
}
