//! The line protocol on standard input and output (README.md).

fn main() -> std::io::Result<()> {
    oracle::protocol::main()
}
