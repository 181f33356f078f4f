use obolchime::{read, Refusal};

fn main() -> Result<(), Refusal> {
    let message = read(b"0200\x70\0\0\0\0\0\0\x00164111111111111111000000000000012345")?;
    println!("{} has {} fields", message.mti(), message.fields().len());
    for field in message.fields() {
        let text = String::from_utf8_lossy(field.content);
        println!("field {} at {}: {text}", field.number, field.offset);
    }
    println!("same bytes: {}", message.to_vec()? == message.bytes());
    println!("{}", read(b"0200\x40\0\0\0\0\0\0\x0020").unwrap_err());
    Ok(())
}
