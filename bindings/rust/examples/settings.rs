//! Settings of a modem in a frame of 1,024 bytes: put, replaced, read, listed, erased, packed, and read again from the packed bytes.
#![forbid(unsafe_code)]

use frame_store::{Frame, Refusal, View};

fn main() -> Result<(), Refusal> {
    let mut bytes = [0; 1024];
    let mut frame = Frame::format(&mut bytes, 8)?;
    for (key, value) in [("line.rate", "100"), ("line.mode", "vdsl"), ("host", "modem")] {
        println!("put {key}={value}: {:?}", frame.put(key.as_bytes(), value.as_bytes())?);
    }
    println!("put line.mode=adsl: {:?}", frame.put(b"line.mode", b"adsl")?);
    println!("replace line.mode=adsl: {:?}", frame.replace(b"line.mode", b"adsl")?);
    show(frame.view(), "line.mode")?;
    let mut buffer = [0; 114];
    let mut names = frame.names(b"line.", &mut buffer);
    while let Some(entry) = names.next_entry()? {
        println!("name {}", String::from_utf8_lossy(entry.text()));
    }
    println!("erase host: {:?}", frame.erase(b"host")?);
    show(frame.view(), "host")?;

    let mut packed = [0; 1024];
    let packed = frame.pack(&mut packed)?;
    show(packed.view(), "line.rate")?;

    // U is wrong now: no good frame. Damage to a value would pass; the example settings_file keeps a checksum.
    let mut stored = packed.bytes().to_vec();
    stored[20] ^= 1;
    println!("damaged: {:?}", View::open(&stored).err());
    Ok(())
}

fn show(view: View, key: &str) -> Result<(), Refusal> {
    let value = view.look_up(key.as_bytes())?.map(String::from_utf8_lossy);
    println!("look up {key}: {}", value.as_deref().unwrap_or("absent"));
    Ok(())
}
