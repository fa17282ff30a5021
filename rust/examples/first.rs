//! A first program: README.md has it, too.

use zombirels::package::PackageBuf;
use zombirels::Refusal;

fn main() -> Result<(), Refusal> {
    let mut slide = PackageBuf::start(10_000)?;
    slide.put_item("/Left/T3.tif/[1].last.piece", "world")?;
    slide.put_item("/left/t3.tif/[0].piece", "hello ")?;
    slide.put_default("tif", "image/tiff")?;
    assert_eq!(slide.put_item("/left", ""), Err(Refusal::Derivable));
    for part in slide.parts()? {
        let media_type = part.media_type().unwrap_or("no type".into());
        println!("{part}: {media_type}, {} bytes", part.len());
    }
    assert_eq!(slide.read_part_to_vec("/LEFT/t3.tif")?, b"hello world");
    Ok(())
}
