//! A MAC-RESOURCE to SSI 1 without content: counted, written with its fill, printed, read back, and read from too few bits.
use tetra_mac::{Cursor, DownlinkAddress, MacResource, Refusal, SsiType, write_bits};

fn main() -> Result<(), Refusal> {
    let mut pdu = [0u8; 6];
    let mut header = MacResource::to(DownlinkAddress::Ssi(SsiType::Ssi, 1));
    let fill = header.update_len_and_fill_ind(0)?;
    let behind = header.to_bitbuf(&mut pdu, Cursor::new(48))?;
    if fill > 0 {
        write_bits(&mut pdu, behind, 1 << (fill - 1), fill)?;
    }
    println!("{pdu:02x?}");

    let (read, behind) = MacResource::from_bitbuf(&pdu, Cursor::new(48))?;
    println!("{} header bits, {} octets, {:?}", behind.pos, read.length_ind, read.addr);

    if let Err(refusal) = MacResource::from_bitbuf(&pdu, Cursor::new(30)) {
        println!("of 30 bits: {refusal}");
    }
    Ok(())
}
