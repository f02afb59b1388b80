mod mittenload;
use mittenload::{Cic, Refused};

fn main() -> Result<(), Refused> {
    let mut filter = Cic::new(3, 1, 3)?;
    filter.decimate(1000)?;
    filter.set_rate(filter.rate)?;
    let mut out = [0; 28];
    let written = filter.decimate_block(&[7; 28], &mut out)?;
    let believed = written.settled();
    println!("{} of {} outputs may be believed: {:?}", believed.len(), written.outputs.len(), believed);
    println!("an order of 9: {:?}; a short slice: {:?}", Cic::new(9, 1, 3).err(), filter.decimate_block(&[7; 28], &mut [0; 1]).err());
    Ok(())
}
