//! The image check of the paper's marked images.

use crate::compared::Compared;
use crate::layout::heading;
use crate::Shown;
use bannelgo::check_image;
use bannelgo_development::calls::number_of;
use bannelgo_development::reference;
use bannelgo_development::samples::{Sample, SAMPLES};
use std::io::Write;

pub fn show(out: &mut impl Write, compared: &mut Compared) -> Shown {
    heading(out, "The marked images")?;
    writeln!(
        out,
        "The library reads a grammar from bytes, its image, and checks it first. The\n\
         customer's paper has five images, each with the number that the check gives; 0\n\
         is accepted.\n"
    )?;
    for sample in &SAMPLES {
        show_sample(out, sample, compared)?;
    }
    Ok(())
}

fn show_sample(out: &mut impl Write, sample: &Sample, compared: &mut Compared) -> Shown {
    let Sample {
        name, about, image, ..
    } = sample;
    let checked = check_image(image);
    let number = checked.as_ref().map_or_else(number_of, |()| 0);
    compared.compare(name, &number, &sample.number);
    compared.compare(name, &number, &reference::check(image));
    let words = checked.map_or_else(|refusal| refusal.to_string(), |()| "accepted".to_string());
    writeln!(out, "{name:<5}{about:<29}{number}  {words}")?;
    Ok(())
}
