//! The marked images with the numbers of the checker written apart.

use super::output::part;
use bannelgo::check_image;
use bannelgo_development::reference;
use bannelgo_development::samples::SAMPLES;

#[test]
fn the_marked_images_have_number_and_words() {
    let expected = SAMPLES.iter().map(|sample| {
        let number = reference::check(sample.image);
        let words = check_image(sample.image)
            .map_or_else(|refusal| refusal.to_string(), |()| "accepted".into());
        (sample.name, format!(" {number}  {words}"))
    });
    let lines = part("The marked images").into_iter();
    let lines = lines.skip_while(|line| !line.starts_with("D2"));
    let printed: Vec<&str> = lines.take_while(|line| !line.is_empty()).collect();
    assert_eq!(printed.len(), SAMPLES.len());
    for (line, (name, number_and_words)) in printed.iter().zip(expected) {
        assert!(line.starts_with(&format!("{name} ")), "{line}");
        assert!(line.ends_with(&number_and_words), "{line}");
    }
}
