//! Prints the image of each character up to U+017F under string preparation, in the form of `second/images.py`: the code point, its
//! image for caseExactMatch and its image for caseIgnoreMatch, with `*` after a space that stays.

use independent::prepare::{image, Case, Image};

fn main() {
    for c in '\0'..='\u{17F}' {
        println!("{:04X}\t{}\t{}", u32::from(c), shown(image(c, Case::Keep)), shown(image(c, Case::Fold)));
    }
}

fn shown(image: Image) -> String {
    match image {
        Image::Nothing => "-".to_string(),
        Image::Space => "0020".to_string(),
        Image::One(letter) => number(letter),
        Image::Several(letters) => {
            letters.chars().map(number).collect::<Vec<_>>().join(" ").replace("0020", "0020*")
        }
    }
}

fn number(c: char) -> String {
    format!("{:04X}", u32::from(c))
}
