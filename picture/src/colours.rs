//! A colour for each block, for any number of blocks.

/// Red, green and blue, from 0 to 255.
pub type Colour = [u8; 3];

/// Eight hues that the colour-blind tell apart (Okabe and Ito's, with grey for black), the
/// strongest contrasts first.
const HUES: [Colour; 8] = [
    [86, 180, 233],
    [230, 159, 0],
    [0, 158, 115],
    [204, 121, 167],
    [240, 228, 66],
    [0, 114, 178],
    [213, 94, 0],
    [153, 153, 153],
];

/// How much of white or black the lightest and the darkest shade of a hue have.
const MOST_MIXED: f64 = 0.75;

const BLACK: Colour = [0; 3];
const WHITE: Colour = [255; 3];

/// The colour of a block: the hues themselves come first, then their lighter and darker shades.
pub fn of_block(block: usize) -> Colour {
    let hue = HUES[block % HUES.len()];
    let place = 1.0 - 2.0 * halving(block / HUES.len());
    mixed(hue, if place < 0.0 { BLACK } else { WHITE }, MOST_MIXED * place.abs())
}

/// Numbers between 0 and 1, as far apart as can be: 1/2, 1/4, 3/4, 1/8, 5/8, 3/8, 7/8, 1/16 ..
fn halving(place: usize) -> f64 {
    let mut remaining = place + 1;
    let (mut sum, mut part) = (0.0, 0.5);
    while remaining > 0 {
        sum += part * (remaining % 2) as f64;
        part /= 2.0;
        remaining /= 2;
    }
    sum
}

/// A colour with a share of another.
fn mixed(colour: Colour, other: Colour, share: f64) -> Colour {
    let channel = |place: usize| {
        let (own, added) = (f64::from(colour[place]), f64::from(other[place]));
        (own + share * (added - own)).round() as u8
    };
    [channel(0), channel(1), channel(2)]
}

/// Black or white, whichever is read better on a colour.
pub fn of_text_on(colour: Colour) -> Colour {
    match contrast(colour, BLACK) > contrast(colour, WHITE) {
        true => BLACK,
        false => WHITE,
    }
}

/// The contrast of two colours, from 1 to 21 (Web Content Accessibility Guidelines).
pub fn contrast(one: Colour, other: Colour) -> f64 {
    let (one, other) = (luminance(one), luminance(other));
    (one.max(other) + 0.05) / (one.min(other) + 0.05)
}

fn luminance(colour: Colour) -> f64 {
    let linear = |channel: u8| match f64::from(channel) / 255.0 {
        dark if dark <= 0.04045 => dark / 12.92,
        bright => ((bright + 0.055) / 1.055).powf(2.4),
    };
    0.2126 * linear(colour[0]) + 0.7152 * linear(colour[1]) + 0.0722 * linear(colour[2])
}

/// A colour as SVG has it.
pub fn written([red, green, blue]: Colour) -> String {
    format!("#{red:02x}{green:02x}{blue:02x}")
}

#[cfg(test)]
mod tests {
    use super::*;
    use std::collections::HashSet;

    #[test]
    fn texts_can_be_read_on_every_colour() {
        for block in 0..4096 {
            let colour = of_block(block);
            assert!(contrast(colour, of_text_on(colour)) >= 4.5, "block {block}");
        }
    }

    #[test]
    fn contrast_of_known_colours() {
        assert_eq!(contrast(BLACK, WHITE), 21.0);
        assert_eq!(contrast(WHITE, WHITE), 1.0);
        // The lightest grey that has the least contrast for texts on white, and the next one.
        assert!(contrast([118, 118, 118], WHITE) >= 4.5);
        assert!(contrast([119, 119, 119], WHITE) < 4.5);
    }

    #[test]
    fn colours_differ() {
        let colours: HashSet<Colour> = (0..256).map(of_block).collect();
        assert_eq!(colours.len(), 256);
    }

    #[test]
    fn halves_then_quarters() {
        let places: Vec<f64> = (0..7).map(halving).collect();
        assert_eq!(places, [0.5, 0.25, 0.75, 0.125, 0.625, 0.375, 0.875]);
    }
}
